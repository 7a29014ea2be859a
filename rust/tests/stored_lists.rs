//! The stored cell lists of crates/convert_cells and crates/convert_lists, and of the stored pictures that stand both
//! unconverted and converted, converted through the Rust API.

mod common;

use common::stored::{input, output, records};
use tinladle::convert_cells;

#[test]
fn one_list() {
    let (given, wanted) = (input("convert_cells"), output("convert_cells"));
    assert_ne!(given, wanted, "there is something to convert");
    assert_eq!(convert_cells(&given).unwrap(), wanted);
}

#[test]
fn many_lists() {
    // Each behind its length in two bytes, which are not converted.
    let (given, mut made) = (input("convert_lists"), Vec::new());
    let mut rest = &given[..];
    while let Some((head, after)) = rest.split_first_chunk::<2>() {
        let (list, after) = after.split_at(u16::from_le_bytes(*head).into());
        made.extend(head);
        made.extend(convert_cells(list).unwrap());
        rest = after;
    }
    assert_eq!(rest, []);
    assert_eq!(made, output("convert_lists"));
}

/// Of a program's pictures, each that stands as it was with the one that it is converted to; numbered from 1.
const PAIRS: [(&str, &[(usize, usize)]); 3] = [
    ("picture_cases", &[(985, 986), (987, 988), (989, 990), (991, 992), (993, 994), (995, 996), (997, 998)]),
    ("real_pictures", &[(14, 7)]),
    ("tile_cases", &[(67, 25), (68, 32)]),
];

#[test]
fn pictures_that_stand_unconverted_too() {
    for (program, pairs) in PAIRS {
        let (pictures, _) = records(program);
        for &(before, after) in pairs {
            let (mut old, new) = (pictures[before - 1].clone(), &pictures[after - 1]);
            assert_ne!(old.picture.cells, new.picture.cells, "{program}: {before}");
            old.picture.cells = convert_cells(&old.picture.cells).unwrap();
            assert_eq!(old.picture, new.picture, "{program}: {before} and {after}");
        }
    }
}
