//! The conversion of stored cell lists to the rule of document 02's C-14: a strength needs its edge flag.

mod common;

use common::tool::{old_style, old_style_filtered};
use common::{by_the_rule, edges, flat, run};
use tinladle::{Cell, ChromaFormat, PictureBuf, Settings, convert_cells};

/// The conversion, held to the rule; and what is converted stays when it is converted again.
fn converted(cells: &[u8]) -> Vec<u8> {
    let once = convert_cells(cells).unwrap();
    assert_eq!(once, by_the_rule(cells));
    assert_eq!(convert_cells(&once).unwrap(), once, "twice is once");
    once
}

#[test]
fn an_empty_list() {
    assert_eq!(converted(&[]), []);
}

#[test]
fn one_record_by_hand() {
    let of = |flags, vertical, horizontal| [101, flags, vertical, horizontal, 3, 2, 0, 0];
    let cases = [
        (of(0, 2, 1), of(0, 0, 0)),
        (of(1, 2, 1), of(1, 2, 0)),
        (of(2, 2, 1), of(2, 0, 1)),
        (of(3, 2, 1), of(3, 2, 1)),
        // Marks are no edges: lossless, PCM and palette.
        (of(28, 1, 2), of(28, 0, 0)),
        (of(29, 1, 2), of(29, 1, 0)),
        (of(30, 1, 2), of(30, 0, 2)),
    ];
    for (before, after) in cases {
        assert_eq!(converted(&before), after, "{before:?}");
    }
}

#[test]
fn every_flags_byte_and_strength() {
    // 0 to 31 and 0 to 2 are in range; the others no check would accept, and the conversion minds the rule alone.
    let strengths = [0, 1, 2, 3, 127, 255];
    let mut all = Vec::new();
    for flags in 0..=255 {
        for vertical in strengths {
            for horizontal in strengths {
                let record = [flags ^ 90, flags, vertical, horizontal, flags, !flags, vertical, 255 - horizontal];
                converted(&record);
                all.extend(record);
            }
        }
    }
    converted(&all);
}

#[test]
fn a_partial_last_record_is_copied() {
    // Flags 0 and strengths 2, so that a whole record would change.
    let record = [101, 0, 2, 2, 7, 7, 7, 7];
    for whole in 0..3 {
        for part in 1..8 {
            let list = [record.repeat(whole), record[..part].to_vec()].concat();
            let wanted = [[101, 0, 0, 0, 7, 7, 7, 7].repeat(whole), record[..part].to_vec()].concat();
            assert_eq!(converted(&list), wanted, "{whole} records and {part} bytes");
        }
    }
}

#[test]
fn any_bytes_of_any_length() {
    let mut state = 0x9E37_79B9_7F4A_7C15_u64;
    let mut byte = || {
        state = state.wrapping_mul(6_364_136_223_846_793_005).wrapping_add(1_442_695_040_888_963_407);
        (state >> 56) as u8
    };
    for length in (0..300).chain([32_767, 32_768, 32_769, 100_001]) {
        let list: Vec<u8> = (0..length).map(|_| byte()).collect();
        converted(&list);
    }
}

#[test]
fn a_list_in_rule_stays() {
    let shipped = include_bytes!("../../examples/example.pic");
    let (stored, _) = tinladle::container::StoredPicture::split_first(shipped).unwrap();
    let built = flat(Settings::new(64, 64, ChromaFormat::Monochrome), edges(37).palette()).cells;
    for cells in [stored.picture.cells, built] {
        assert_eq!(converted(&cells), cells);
    }
}

#[test]
fn an_old_picture_is_refused_and_its_converted_one_accepted() {
    let picture = old_style();
    let refusal = run(&picture).unwrap_err();
    assert_eq!((refusal.number(), refusal.place()), (9, 7));
    let why = "vertical bS 2 without its edge flag, horizontal bS 1 without its edge flag";
    assert_eq!(refusal.to_string(), format!("refused 9: cell 7 is out of rule: {why}"));
    let cells = converted(&picture.cells);
    assert_eq!(run(&PictureBuf { cells, ..picture }).unwrap(), old_style_filtered());
}

/// What the filter makes of a strength is not the conversion's affair: an edge of bS 0 is kept, and so is a strength on
/// an edge that is never filtered.
#[test]
fn edges_are_kept_whatever_their_strength() {
    for flags in [1, 2, 3] {
        let record = [101, flags, 0, 0, 0, 0, 0, 0];
        assert_eq!(converted(&record), record);
    }
    let first_row_and_column = flat(Settings::new(8, 8, ChromaFormat::Monochrome), edges(37)).cells;
    assert_eq!(converted(&first_row_and_column), first_row_and_column);
    assert_eq!(first_row_and_column.len(), 4 * Cell::BYTES);
}
