//! Checksums of stored pictures, through the Rust API. Those that are expected were made apart from the library:
//! oracle/README.md says how.

mod common;

use std::collections::BTreeSet;
use std::fs;
use std::path::Path;

use common::run_into;
use common::stored::{expected, printed};
use tinladle::container::StoredPicture;
use tinladle::{Checksums, Plane, Refusal, checksum};

/// Of the planes as they stand.
fn given(stored: &StoredPicture) -> Result<Checksums, Refusal> {
    checksum(&stored.picture.settings, stored.picture.planes.samples())
}

/// Of the planes that the stage leaves.
fn finished(stored: &StoredPicture) -> Result<Checksums, Refusal> {
    checksum(&stored.picture.settings, run_into(&stored.picture, stored.output_lengths)?.samples())
}

/// The lines of a program's pictures: number, verdict, place and, where there are some, sums.
fn text(program: &str, sums: fn(&StoredPicture) -> Result<Checksums, Refusal>) -> String {
    printed(program, |number, stored| match sums(stored) {
        Ok(sums) => {
            let sum = |plane| sums.plane(plane).map(|sum| format!(" {sum:08x}"));
            format!("{number} 0 0{}\n", Plane::ALL.into_iter().filter_map(sum).collect::<String>())
        }
        Err(refusal) => format!("{number} {} {}\n", refusal.number(), refusal.place()),
    })
}

#[test]
fn checksum_cases() {
    assert_eq!(text("checksum_cases", given), expected("checksum_cases"));
}

/// The sums that encoders wrote into their streams.
#[test]
fn real_checksums() {
    assert_eq!(text("real_checksums", finished), expected("real_checksums"));
}

#[test]
fn finished_planes() {
    let path = Path::new(env!("CARGO_MANIFEST_DIR")).join("../oracle/finished_checksums.txt");
    let file = fs::read_to_string(path).unwrap();
    let wanted: Vec<&str> = file.lines().filter(|line| !line.starts_with('#')).collect();
    let mut found = Vec::new();
    for program in ["picture_cases", "tile_cases", "real_pictures", "far_pictures"] {
        let lines = text(program, finished);
        found.extend(lines.lines().filter(|&line| line != "short").map(|line| format!("{program} {line}")));
    }
    for (found, wanted) in found.iter().zip(&wanted) {
        assert_eq!(found, wanted);
    }
    assert_eq!(found.len(), wanted.len(), "each picture has a line, and each line a picture");
    let words: BTreeSet<usize> = wanted.iter().map(|line| line.split(' ').count()).collect();
    assert_eq!(words, BTreeSet::from([4, 5, 7]), "refused ones, monochrome ones and ones with chroma are among them");
}
