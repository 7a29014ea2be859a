//! The stored pictures of the repository, replayed through the Rust API. The expected lines are those of
//! oracle/README.md: planes from the customer's Rust and, for the real pictures, from another decoder; numbers and
//! places from document 01.

mod common;

use common::stored::{expected, fingerprints, printed};
use common::{JUNK, run_into};
use tinladle::PlanesBuf;
use tinladle::container::StoredPicture;

fn line(number: usize, stored: &StoredPicture) -> String {
    let (answer, planes) = match run_into(&stored.picture, stored.output_lengths) {
        Ok(planes) => ((0, 0), planes),
        Err(refusal) => {
            assert!(!refusal.detail().is_empty(), "record {number}: {refusal}");
            ((refusal.number(), refusal.place()), PlanesBuf::filled(stored.output_lengths, JUNK))
        }
    };
    format!("{number} {} {} {}\n", answer.0, answer.1, fingerprints(planes.samples()))
}

#[test]
fn real_pictures() {
    assert_eq!(printed("real_pictures", line), expected("real_pictures"));
}

#[test]
fn picture_cases() {
    let (given, wanted) = (printed("picture_cases", line), expected("picture_cases"));
    for (given, wanted) in given.lines().zip(wanted.lines()) {
        assert_eq!(given, wanted);
    }
    assert_eq!(given.len(), wanted.len());
}
