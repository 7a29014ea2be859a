//! Stored pixels and floats, through the Rust API. What is expected was made apart from the library: oracle/README.md
//! says how.

mod common;

use common::stored::{expected, input};
use tinladle::container::StoredPicture;
use tinladle::{Plane, Refusal, pixel, sample};

/// The line of a record: its number, the answer's number and place, and what there is of it.
fn line(number: usize, answer: Result<String, Refusal>) -> String {
    match answer {
        Ok(found) => format!("{number} 0 0 {found}\n"),
        Err(refusal) => format!("{number} {} {}\n", refusal.number(), refusal.place()),
    }
}

fn word(bytes: &[u8]) -> u32 {
    u32::from_le_bytes(bytes.try_into().unwrap())
}

/// The bits of a pixel's parts.
fn parts(stored: &StoredPicture, column: u32, row: u32) -> Result<String, Refusal> {
    let picture = &stored.picture;
    let found = pixel(&picture.settings, picture.planes.samples(), column, row)?;
    let bits = |plane| found.plane(plane).map(|part| format!("{:08x}", part.to_bits()));
    Ok(Plane::ALL.into_iter().filter_map(bits).collect::<Vec<_>>().join(" "))
}

/// Each picture is followed by a column and a row.
#[test]
fn pixel_cases() {
    let bytes = input("pixel_cases");
    let (mut rest, mut text, mut number) = (&bytes[..], String::new(), 0);
    while !rest.is_empty() {
        let (stored, after) = StoredPicture::split_first(rest).unwrap();
        number += 1;
        text += &line(number, parts(&stored, word(&after[..4]), word(&after[4..8])));
        rest = &after[8..];
    }
    assert_eq!(text, expected("pixel_cases"));
}

/// A record is the depth, 0 for luma, and the bits of a float. These may be any NaN's.
#[test]
fn float_cases() {
    let bytes = input("float_cases");
    let answer = |record: &[u8]| {
        let [depth, chroma, bits] = [0, 4, 8].map(|at| word(&record[at..at + 4]));
        sample(depth, chroma != 0, f32::from_bits(bits)).map(|sample| sample.to_string())
    };
    let lines = bytes.chunks_exact(12).enumerate().map(|(i, record)| line(i + 1, answer(record)));
    assert_eq!(lines.collect::<String>(), expected("float_cases"));
}
