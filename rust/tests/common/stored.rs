//! The records that crates/ stores for its programs, and the fingerprints of their lines: oracle/README.md, 'Records and
//! lines'.

use std::fs;
use std::path::{Path, PathBuf};

use tinladle::container::{BadFile, StoredPicture};

fn of(name: &str, file: &str) -> PathBuf {
    Path::new(env!("CARGO_MANIFEST_DIR")).join("../crates").join(name).join(file)
}

/// What the program of this name reads.
pub fn input(name: &str) -> Vec<u8> {
    fs::read(of(name, "stdin")).unwrap()
}

/// What it is to write.
pub fn output(name: &str) -> Vec<u8> {
    fs::read(of(name, "stdout")).unwrap()
}

/// The pictures that the program of this name reads, and whether a short record follows them.
pub fn records(name: &str) -> (Vec<StoredPicture>, bool) {
    let bytes = input(name);
    let mut rest = &bytes[..];
    let mut pictures = Vec::new();
    while !rest.is_empty() {
        match StoredPicture::split_first(rest) {
            Ok((picture, after)) => {
                pictures.push(picture);
                rest = after;
            }
            Err(BadFile::TooShort { .. } | BadFile::NoHead { .. }) => return (pictures, true),
            Err(error) => panic!("record {}: {error}", pictures.len() + 1),
        }
    }
    (pictures, false)
}

/// What it prints where each picture, numbered from 1, has this line.
pub fn printed(name: &str, line: impl Fn(usize, &StoredPicture) -> String) -> String {
    let (pictures, short) = records(name);
    let lines: String = pictures.iter().enumerate().map(|(i, picture)| line(i + 1, picture)).collect();
    lines + if short { "short\n" } else { "" }
}

/// What it is to print.
pub fn expected(name: &str) -> String {
    String::from_utf8(output(name)).unwrap()
}

/// FNV-1a of 64 bits, a sample for a byte.
pub fn fingerprint(plane: &[u16]) -> u64 {
    plane.iter().fold(0xCBF2_9CE4_8422_2325, |sum, &sample| (sum ^ u64::from(sample)).wrapping_mul(0x100_0000_01B3))
}

/// Those of the three planes, as a line has them.
pub fn fingerprints(planes: [&[u16]; 3]) -> String {
    planes.map(|plane| format!("{:016x}", fingerprint(plane))).join(" ")
}
