//! Files that hold no picture, and one line for each.

use std::error::Error;
use std::fmt;
use std::io;

use super::head::{HEAD_BYTES, LONGEST, MARK};
use crate::counted::counted;
use crate::memory::OutOfMemory;

/// Why a file holds no picture.
#[derive(Debug)]
pub enum BadFile {
    /// It is shorter than a head.
    NoHead {
        /// The file's bytes.
        size: u64,
    },
    /// It does not begin with the mark.
    WrongMark(u32),
    /// The PCM switch is neither 0 nor 1.
    PcmSwitch(u32),
    /// The lists that the head speaks of are longer than the file.
    TooShort {
        /// What the head speaks of, with itself.
        needed: u64,
        /// The file's bytes.
        size: u64,
    },
    /// A list is longer than any of the largest picture.
    TooLarge {
        /// The list's name and its length in the head.
        list: (&'static str, u32),
    },
    /// Bytes follow the picture.
    TooLong {
        /// How many.
        trailing: u64,
    },
    /// An output plane would be larger than the file.
    Output {
        /// Which plane.
        plane: &'static str,
        /// Its samples in the head.
        samples: u32,
        /// The file's bytes.
        size: u64,
    },
    /// It could not be read.
    Io(io::Error),
    /// There is not enough memory to read it.
    Memory(OutOfMemory),
}

fn bytes(count: u64) -> String {
    counted(count, "byte", "bytes")
}

impl fmt::Display for BadFile {
    fn fmt(&self, f: &mut fmt::Formatter<'_>) -> fmt::Result {
        match self {
            BadFile::NoHead { size } => write!(f, "too short: {}, and the head has {HEAD_BYTES}", bytes(*size)),
            BadFile::WrongMark(mark) => write!(f, "no picture: it begins with {mark:#010x}, not {MARK:#010x}"),
            BadFile::PcmSwitch(word) => write!(f, "the PCM switch is {word}, not 0 or 1"),
            BadFile::TooShort { needed, size } => {
                write!(f, "too short: {}, and its head asks for {needed}", bytes(*size))
            }
            BadFile::TooLarge { list: (name, length) } => {
                write!(f, "too large: {name} of {length}, and no list of a picture is longer than {LONGEST}")
            }
            BadFile::TooLong { trailing } => write!(f, "too long: {} after the picture", bytes(*trailing)),
            BadFile::Output { plane, samples, size } => {
                write!(f, "the head's {plane} of {samples} samples is larger than the file of {size} bytes")
            }
            BadFile::Io(error) => write!(f, "cannot be read: {error}"),
            BadFile::Memory(error) => write!(f, "cannot be read: {error}"),
        }
    }
}

impl Error for BadFile {}

impl From<io::Error> for BadFile {
    fn from(error: io::Error) -> Self {
        BadFile::Io(error)
    }
}

impl From<OutOfMemory> for BadFile {
    fn from(error: OutOfMemory) -> Self {
        BadFile::Memory(error)
    }
}
