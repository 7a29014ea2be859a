//! Lists whose length comes from outside, out of a file or from a caller: where there is no memory for one, that is
//! told, and the program goes on.

use std::error::Error;
use std::fmt;

use crate::counted::counted;

/// There is not enough memory for a list.
#[derive(Clone, Copy, Debug, PartialEq, Eq)]
pub struct OutOfMemory {
    /// The bytes of the list.
    pub bytes: usize,
}

impl fmt::Display for OutOfMemory {
    fn fmt(&self, f: &mut fmt::Formatter<'_>) -> fmt::Result {
        write!(f, "not enough memory for {}", counted(self.bytes as u64, "byte", "bytes"))
    }
}

impl Error for OutOfMemory {}

/// An empty list with room for as many items.
pub(crate) fn room<T>(length: usize) -> Result<Vec<T>, OutOfMemory> {
    let mut list = Vec::new();
    match list.try_reserve_exact(length) {
        Ok(()) => Ok(list),
        Err(_) => Err(OutOfMemory { bytes: length.saturating_mul(size_of::<T>()) }),
    }
}

/// A list that holds one value throughout.
pub(crate) fn filled<T: Copy>(length: usize, value: T) -> Result<Vec<T>, OutOfMemory> {
    let mut list = room(length)?;
    list.resize(length, value);
    Ok(list)
}
