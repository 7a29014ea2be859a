//! Cell and slice records, typed, so that nobody writes byte offsets by hand.
//!
//! A builder cannot make a byte that is out of range by itself, nor a bS without its edge flag, since an edge sets
//! both. Two bounds it cannot know, and the stage checks them: the lowest QP of the picture's luma depth, and how many
//! slices there are.

mod cell;
mod slice;

use std::error::Error;
use std::fmt;

pub use cell::{Bs, Cell, Cells};
pub(crate) use cell::{FLAGS, LEFT_EDGE, TOP_EDGE, is_palette};
pub use slice::{Slice, Slices};

/// A value that a record cannot hold.
#[derive(Clone, Copy, Debug, PartialEq, Eq)]
pub struct OutOfRange {
    /// What the value is.
    pub what: &'static str,
    /// The value.
    pub value: i32,
    /// The lowest that is allowed.
    pub lowest: i32,
    /// The largest that is allowed.
    pub largest: i32,
}

impl fmt::Display for OutOfRange {
    fn fmt(&self, f: &mut fmt::Formatter<'_>) -> fmt::Result {
        write!(f, "{} {} is outside {} to {}", self.what, self.value, self.lowest, self.largest)
    }
}

impl Error for OutOfRange {}

/// The value plus `base`, as a byte, where it lies from `lowest` to `largest`.
fn byte(what: &'static str, value: i32, lowest: i32, largest: i32, base: i32) -> Result<u8, OutOfRange> {
    let error = OutOfRange { what, value, lowest, largest };
    if value < lowest || value > largest {
        return Err(error);
    }
    u8::try_from(value + base).map_err(|_| error)
}
