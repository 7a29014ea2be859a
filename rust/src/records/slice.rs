//! Slices: what holds for a part of the picture.

use super::{OutOfRange, byte};

/// One slice of a picture. An empty list stands for [`Slice::of_empty_list`], which is not [`Slice::new`].
///
/// ```
/// use tinladle::Slice;
/// assert_eq!(Slice::new().to_bytes(), [0, 6, 6, 1]);
/// assert_eq!(Slice::of_empty_list().to_bytes(), [0, 6, 5, 1]);
/// assert_eq!(Slice::new().beta_offset_div2(-6)?.tc_offset_div2(3)?.not_across().to_bytes(), [0, 0, 9, 0]);
/// # Ok::<(), tinladle::OutOfRange>(())
/// ```
#[derive(Clone, Copy, Debug, PartialEq, Eq)]
pub struct Slice {
    bytes: [u8; 4],
}

impl Default for Slice {
    /// [`Slice::new`]. What an empty list stands for is [`Slice::of_empty_list`].
    fn default() -> Self {
        Self::new()
    }
}

impl Slice {
    /// The bytes of one slice in [`Picture::slices`](crate::Picture::slices).
    pub const BYTES: usize = 4;
    /// The most slices that a picture has.
    pub const MOST: usize = 600;

    /// A slice that is filtered, with offsets 0, across its left and top borders too.
    pub fn new() -> Self {
        Slice { bytes: [0, 6, 6, 1] }
    }

    /// The slice that an empty list stands for: as [`Slice::new`], but with `slice_tc_offset_div2` -1. To filter with
    /// offsets 0 a picture passes [`Slice::new`] outright.
    pub fn of_empty_list() -> Self {
        Slice { bytes: [0, 6, 5, 1] }
    }

    /// The left and top edges of its cells are not filtered.
    #[must_use]
    pub fn disabled(mut self) -> Self {
        self.bytes[0] = 1;
        self
    }

    /// With `slice_beta_offset_div2`, -6 to 6.
    pub fn beta_offset_div2(mut self, offset: i32) -> Result<Self, OutOfRange> {
        self.bytes[1] = byte("beta offset div2", offset, -6, 6, 6)?;
        Ok(self)
    }

    /// With `slice_tc_offset_div2`, -6 to 6.
    pub fn tc_offset_div2(mut self, offset: i32) -> Result<Self, OutOfRange> {
        self.bytes[2] = byte("tc offset div2", offset, -6, 6, 6)?;
        Ok(self)
    }

    /// The filter does not run across its left and top borders.
    #[must_use]
    pub fn not_across(mut self) -> Self {
        self.bytes[3] = 0;
        self
    }

    /// The record.
    pub fn to_bytes(self) -> [u8; 4] {
        self.bytes
    }
}

/// The slice records of a picture, at most 600.
#[derive(Clone, Debug, Default, PartialEq, Eq)]
pub struct Slices {
    bytes: Vec<u8>,
}

impl Slices {
    /// No slice yet. Left so, the list stands for [`Slice::of_empty_list`].
    pub fn new() -> Self {
        Self::default()
    }

    /// Adds a slice and returns its number, for [`Cell::slice`](crate::Cell::slice).
    pub fn push(&mut self, slice: Slice) -> Result<u16, OutOfRange> {
        let number = (self.bytes.len() / Slice::BYTES) as u16;
        if usize::from(number) >= Slice::MOST {
            return Err(OutOfRange { what: "slice", value: i32::from(number), lowest: 0, largest: 599 });
        }
        self.bytes.extend_from_slice(&slice.bytes);
        Ok(number)
    }

    /// The records, for [`Picture::slices`](crate::Picture::slices).
    pub fn as_bytes(&self) -> &[u8] {
        &self.bytes
    }
}
