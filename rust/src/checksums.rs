//! The checksums of a picture's planes.

use crate::settings::Plane;

/// The answer of [`checksum`](crate::checksum): a sum of 32 bits for each plane that the format has.
#[derive(Clone, Copy, Debug, PartialEq, Eq, Hash)]
pub enum Checksums {
    /// Of a monochrome picture: its one plane's.
    One(u32),
    /// Of a picture in any other format.
    Three {
        /// The luma plane's.
        y: u32,
        /// The Cb plane's.
        cb: u32,
        /// The Cr plane's.
        cr: u32,
    },
}

impl Checksums {
    /// The sum of a plane; `None` where the format has no such plane.
    pub const fn plane(self, plane: Plane) -> Option<u32> {
        match (self, plane) {
            (Checksums::One(y) | Checksums::Three { y, .. }, Plane::Y) => Some(y),
            (Checksums::Three { cb, .. }, Plane::Cb) => Some(cb),
            (Checksums::Three { cr, .. }, Plane::Cr) => Some(cr),
            (Checksums::One(_), Plane::Cb | Plane::Cr) => None,
        }
    }
}
