//! The parts of a pixel, as floats.

use crate::settings::Plane;

/// The answer of [`pixel`](crate::pixel): a float for each plane that the format has. Each is exactly its fraction, and
/// none is a NaN, an infinity or -0.0, so that equal parts have equal bits.
#[derive(Clone, Copy, Debug, PartialEq)]
pub enum Pixel {
    /// Of a monochrome picture: the part of luma.
    Grey(f32),
    /// Of a picture in any other format: three parts.
    Colour(Colour),
}

/// The three parts of a pixel in colour.
#[derive(Clone, Copy, Debug, PartialEq)]
pub struct Colour {
    /// Of the luma sample: 0 to less than 1.
    pub luma: f32,
    /// Of the Cb sample under the pixel: -0.5 to less than 0.5.
    pub cb: f32,
    /// Of the Cr sample under the pixel, likewise.
    pub cr: f32,
}

impl Pixel {
    /// The part of a plane; `None` where the format has no such plane.
    pub const fn plane(self, plane: Plane) -> Option<f32> {
        match (self, plane) {
            (Pixel::Grey(luma) | Pixel::Colour(Colour { luma, .. }), Plane::Y) => Some(luma),
            (Pixel::Colour(colour), Plane::Cb) => Some(colour.cb),
            (Pixel::Colour(colour), Plane::Cr) => Some(colour.cr),
            (Pixel::Grey(_), Plane::Cb | Plane::Cr) => None,
        }
    }
}
