//! What the recogniser is given of a sample, and the way back: document 02, C-22. Written from it alone; it shares nothing with the
//! library. A float is its bit pattern. That of a sample is put together of whole numbers; the way back is taken in 64-bit floats, where
//! all of it is exact, so that neither is the other's mirror.

use crate::ledger::Verdict;
use crate::picture::Picture;

pub const MINUS: u32 = 1 << 31;

fn middle(depth: u32, chroma: bool) -> u32 {
    if chroma { 1 << (depth - 1) } else { 0 }
}

/// The sample, in chroma less the middle, over 2^depth: a sign, the exponent and 127, and 23 bits after the leading 1.
pub fn float_of(sample: u16, depth: u32, chroma: bool) -> u32 {
    let (sample, middle) = (u32::from(sample), middle(depth, chroma));
    let size = sample.abs_diff(middle);
    if size == 0 {
        return 0;
    }
    let leading = size.ilog2();
    let sign = if sample < middle { MINUS } else { 0 };
    sign + ((127 + leading - depth) << 23) + ((size - (1 << leading)) << (23 - leading))
}

fn sample_of(bits: u32, depth: u32, chroma: bool) -> Option<u16> {
    let (count, first) = (f64::from(1u32 << depth), -f64::from(middle(depth, chroma)));
    let steps = f64::from(f32::from_bits(bits)) * count;
    let given = first <= steps && steps < first + count && steps.fract() == 0.0 && bits != MINUS;
    given.then(|| (steps - first) as u16)
}

/// Number and place for a float on the way back, and the sample where there is one.
pub fn recovered(bits: u32, depth: u32, chroma: bool) -> (Verdict, Option<u16>) {
    if !(8..=16).contains(&depth) {
        return ((3, 0), None);
    }
    let sample = sample_of(bits, depth, chroma);
    (if sample.is_some() { (0, 0) } else { (15, 0) }, sample)
}

/// Number and place for a pixel of planes whose own verdict is this one.
pub fn pixel_verdict(p: &Picture, planes: Verdict, (x, y): (u32, u32)) -> Verdict {
    let inside = x < p.width && y < p.height;
    if planes == (0, 0) && !inside { (14, 0) } else { planes }
}

/// The floats of a pixel of accepted planes: of luma, and of the samples of Cb and Cr under it where there are any.
pub fn parts(p: &Picture, planes: &[Vec<u16>; 3], (x, y): (u32, u32)) -> Vec<u32> {
    let count = if p.format == 0 { 1 } else { 3 };
    let part = |plane: usize| {
        let ((across, down), (columns, _)) = (p.plane_scales(plane), p.plane_size(plane));
        float_of(planes[plane][y as usize / down * columns + x as usize / across], p.plane_depth(plane), plane > 0)
    };
    (0..count).map(part).collect()
}
