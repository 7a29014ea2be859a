//! The picture checksum of H.265, Annex D (decoded picture hash), as document 02's C-11 words it. Written from the two alone; it shares
//! nothing with the library. Sums are exact: they are taken modulo 2^32 at their end, and nowhere before.

use crate::picture::Picture;

pub fn mask(x: usize, y: usize) -> u64 {
    ((x & 0xFF) ^ (y & 0xFF) ^ (x >> 8) ^ (y >> 8)) as u64
}

/// What one sample adds.
fn joining(sample: u16, mask: u64, depth: u32) -> u64 {
    let (low, high) = (u64::from(sample & 0xFF), u64::from(sample >> 8));
    if depth > 8 { (low ^ mask) + (high ^ mask) } else { low ^ mask }
}

fn exact_sum(plane: &[u16], width: usize, depth: u32) -> u64 {
    let row = |(y, row): (usize, &[u16])| row.iter().enumerate().map(|(x, &sample)| joining(sample, mask(x, y), depth)).sum::<u64>();
    plane.chunks(width).enumerate().map(row).sum()
}

/// The sums of the planes that the format of an accepted picture has: of Y, and of Cb and Cr where there are any.
pub fn exact_sums(p: &Picture, planes: &[Vec<u16>; 3]) -> Vec<u64> {
    let count = if p.format == 0 { 1 } else { 3 };
    (0..count).map(|plane| exact_sum(&planes[plane], p.plane_size(plane).0, p.plane_depth(plane))).collect()
}

pub fn modulo(exact: u64) -> u32 {
    (exact % (1 << 32)) as u32
}
