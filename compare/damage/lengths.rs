//! Cause 6: each list one shorter and one longer than it may be.

use super::{Kind, kind};
use crate::picture::{PLAIN_SLICE, Picture};
use crate::random::Random;

fn shorter(p: &mut Picture, plane: usize, r: &mut Random) -> bool {
    let length = p.planes[plane].len();
    p.planes[plane].truncate(length.saturating_sub(if r.chance(70) { 1 } else { r.index(length + 1) }));
    p.planes[plane].len() < length
}

fn longer(p: &mut Picture, plane: usize, r: &mut Random) -> bool {
    let more = if r.chance(70) { 1 } else { r.between(1, 100) };
    p.planes[plane].extend((0..more).map(|_| 0));
    true
}

fn output_shorter(p: &mut Picture, plane: usize, r: &mut Random) -> bool {
    let length = p.out_lengths[plane];
    p.out_lengths[plane] -= if r.chance(70) { length.min(1) } else { r.index(length + 1) };
    p.out_lengths[plane] < length
}

fn output_longer(p: &mut Picture, plane: usize, r: &mut Random) -> bool {
    p.out_lengths[plane] += if r.chance(70) { 1 } else { r.between(1, 100) as usize };
    true
}

/// Tile starts in order, as many as `count`.
fn rising(count: usize) -> Vec<u16> {
    (0..count as u16).collect()
}

pub const KINDS: &[Kind] = &[
    kind("width 8 too large", 6, |p, _| {
        p.width = p.width.wrapping_add(8);
        true
    }),
    kind("height 8 too small", 6, |p, _| {
        let large = p.height > 8;
        p.height = p.height.saturating_sub(8);
        large
    }),
    kind("another format", 6, |p, r| {
        let before = p.format;
        p.format = r.below(4) as u32;
        p.format != before
    }),
    kind("Y shorter", 6, |p, r| shorter(p, 0, r)),
    kind("Y longer", 6, |p, r| longer(p, 0, r)),
    kind("Cb shorter", 6, |p, r| shorter(p, 1, r)),
    kind("Cb longer", 6, |p, r| longer(p, 1, r)),
    kind("Cr shorter", 6, |p, r| shorter(p, 2, r)),
    kind("Cr longer", 6, |p, r| longer(p, 2, r)),
    kind("output Y shorter", 6, |p, r| output_shorter(p, 0, r)),
    kind("output Y longer", 6, |p, r| output_longer(p, 0, r)),
    kind("output Cb shorter", 6, |p, r| output_shorter(p, 1, r)),
    kind("output Cb longer", 6, |p, r| output_longer(p, 1, r)),
    kind("output Cr shorter", 6, |p, r| output_shorter(p, 2, r)),
    kind("output Cr longer", 6, |p, r| output_longer(p, 2, r)),
    kind("cells a byte shorter", 6, |p, _| p.cells.pop().is_some()),
    kind("cells a byte longer", 6, |p, _| {
        p.cells.push(0);
        true
    }),
    kind("a cell less", 6, |p, _| {
        let length = p.cells.len();
        p.cells.truncate(length.saturating_sub(8));
        p.cells.len() < length
    }),
    kind("a cell more", 6, |p, _| {
        p.cells.extend([64, 0, 0, 0, 0, 0, 0, 0]);
        true
    }),
    kind("slice bytes: 1 to 3 too many", 6, |p, r| {
        p.slices.extend((0..r.between(1, 3)).map(|_| 0));
        true
    }),
    kind("slice bytes: 1 to 3 too few", 6, |p, r| {
        let length = p.slices.len();
        p.slices.truncate(length.saturating_sub(r.between(1, 3) as usize));
        p.slices.len() % 4 != 0
    }),
    kind("601 slices", 6, |p, _| {
        p.slices = PLAIN_SLICE.repeat(601);
        true
    }),
    kind("no tile column", 6, |p, _| {
        p.columns.clear();
        true
    }),
    kind("21 tile columns", 6, |p, _| {
        p.columns = rising(21);
        true
    }),
    kind("no tile row", 6, |p, _| {
        p.rows.clear();
        true
    }),
    kind("23 tile rows", 6, |p, _| {
        p.rows = rising(23);
        true
    }),
];
