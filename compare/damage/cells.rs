//! Causes 9 and 10: a cell out of range, with a slice not in the list or a strength without its edge, or a sample out of range.

use super::{Kind, kind, places};
use crate::picture::{CELL_BYTES, HORIZONTAL, Picture, SLICE_BYTES, VERTICAL};
use crate::random::Random;

fn cell_byte(p: &mut Picture, at: usize, r: &mut Random, value: impl Fn(&mut Random, u8) -> u8) -> bool {
    let found = places(p.cells.len() / CELL_BYTES, r);
    for &place in &found {
        let byte = &mut p.cells[CELL_BYTES * place + at];
        *byte = value(r, *byte);
    }
    !found.is_empty()
}

fn cell_slice(p: &mut Picture, r: &mut Random, slice: impl Fn(&mut Random, usize) -> usize) -> bool {
    let count = (p.slices.len() / SLICE_BYTES).max(1);
    let found = places(p.cells.len() / CELL_BYTES, r);
    for &place in &found {
        let bytes = (slice(r, count) as u16).to_le_bytes();
        p.cells[CELL_BYTES * place + 4..CELL_BYTES * place + 6].copy_from_slice(&bytes);
    }
    !found.is_empty()
}

/// A strength in byte `at`, with its edge or without.
fn strength(p: &mut Picture, edge: u8, at: usize, with_edge: bool, values: &[u8], r: &mut Random) -> bool {
    let found = places(p.cells.len() / CELL_BYTES, r);
    for &place in &found {
        let cell = &mut p.cells[CELL_BYTES * place..][..CELL_BYTES];
        cell[1] = cell[1] & !edge | if with_edge { edge } else { 0 };
        cell[at] = r.pick(values);
    }
    !found.is_empty()
}

/// A strength above 2. It has its edge, so that nothing but its size is wrong.
fn too_strong(p: &mut Picture, edge: u8, at: usize, r: &mut Random) -> bool {
    strength(p, edge, at, true, &[3, 3, 128, 255], r)
}

/// A strength without its edge: document 02, C-14.
fn edgeless(p: &mut Picture, edge: u8, at: usize, r: &mut Random) -> bool {
    strength(p, edge, at, false, &[1, 2], r)
}

/// Other edge flags, at places where they leave a strength without its edge that has it now.
fn other_edges(p: &mut Picture, r: &mut Random, change: fn(u8) -> u8) -> bool {
    let lost = |c: &[u8], edge: u8, at: usize| c[at] > 0 && c[1] & !change(c[1]) & edge > 0;
    let whole = p.cells.chunks_exact(CELL_BYTES).enumerate();
    let fit: Vec<usize> = whole.filter(|(_, c)| lost(c, VERTICAL, 2) || lost(c, HORIZONTAL, 3)).map(|(number, _)| number).collect();
    let mut found = places(fit.len(), r);
    found.sort();
    found.dedup();
    for &place in &found {
        let flags = &mut p.cells[CELL_BYTES * fit[place] + 1];
        *flags = change(*flags);
    }
    !found.is_empty()
}

fn exchanged(flags: u8) -> u8 {
    flags & !3 | flags << 1 & HORIZONTAL | flags >> 1 & VERTICAL
}

fn sample(p: &mut Picture, plane: usize, r: &mut Random) -> bool {
    let depth = p.plane_depth(plane);
    if !(8..16).contains(&depth) {
        return false;
    }
    let found = places(p.planes[plane].len(), r);
    for &place in &found {
        p.planes[plane][place] = r.pick(&[1 << depth, 1 << depth, u16::MAX]);
    }
    !found.is_empty()
}

pub const KINDS: &[Kind] = &[
    kind("cell: QP below its least", 9, |p, r| {
        let least = 64 - 6 * (p.luma_depth.clamp(8, 16) as u8 - 8);
        cell_byte(p, 0, r, |r, _| r.pick(&[least - 1, least - 1, 0]))
    }),
    kind("cell: QP above 51", 9, |p, r| cell_byte(p, 0, r, |r, _| r.pick(&[116, 116, 128, 255]))),
    kind("cell: a flag that is none", 9, |p, r| cell_byte(p, 1, r, |r, flags| flags | 32 << r.below(3))),
    kind("cell: vertical bS above 2", 9, |p, r| too_strong(p, VERTICAL, 2, r)),
    kind("cell: horizontal bS above 2", 9, |p, r| too_strong(p, HORIZONTAL, 3, r)),
    kind("cell: first slice not in the list", 9, |p, r| cell_slice(p, r, |_, count| count)),
    kind("cell: slice above 255 or far off", 9, |p, r| {
        cell_slice(p, r, |r, count| match r.below(3) {
            0 => 256 * (count / 256 + 1),
            1 => count | 256 << r.below(8),
            _ => 65535,
        })
    }),
    kind("cell: byte 6 not 0", 9, |p, r| cell_byte(p, 6, r, |r, _| r.pick(&[1, 128, 255]))),
    kind("cell: byte 7 not 0", 9, |p, r| cell_byte(p, 7, r, |r, _| r.pick(&[1, 128, 255]))),
    kind("cell: vertical bS without edge", 9, |p, r| edgeless(p, VERTICAL, 2, r)),
    kind("cell: horizontal bS without edge", 9, |p, r| edgeless(p, HORIZONTAL, 3, r)),
    kind("cell: left edge cleared under bS", 9, |p, r| other_edges(p, r, |flags| flags & !VERTICAL)),
    kind("cell: top edge cleared under bS", 9, |p, r| other_edges(p, r, |flags| flags & !HORIZONTAL)),
    kind("cell: its two edges exchanged", 9, |p, r| other_edges(p, r, exchanged)),
    kind("Y sample too large", 10, |p, r| sample(p, 0, r)),
    kind("Cb sample too large", 10, |p, r| sample(p, 1, r)),
    kind("Cr sample too large", 10, |p, r| sample(p, 2, r)),
];
