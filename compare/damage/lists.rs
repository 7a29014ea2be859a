//! Causes 7 and 8: a slice or a tile start out of range.

use super::{Kind, kind, places};
use crate::picture::{Picture, SLICE_BYTES};
use crate::random::Random;

fn slice_byte(p: &mut Picture, at: usize, values: &[u8], r: &mut Random) -> bool {
    let found = places(p.slices.len() / SLICE_BYTES, r);
    for &place in &found {
        p.slices[SLICE_BYTES * place + at] = r.pick(values);
    }
    !found.is_empty()
}

/// The number of CTBs that way, as far as it can be told.
fn ctbs(samples: u32, log2_ctb: u32) -> u16 {
    if log2_ctb < 16 { samples.div_ceil(1 << log2_ctb).min(65535) as u16 } else { 1 }
}

fn first_not_zero(starts: &mut [u16], r: &mut Random) -> bool {
    if starts.is_empty() {
        return false;
    }
    starts[0] = r.pick(&[1, 1, 2, 65535]);
    true
}

/// A start that is the one before, or below it, at any place after the first.
fn not_rising(starts: &mut Vec<u16>, most: usize, r: &mut Random) -> bool {
    if starts.is_empty() || starts.len() == most {
        return false;
    }
    let place = 1 + r.index(starts.len());
    let before = starts[place - 1];
    starts.insert(place, if r.chance(60) { before } else { r.between(0, i64::from(before)) as u16 });
    true
}

/// A last start that no CTB has.
fn past_the_end(starts: &mut Vec<u16>, most: usize, ctbs: u16, r: &mut Random) -> bool {
    if starts.is_empty() || starts.len() == most {
        return false;
    }
    starts.push(r.pick(&[ctbs, ctbs, 65535]));
    true
}

pub const KINDS: &[Kind] = &[
    kind("slice: disabled above 1", 7, |p, r| slice_byte(p, 0, &[2, 2, 128, 255], r)),
    kind("slice: beta offset above 12", 7, |p, r| slice_byte(p, 1, &[13, 13, 128, 255], r)),
    kind("slice: tc offset above 12", 7, |p, r| slice_byte(p, 2, &[13, 13, 128, 255], r)),
    kind("slice: across above 1", 7, |p, r| slice_byte(p, 3, &[2, 2, 128, 255], r)),
    kind("first tile column not 0", 8, |p, r| first_not_zero(&mut p.columns, r)),
    kind("tile columns not rising", 8, |p, r| not_rising(&mut p.columns, 20, r)),
    kind("tile column past the end", 8, |p, r| {
        let end = ctbs(p.width, p.log2_ctb);
        past_the_end(&mut p.columns, 20, end, r)
    }),
    kind("first tile row not 0", 8, |p, r| first_not_zero(&mut p.rows, r)),
    kind("tile rows not rising", 8, |p, r| not_rising(&mut p.rows, 22, r)),
    kind("tile row past the end", 8, |p, r| {
        let end = ctbs(p.height, p.log2_ctb);
        past_the_end(&mut p.rows, 22, end, r)
    }),
];
