//! The refusal ledger of document 01 in Rust: which number and place a picture is answered with.
//!
//! Written from document 01, and from document 02 C-19 for flag bit 4, C-14 for strengths without an edge and C-11 for the checks of planes
//! alone, and from nothing else. It shares nothing with the stage, nor with the customer's Rust, which refuses nothing.

use crate::picture::{CELL_BYTES, Picture, SLICE_BYTES};

/// Number and place; (0, 0) for an accepted picture.
pub type Verdict = (u32, u64);

/// What a cell record must not be besides out of range.
type Against = fn(&[u8]) -> bool;

/// A cause with its number, and what finds its place, or nothing. Those after it may rely on it.
type Cause = (u32, fn(&Picture) -> Option<usize>);

const SIZES: Cause = (1, |p| at_zero(size_allowed(p.width) && size_allowed(p.height)));
const FORMAT: Cause = (2, |p| at_zero(p.format <= 3));
const DEPTHS: Cause = (3, |p| at_zero([p.luma_depth, p.chroma_depth].iter().all(|depth| (8..=16).contains(depth))));
const CTB: Cause = (4, |p| at_zero((4..=6).contains(&p.log2_ctb)));
const OFFSETS: Cause = (5, |p| at_zero([p.cb_offset, p.cr_offset].iter().all(|offset| (-12..=12).contains(offset))));
const LENGTHS: Cause = (6, |p| at_zero(planes_exact(p) && lengths_exact(p)));
const PLANE_LENGTHS: Cause = (6, |p| at_zero(planes_exact(p)));
const SLICES: Cause = (7, bad_slice);
const STARTS: Cause = (8, bad_start);
const CELLS: Cause = (9, |p| bad_cell(p, edgeless));
const CELLS_BEFORE: Cause = (9, |p| bad_cell(p, |_| false));
const SAMPLES: Cause = (10, bad_sample);

pub fn verdict(p: &Picture) -> Verdict {
    first(p, &[SIZES, FORMAT, DEPTHS, CTB, OFFSETS, LENGTHS, SLICES, STARTS, CELLS, SAMPLES])
}

/// The verdict without C-14's rule, by which stored pictures were accepted before it.
pub fn verdict_before(p: &Picture) -> Verdict {
    first(p, &[SIZES, FORMAT, DEPTHS, CTB, OFFSETS, LENGTHS, SLICES, STARTS, CELLS_BEFORE, SAMPLES])
}

/// The verdict on the given planes alone, before their checksums: document 02, C-11.
pub fn planes_verdict(p: &Picture) -> Verdict {
    first(p, &[SIZES, FORMAT, DEPTHS, PLANE_LENGTHS, SAMPLES])
}

fn first(p: &Picture, causes: &[Cause]) -> Verdict {
    causes.iter().find_map(|(number, place)| Some((*number, place(p)? as u64))).unwrap_or((0, 0))
}

fn at_zero(allowed: bool) -> Option<usize> {
    (!allowed).then_some(0)
}

fn size_allowed(n: u32) -> bool {
    n % 8 == 0 && (8..=8192).contains(&n)
}

/// What the three planes must have. The settings are allowed by now.
fn plane_lengths(p: &Picture) -> [usize; 3] {
    let (width, height) = (p.width as usize, p.height as usize);
    let chroma = match p.format {
        0 => 0,
        1 => (width / 2) * (height / 2),
        2 => (width / 2) * height,
        _ => width * height,
    };
    [width * height, chroma, chroma]
}

/// Of the given planes.
fn planes_exact(p: &Picture) -> bool {
    [0, 1, 2].map(|plane| p.planes[plane].len()) == plane_lengths(p)
}

/// Of all other lists.
fn lengths_exact(p: &Picture) -> bool {
    p.out_lengths == plane_lengths(p)
        && p.cells.len() == CELL_BYTES * (p.width as usize / 4) * (p.height as usize / 4)
        && p.slices.len() % SLICE_BYTES == 0
        && p.slices.len() <= 2400
        && (1..=20).contains(&p.columns.len())
        && (1..=22).contains(&p.rows.len())
}

fn bad_slice(p: &Picture) -> Option<usize> {
    let allowed = |r: &[u8]| r[0] <= 1 && r[1] <= 12 && r[2] <= 12 && r[3] <= 1;
    p.slices.chunks(SLICE_BYTES).position(|record| !allowed(record))
}

/// Rows are numbered on after the columns.
fn bad_start(p: &Picture) -> Option<usize> {
    let rows = || first_bad_start(&p.rows, p.height, p.log2_ctb).map(|row| p.columns.len() + row);
    first_bad_start(&p.columns, p.width, p.log2_ctb).or_else(rows)
}

fn first_bad_start(starts: &[u16], samples: u32, log2_ctb: u32) -> Option<usize> {
    let ctbs = samples.div_ceil(1 << log2_ctb);
    let in_order = |k: usize| if k == 0 { starts[0] == 0 } else { starts[k] > starts[k - 1] };
    (0..starts.len()).find(|&k| !in_order(k) || u32::from(starts[k]) >= ctbs)
}

/// C-14: a vertical bS above 0 needs flag bit 0, a horizontal one bit 1.
fn edgeless(c: &[u8]) -> bool {
    (c[2] > 0 && c[1] % 2 == 0) || (c[3] > 0 && c[1] / 2 % 2 == 0)
}

/// The first whole record of a list that is against C-14's rule.
pub fn first_edgeless(cells: &[u8]) -> Option<usize> {
    cells.chunks_exact(CELL_BYTES).position(edgeless)
}

/// One pass: the first record that is out of range or against the rule.
fn bad_cell(p: &Picture, against: Against) -> Option<usize> {
    let slices = (p.slices.len() / SLICE_BYTES).max(1);
    let lowest = -6 * (p.luma_depth as i32 - 8);
    let in_range = |c: &[u8]| {
        (lowest..=51).contains(&(i32::from(c[0]) - 64))
            && c[1] < 32
            && c[2] <= 2
            && c[3] <= 2
            && usize::from(u16::from_le_bytes([c[4], c[5]])) < slices
            && c[6] == 0
            && c[7] == 0
    };
    p.cells.chunks(CELL_BYTES).position(|cell| !in_range(cell) || against(cell))
}

/// Counted through Y, Cb, Cr.
fn bad_sample(p: &Picture) -> Option<usize> {
    let mut before = 0;
    for plane in 0..3 {
        let largest = (1u32 << p.plane_depth(plane)) - 1;
        if let Some(at) = p.planes[plane].iter().position(|&sample| u32::from(sample) > largest) {
            return Some(before + at);
        }
        before += p.planes[plane].len();
    }
    None
}
