//! The segments of a plane, and which of them are filtered: clause 8.7.2.1 and document 01's gate. It shares no code with the stage
//! nor with the customer's Rust.

use crate::picture::{DEFAULT_SLICE, HORIZONTAL, Picture, SLICE_BYTES, VERTICAL};

#[derive(Clone, Copy, PartialEq)]
pub enum Direction {
    /// A vertical edge: P lies left of Q.
    Vertical,
    /// A horizontal edge: P lies above Q.
    Horizontal,
}

/// Four lines across an edge of a plane, by the position of sample q0,0.
#[derive(Clone, Copy)]
pub struct Segment {
    pub plane: usize,
    pub direction: Direction,
    pub column: usize,
    pub row: usize,
}

/// Why a segment is not filtered.
#[derive(Clone, Copy, PartialEq)]
pub enum Closed {
    NoEdge,
    LowBs,
    TileBorder,
    SliceBorder,
    Disabled,
}

/// What the thresholds of an open segment are made from.
#[derive(Clone, Copy)]
pub struct Open {
    /// (QpQ + QpP + 1) >> 1
    pub average: i32,
    pub bs: i32,
    pub beta_offset_div2: i32,
    pub tc_offset_div2: i32,
}

impl Open {
    /// qPi of clause 8.7.2.5.5, before any clip.
    pub fn chroma_index(&self, p: &Picture, plane: usize) -> i32 {
        self.average + if plane == 1 { p.cb_offset } else { p.cr_offset }
    }
}

/// All segments of a plane in one direction: edges at multiples of 8, but not at 0, four lines each.
pub fn segments(p: &Picture, plane: usize, direction: Direction) -> impl Iterator<Item = Segment> {
    let (columns, rows) = p.plane_size(plane);
    let (first, down, across) = match direction {
        Direction::Vertical => ((8, 0), 4, 8),
        Direction::Horizontal => ((0, 8), 8, 4),
    };
    let row_starts = (first.1..rows).step_by(down);
    row_starts.flat_map(move |row| (first.0..columns).step_by(across).map(move |column| Segment { plane, direction, column, row }))
}

fn tile_of(starts: &[u16], ctb: usize) -> usize {
    starts.iter().filter(|&&start| usize::from(start) <= ctb).count()
}

fn same_tile(p: &Picture, a: (usize, usize), b: (usize, usize)) -> bool {
    let tile = |(x, y): (usize, usize)| (tile_of(&p.columns, x >> p.log2_ctb), tile_of(&p.rows, y >> p.log2_ctb));
    tile(a) == tile(b)
}

fn cell_at(p: &Picture, (x, y): (usize, usize)) -> &[u8] {
    p.cell(y / 4 * p.cells_across() + x / 4)
}

fn slice_number(cell: &[u8]) -> usize {
    usize::from(u16::from_le_bytes([cell[4], cell[5]]))
}

fn slice(p: &Picture, number: usize) -> &[u8] {
    if p.slices.is_empty() { &DEFAULT_SLICE } else { &p.slices[SLICE_BYTES * number..SLICE_BYTES * (number + 1)] }
}

/// Whether the segment is open, and if not why.
pub fn gate(p: &Picture, s: &Segment) -> Result<Open, Closed> {
    let (across, down) = p.plane_scales(s.plane);
    let at_q = (s.column * across, s.row * down);
    let (at_p, flag, bs) = match s.direction {
        Direction::Vertical => ((at_q.0 - 1, at_q.1), VERTICAL, 2),
        Direction::Horizontal => ((at_q.0, at_q.1 - 1), HORIZONTAL, 3),
    };
    let (cell_p, cell_q) = (cell_at(p, at_p), cell_at(p, at_q));
    let record = slice(p, slice_number(cell_q));
    if cell_q[1] & flag == 0 {
        return Err(Closed::NoEdge);
    }
    if cell_q[bs] < if s.plane == 0 { 1 } else { 2 } {
        return Err(Closed::LowBs);
    }
    if !same_tile(p, at_p, at_q) {
        return Err(Closed::TileBorder);
    }
    if record[3] == 0 && slice_number(cell_p) != slice_number(cell_q) {
        return Err(Closed::SliceBorder);
    }
    if record[0] == 1 {
        return Err(Closed::Disabled);
    }
    let qp = |cell: &[u8]| i32::from(cell[0]) - 64;
    Ok(Open {
        average: (qp(cell_q) + qp(cell_p) + 1) >> 1,
        bs: i32::from(cell_q[bs]),
        beta_offset_div2: i32::from(record[1]) - 6,
        tc_offset_div2: i32::from(record[2]) - 6,
    })
}

/// Whether the standard and the Rust may part on a picture (docs/DIFFERENCES.md, 1): an open chroma segment in 4:2:0 has an index above 57.
pub fn parts(p: &Picture) -> bool {
    let mut both = [Direction::Vertical, Direction::Horizontal].into_iter().flat_map(|direction| segments(p, 1, direction));
    p.format == 1 && both.any(|s| gate(p, &s).is_ok_and(|open| open.average + p.cb_offset.max(p.cr_offset) > 57))
}
