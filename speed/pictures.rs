//! The pictures that are timed, made from a seed.

use crate::picture::{CELL_BYTES, PLAIN_SLICE, Picture};

pub const LOG2_CTB: u32 = 6;

pub struct Timed {
    pub picture: Picture,
    /// How many of the luma segments have an edge and a bS above 0.
    pub open: f64,
}

impl Timed {
    /// The samples of all planes.
    pub fn samples(&self) -> usize {
        self.picture.planes.iter().map(Vec::len).sum()
    }
}

/// A xorshift generator: the same numbers everywhere.
struct Random(u64);

impl Random {
    fn of(seed: u64) -> Self {
        Random(seed.wrapping_mul(0x9E37_79B9_7F4A_7C15))
    }

    fn below(&mut self, n: u64) -> u64 {
        self.0 ^= self.0 << 13;
        self.0 ^= self.0 >> 7;
        self.0 ^= self.0 << 17;
        (self.0 >> 24) % n
    }
}

/// A slow slope, a small step at every block of 8 by 8 and a little noise, so that strong, weak and no filtering all occur.
/// A greater depth has the same picture with finer noise.
fn plane(side: usize, depth: u32, random: &mut Random) -> Vec<u16> {
    let steps: Vec<u64> = (0..side / 8 * (side / 8)).map(|_| random.below(9)).collect();
    let scale = 1 << (depth - 8);
    (0..side * side)
        .map(|i| {
            let (x, y) = (i % side, i / side);
            let base = 60 + (x / 24 + y / 40) as u64 % 100 + steps[y / 8 * (side / 8) + x / 8];
            (base * scale + random.below(3 * scale)) as u16
        })
        .collect()
}

struct Cells {
    /// Cells in a row.
    row: usize,
    bytes: Vec<u8>,
}

impl Cells {
    fn new(size: usize) -> Self {
        Cells { row: size / 4, bytes: [37 + 64, 0, 0, 0, 0, 0, 0, 0].repeat(size / 4 * (size / 4)) }
    }

    fn at(&mut self, x: usize, y: usize) -> &mut [u8] {
        let n = CELL_BYTES * (y / 4 * self.row + x / 4);
        &mut self.bytes[n..n + CELL_BYTES]
    }

    /// A block of samples with one QP, and edges of one bS on its left and top sides.
    fn block(&mut self, x: usize, y: usize, size: usize, qp: u8, bs: u8) {
        for k in (0..size).step_by(4) {
            for l in (0..size).step_by(4) {
                self.at(x + k, y + l)[0] = qp + 64;
            }
            let left = self.at(x, y + k);
            (left[1], left[2]) = (left[1] | 1, bs);
            let top = self.at(x + k, y);
            (top[1], top[3]) = (top[1] | 2, bs);
        }
    }

    /// Splits a square into four, down to 8, more rarely the smaller it is.
    fn quadtree(&mut self, x: usize, y: usize, size: usize, random: &mut Random) {
        let chance = match size {
            64 => 75,
            32 => 45,
            16 => 25,
            _ => 0,
        };
        if random.below(100) < chance {
            let half = size / 2;
            for (dx, dy) in [(0, 0), (half, 0), (0, half), (half, half)] {
                self.quadtree(x + dx, y + dy, half, random);
            }
        } else {
            let qp = 32 + random.below(8) as u8;
            let bs = [0, 1, 1, 2, 2][random.below(5) as usize];
            self.block(x, y, size, qp, bs);
        }
    }

    /// The share of the luma segments, on edges at multiples of 8 and not at 0, that have an edge and a bS.
    fn open(&self) -> f64 {
        let (mut open, mut all) = (0, 0);
        for (i, c) in self.bytes.chunks(CELL_BYTES).enumerate() {
            let (column, row) = (i % self.row, i / self.row);
            if column > 0 && column % 2 == 0 {
                all += 1;
                open += usize::from(c[1] & 1 != 0 && c[2] > 0);
            }
            if row > 0 && row % 2 == 0 {
                all += 1;
                open += usize::from(c[1] & 2 != 0 && c[3] > 0);
            }
        }
        open as f64 / all as f64
    }
}

/// 4:2:0, one open slice, one tile.
fn picture(size: usize, depth: u32, cells: Cells, random: &mut Random) -> Timed {
    let planes = [size, size / 2, size / 2].map(|side| plane(side, depth, random));
    let open = cells.open();
    let picture = Picture {
        width: size as u32,
        height: size as u32,
        format: 1,
        luma_depth: depth,
        chroma_depth: depth,
        log2_ctb: LOG2_CTB,
        cb_offset: 0,
        cr_offset: 0,
        pcm_switch: false,
        out_lengths: [0, 1, 2].map(|k| planes[k].len()),
        planes,
        cells: cells.bytes,
        slices: PLAIN_SLICE.to_vec(),
        columns: vec![0],
        rows: vec![0],
    };
    Timed { picture, open }
}

/// Every edge of the 8 by 8 grid, with bS 2.
pub fn dense(size: usize, depth: u32) -> Timed {
    let mut cells = Cells::new(size);
    for y in (0..size).step_by(8) {
        for x in (0..size).step_by(8) {
            cells.block(x, y, 8, 37, 2);
        }
    }
    picture(size, depth, cells, &mut Random::of(1))
}

/// The edges of a coding quadtree in each CTB.
pub fn sparse(size: usize, depth: u32) -> Timed {
    let mut random = Random::of(2);
    let mut cells = Cells::new(size);
    for y in (0..size).step_by(1 << LOG2_CTB) {
        for x in (0..size).step_by(1 << LOG2_CTB) {
            cells.quadtree(x, y, 1 << LOG2_CTB, &mut random);
        }
    }
    picture(size, depth, cells, &mut random)
}
