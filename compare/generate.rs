//! Pictures at random: accepted ones, and accepted but for strengths without an edge.

use crate::content;
use crate::conversion;
use crate::picture::{CELL_BYTES, HORIZONTAL, LOSSLESS, PALETTE, PCM, Picture, VERTICAL};
use crate::random::Random;

/// How large the pictures are.
#[derive(Clone, Copy, PartialEq)]
pub enum Sizes {
    /// Most of them small, some of several hundred samples a side, a few of up to 2048, and long thin ones up to 8192.
    Mixed,
    /// At most 64 by 64.
    Small,
}

fn sizes(random: &mut Random, sizes: Sizes) -> (u32, u32) {
    let roll = if sizes == Sizes::Small { 1999 } else { random.below(2000) };
    let (low, high) = match roll {
        0 => (1024, 2048),
        1..7 => return long_and_thin(random),
        7..100 => (8, 512),
        100..300 => (8, 320),
        300..900 => (8, 136),
        _ => (8, 64),
    };
    let mut side = || 8 * random.between(low / 8, high / 8) as u32;
    (side(), side())
}

fn long_and_thin(random: &mut Random) -> (u32, u32) {
    let long = if random.chance(50) { 8192 } else { 8 * random.between(64, 1024) as u32 };
    let thin = random.pick(&[8, 16, 24]);
    if random.chance(50) { (long, thin) } else { (thin, long) }
}

fn depth(random: &mut Random) -> u32 {
    if random.chance(40) { random.pick(&[8, 10]) } else { random.between(8, 16) as u32 }
}

fn offset(random: &mut Random) -> i32 {
    match random.below(4) {
        0 => 0,
        1 => random.pick(&[-12, 12]),
        _ => random.between(-12, 12) as i32,
    }
}

/// An accepted picture.
pub fn accepted(random: &mut Random, size: Sizes) -> Picture {
    conversion::picture(drawn(random, size))
}

/// A picture as boxes wrote it before C-14: edge flags and strengths are drawn apart. It is accepted once it is converted.
pub fn drawn(random: &mut Random, size: Sizes) -> Picture {
    let (width, height) = sizes(random, size);
    let mut p = Picture {
        width,
        height,
        format: random.below(4) as u32,
        luma_depth: depth(random),
        chroma_depth: depth(random),
        log2_ctb: random.between(4, 6) as u32,
        cb_offset: offset(random),
        cr_offset: offset(random),
        pcm_switch: random.chance(50),
        slices: slices(random),
        columns: vec![0],
        rows: vec![0],
        ..Picture::default()
    };
    if random.chance(75) {
        p.columns = starts(random, p.width, p.log2_ctb, 20);
        p.rows = starts(random, p.height, p.log2_ctb, 22);
    }
    p.cells = cells(random, &p);
    mark_suppressed(random, &mut p);
    fill(&mut p, |_, columns, rows, depth| content::plane(random, columns, rows, depth));
    p
}

/// Gives each plane its samples, made from its number, its columns and rows and its depth, and the output planes their lengths.
pub fn fill(p: &mut Picture, mut samples: impl FnMut(usize, usize, usize, u32) -> Vec<u16>) {
    for plane in 0..3 {
        let (columns, rows) = p.plane_size(plane);
        p.planes[plane] = samples(plane, columns, rows, p.plane_depth(plane));
        p.out_lengths[plane] = columns * rows;
    }
}

/// Tile starts along one direction: none but the first, some, or as many as there can be.
pub fn starts(random: &mut Random, samples: u32, log2_ctb: u32, most: usize) -> Vec<u16> {
    let ctbs = samples.div_ceil(1 << log2_ctb) as u16;
    let density = random.pick(&[0, 15, 40, 40, 100]);
    let mut starts = vec![0];
    starts.extend((1..ctbs).filter(|_| random.chance(density)));
    starts.truncate(most);
    starts
}

fn slices(random: &mut Random) -> Vec<u8> {
    let count = match random.below(100) {
        0..15 => 0,
        15..40 => 1,
        40..90 => random.between(2, 6),
        90..98 => random.between(7, 300),
        _ => 600,
    };
    (0..count).flat_map(|_| slice(random)).collect()
}

fn slice(random: &mut Random) -> [u8; 4] {
    let mut offset = || match random.below(4) {
        0 | 1 => 6,
        2 => random.pick(&[0, 12]),
        _ => random.between(0, 12) as u8,
    };
    let (beta, tc) = (offset(), offset());
    [u8::from(random.chance(12)), beta, tc, u8::from(random.chance(60))]
}

/// Which slice a cell lies in: slices follow one another, or each CTB or each cell has any.
fn slice_of(random: &mut Random, layout: u64, p: &Picture, number: usize, mix: usize) -> usize {
    let count = (p.slices.len() / 4).max(1);
    let across = p.cells_across();
    match layout {
        0..5 => number * count / (across * (p.height as usize / 4)),
        5..8 => {
            // Any mixing will do, so long as neighbouring CTBs often differ.
            let shift = p.log2_ctb - 2;
            let ctb = (number / across >> shift) * 1031 + (number % across >> shift);
            (ctb * 2654435761 + mix) % 65521 % count
        }
        _ => random.index(count),
    }
}

fn cells(random: &mut Random, p: &Picture) -> Vec<u8> {
    let lowest = -6 * (i64::from(p.luma_depth) - 8);
    let least = random.pick(&[lowest, lowest, 25, 30]);
    let middle = random.between(least, 51);
    let reach = random.pick(&[0, 3, 12, 60]);
    let edges = random.pick(&[100, 100, 90, 60]);
    let (layout, mix) = (random.below(10), random.index(65536));
    let count = p.cells_across() * (p.height as usize / 4);
    let mut cells = Vec::with_capacity(CELL_BYTES * count);
    for number in 0..count {
        let qp = (middle + random.between(-reach, reach)).clamp(lowest, 51);
        let edge = |flag: u8, random: &mut Random| if random.chance(edges) { flag } else { 0 };
        let flags = edge(VERTICAL, random) | edge(HORIZONTAL, random);
        let mut bs = || random.pick(&[0, 1, 1, 2, 2, 2]);
        let (vertical, horizontal) = (bs(), bs());
        let slice = (slice_of(random, layout, p, number, mix) as u16).to_le_bytes();
        cells.extend([(qp + 64) as u8, flags, vertical, horizontal, slice[0], slice[1], 0, 0]);
    }
    cells
}

/// Lossless and PCM marks: none, a few anywhere, many, or many beside the tiles' borders; in half of these pictures palette marks too.
fn mark_suppressed(random: &mut Random, p: &mut Picture) {
    let style = random.below(10);
    if style < 4 {
        return;
    }
    let percent = if style < 8 { 10 } else { 50 };
    let only_borders = style == 9;
    let palette = if random.chance(50) { PALETTE } else { 0 };
    for number in 0..p.cells.len() / CELL_BYTES {
        if only_borders && !beside_border(p, number) {
            continue;
        }
        let mut mark = |flag: u8| if random.chance(percent) { flag } else { 0 };
        p.cells[CELL_BYTES * number + 1] |= mark(LOSSLESS) | mark(PCM) | mark(palette);
    }
}

/// Whether a cell is the last before, or the first after, a border between tiles.
fn beside_border(p: &Picture, number: usize) -> bool {
    let shift = p.log2_ctb - 2;
    let beside = |starts: &[u16], at: usize| {
        starts[1..].iter().any(|&start| {
            let border = usize::from(start) << shift;
            at == border || at + 1 == border
        })
    };
    beside(&p.columns, number % p.cells_across()) || beside(&p.rows, number / p.cells_across())
}
