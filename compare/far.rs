//! Adversarial pictures for document 02's C-23: accepted ones, small, with thresholds at their largest and samples that go as far as
//! they can, or nearly so.

use crate::far_content;
use crate::generate;
use crate::picture::{CELL_BYTES, HORIZONTAL, LOSSLESS, PALETTE, PCM, Picture, VERTICAL, scales};
use crate::random::Random;

/// 16 to 64; from 24 on half of it has an edge too.
fn side(random: &mut Random, scale: usize) -> u32 {
    let most = random.pick(&[4, 4, 8]);
    8 * random.between(1 + scale as i64, most) as u32
}

/// Mostly none. In 4:2:0 an offset above 6 would leave the picture to the second program alone.
fn offset(random: &mut Random, format: u32) -> i32 {
    let most = if format == 1 && random.chance(95) { 6 } else { 12 };
    if random.chance(60) { 0 } else { random.between(-12, most) as i32 }
}

pub fn picture(random: &mut Random) -> Picture {
    let format = random.below(4) as u32;
    let (across, down) = scales(format);
    let mut p = Picture {
        width: side(random, across),
        height: side(random, down),
        format,
        luma_depth: random.between(8, 16) as u32,
        chroma_depth: random.between(8, 16) as u32,
        log2_ctb: random.pick(&[4, 4, 5, 6]),
        cb_offset: offset(random, format),
        cr_offset: offset(random, format),
        pcm_switch: random.chance(50),
        slices: slices(random),
        columns: vec![0],
        rows: vec![0],
        ..Picture::default()
    };
    if random.chance(50) {
        p.columns = generate::starts(random, p.width, p.log2_ctb, 20);
        p.rows = generate::starts(random, p.height, p.log2_ctb, 22);
    }
    p.cells = cells(random, &p);
    generate::fill(&mut p, |plane, columns, rows, depth| far_content::plane(random, plane == 0, columns, rows, depth));
    p
}

/// One slice with both offsets at the top, or with tc offset 0, so that QP 51 has the largest tc and QP 50 the next; some pictures have a
/// few slices or none.
fn slices(random: &mut Random) -> Vec<u8> {
    let below_top = |random: &mut Random| 12 - random.below(4) as u8;
    match random.below(20) {
        0 => vec![],
        1 => (0..random.between(1, 4)).flat_map(|_| [u8::from(random.chance(5)), below_top(random), below_top(random), 1]).collect(),
        2..5 => vec![0, 12, 6, 1],
        _ => vec![0, 12, 12, 1],
    }
}

/// QP 51 in half of the pictures, and from 50, 45 or 36 on in the others; bS 2 nearly everywhere. In one picture of five some cells are
/// suppressed.
fn cells(random: &mut Random, p: &Picture) -> Vec<u8> {
    let least = random.pick(&[51, 51, 51, 50, 45, 36]);
    let closed = random.pick(&[0, 0, 2, 5]);
    let marked = if random.chance(20) { random.pick(&[2, 8, 20]) } else { 0 };
    let slices = (p.slices.len() / 4).max(1);
    let count = p.cells_across() * (p.height as usize / 4);
    let mut cells = Vec::with_capacity(CELL_BYTES * count);
    for number in 0..count {
        let mut edge = |flag: u8| if random.chance(closed) { random.pick(&[(0, 0), (flag, 0), (flag, 1)]) } else { (flag, 2) };
        let ((left, vertical), (top, horizontal)) = (edge(VERTICAL), edge(HORIZONTAL));
        let mark = if random.chance(marked) { random.pick(&[LOSSLESS, PCM, PALETTE]) } else { 0 };
        let qp = random.between(least, 51);
        let slice = (number * slices / count) as u8;
        cells.extend([(qp + 64) as u8, left | top | mark, vertical, horizontal, slice, 0, 0, 0]);
    }
    cells
}
