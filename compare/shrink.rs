//! Makes a picture on which the two sides differ as small and plain as it can.

use std::time::{Duration, Instant};

use crate::conversion;
use crate::cut::{self, Part};
use crate::ledger;
use crate::picture::{CELL_BYTES, PLAIN_SLICE, Picture};

/// Gives up after so long.
const PATIENCE: Duration = Duration::from_secs(60);

/// The smallest picture found for which `differs` still holds.
pub fn shrink(start: &Picture, mut differs: impl FnMut(&Picture) -> bool) -> Picture {
    let began = Instant::now();
    let mut best = start.clone();
    let mut try_one = |best: &mut Picture, candidate: Picture| -> bool {
        let better = candidate != *best && began.elapsed() < PATIENCE && differs(&candidate);
        if better {
            *best = candidate;
        }
        better
    };
    loop {
        let mut shrunk = false;
        while parts(&best).into_iter().any(|candidate| try_one(&mut best, candidate)) {
            shrunk = true;
        }
        for plainer in PLAINER {
            let mut candidate = best.clone();
            plainer(&mut candidate);
            shrunk |= try_one(&mut best, candidate);
        }
        shrunk |= fewer_starts(&mut best, &mut try_one);
        shrunk |= plainer_stretches(&mut best, &mut try_one);
        if !shrunk || began.elapsed() > PATIENCE {
            return best;
        }
    }
}

/// The picture without its left, right, upper or lower part. Only where the lengths are right can a part be taken.
fn parts(p: &Picture) -> Vec<Picture> {
    if (1..=6).contains(&ledger::verdict(p).0) {
        return vec![];
    }
    let (w, h) = (p.width as usize, p.height as usize);
    let ctb = 1usize << p.log2_ctb;
    let mut found = vec![];
    for step in [w / 2 / ctb * ctb, w / 16 * 8, ctb, 8] {
        if (1..w).contains(&step) {
            found.push(Part { x: 0, y: 0, width: w - step, height: h });
            found.push(Part { x: step, y: 0, width: w - step, height: h });
        }
    }
    for step in [h / 2 / ctb * ctb, h / 16 * 8, ctb, 8] {
        if (1..h).contains(&step) {
            found.push(Part { x: 0, y: 0, width: w, height: h - step });
            found.push(Part { x: 0, y: step, width: w, height: h - step });
        }
    }
    found.into_iter().map(|part| with_starts(p, part)).collect()
}

/// A part that keeps those tile starts that fall into it.
fn with_starts(p: &Picture, part: Part) -> Picture {
    let kept = |starts: &[u16], from: usize, length: usize| -> Vec<u16> {
        let (first, ctbs) = (from >> p.log2_ctb, length.div_ceil(1 << p.log2_ctb));
        let inside = starts.iter().filter(|&&start| usize::from(start) > first).map(|&start| usize::from(start) - first);
        std::iter::once(0).chain(inside.filter(|&start| start < ctbs).map(|start| start as u16)).collect()
    };
    let (columns, rows) = (kept(&p.columns, part.x, part.width), kept(&p.rows, part.y, part.height));
    Picture { columns, rows, ..cut::cut(p, part) }
}

fn set_cells(p: &mut Picture, change: impl Fn(&mut [u8])) {
    p.cells.chunks_exact_mut(CELL_BYTES).for_each(change);
}

fn no_chroma(p: &mut Picture) {
    p.format = 0;
    for plane in 1..3 {
        p.planes[plane].clear();
        p.out_lengths[plane] = 0;
    }
}

fn one_slice(p: &mut Picture) {
    p.slices = PLAIN_SLICE.to_vec();
    set_cells(p, |cell| cell[4..6].fill(0));
}

fn plain_slices(p: &mut Picture) {
    let length = p.slices.len() / PLAIN_SLICE.len();
    p.slices = PLAIN_SLICE.repeat(length);
}

fn used_slices_only(p: &mut Picture) {
    let highest = p.cells.chunks_exact(CELL_BYTES).map(|c| u16::from_le_bytes([c[4], c[5]])).max().unwrap_or(0);
    p.slices.truncate(4 * (usize::from(highest) + 1));
}

/// Changes to the whole picture, each of which makes it plainer.
const PLAINER: &[fn(&mut Picture)] = &[
    // What shows on the converted picture is not C-14's.
    |p| p.cells = conversion::list(&p.cells),
    no_chroma,
    one_slice,
    plain_slices,
    used_slices_only,
    |p| p.columns = vec![0],
    |p| p.rows = vec![0],
    |p| p.pcm_switch = false,
    |p| p.cb_offset = 0,
    |p| p.cr_offset = 0,
    |p| set_cells(p, |cell| cell[1] &= 3),
    |p| set_cells(p, |cell| cell[0] = 101),
    |p| p.planes[0].fill(100),
    |p| p.planes[1].fill(100),
    |p| p.planes[2].fill(100),
    |p| p.log2_ctb = 4,
];

fn fewer_starts(best: &mut Picture, try_one: &mut impl FnMut(&mut Picture, Picture) -> bool) -> bool {
    let mut shrunk = false;
    for of_rows in [false, true] {
        let list = |p: &Picture| if of_rows { p.rows.len() } else { p.columns.len() };
        let mut k = list(best);
        while k > 1 {
            k -= 1;
            let mut candidate = best.clone();
            if of_rows {
                candidate.rows.remove(k)
            } else {
                candidate.columns.remove(k)
            };
            shrunk |= try_one(best, candidate);
        }
    }
    shrunk
}

/// Stretches of cells without edges and marks, and of flat samples: long ones first.
fn plainer_stretches(best: &mut Picture, try_one: &mut impl FnMut(&mut Picture, Picture) -> bool) -> bool {
    let mut shrunk = false;
    let lists = [best.cells.len() / CELL_BYTES, best.planes[0].len(), best.planes[1].len(), best.planes[2].len()];
    for (list, length) in lists.into_iter().enumerate() {
        let mut stretch = length.div_ceil(2).max(1);
        loop {
            for from in (0..length).step_by(stretch) {
                let mut candidate = best.clone();
                flatten(&mut candidate, list, from, stretch);
                shrunk |= try_one(best, candidate);
            }
            if stretch == 1 || length / stretch > 500 {
                break;
            }
            stretch = stretch.div_ceil(2);
        }
    }
    shrunk
}

fn flatten(p: &mut Picture, list: usize, from: usize, count: usize) {
    if list == 0 {
        p.cells.chunks_exact_mut(CELL_BYTES).skip(from).take(count).for_each(|cell| cell[1..4].fill(0));
    } else {
        p.planes[list - 1].iter_mut().skip(from).take(count).for_each(|sample| *sample = 100);
    }
}
