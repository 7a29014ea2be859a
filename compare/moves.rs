//! How far the samples of an accepted picture went, held to the bounds of document 02's C-23; and the largest share of each bound that a
//! run has seen.

use crate::check::Agreed;
use crate::picture::{PLANE_NAMES, Picture};
use crate::theirs::line_bounds::BOUND_NAMES;
use crate::theirs::share::Share;

/// At depth 8 no luma sample ends farther from its original, and no chroma sample; at another depth this times 2^(depth - 8).
const LUMA: u32 = 96;
const CHROMA: u32 = 48;

/// How far a sample of a plane may go.
pub fn bound(p: &Picture, plane: usize) -> u32 {
    (if plane == 0 { LUMA } else { CHROMA }) << (p.plane_depth(plane) - 8)
}

/// How far the samples of a plane went at the most, and where the first is that went so far.
pub fn farthest(before: &[u16], after: &[u16]) -> (u32, usize) {
    let moved = before.iter().zip(after).map(|(a, b)| u32::from(a.abs_diff(*b)));
    (0..).zip(moved).fold((0, 0), |most, (at, moved)| if moved > most.0 { (moved, at) } else { most })
}

/// The largest share in each plane; or a sample that left its range or went too far.
pub fn check(p: &Picture, planes: &[Vec<u16>; 3]) -> Result<[Share; 3], String> {
    let mut shares = [Share::default(); 3];
    for plane in (0..3).filter(|&plane| !planes[plane].is_empty()) {
        let (name, width) = (PLANE_NAMES[plane], p.plane_size(plane).0);
        let largest = (1u32 << p.plane_depth(plane)) - 1;
        if let Some(at) = planes[plane].iter().position(|&sample| u32::from(sample) > largest) {
            let (x, y, sample) = (at % width, at / width, planes[plane][at]);
            return Err(format!("{name} sample ({x}, {y}) is {sample} in the end, the largest is {largest}"));
        }
        let bound = bound(p, plane);
        let (moved, at) = farthest(&p.planes[plane], &planes[plane]);
        if moved > bound {
            let (x, y, sample) = (at % width, at / width, p.planes[plane][at]);
            return Err(format!("{name} sample ({x}, {y}) ends {moved} from its original {sample}, its bound is {bound}"));
        }
        shares[plane] = Share { moved, bound };
    }
    Ok(shares)
}

/// The largest share of each bound: of a sample in its picture by plane, and on a line by the kernel.
#[derive(Clone, Copy, Default)]
pub struct Shares {
    planes: [Share; 3],
    lines: [Share; 4],
}

impl Shares {
    pub fn count(&mut self, a: &Agreed) {
        self.add(&Shares { planes: a.shares, lines: a.calls.moves.shares });
    }

    pub fn add(&mut self, more: &Shares) {
        // Of equal shares the one of the least depth is told, and on a line the one of the largest tc.
        self.planes.iter_mut().zip(more.planes).for_each(|(a, b)| *a = a.larger(b, u32::min));
        self.lines.iter_mut().zip(more.lines).for_each(|(a, b)| *a = a.larger(b, u32::max));
    }

    pub fn print(&self, of: &str) {
        println!("largest shares of the bounds, {of}: {}", named(&PLANE_NAMES, &self.planes));
        println!("  on a line: {}", named(&BOUND_NAMES, &self.lines));
    }
}

fn named(names: &[&str], shares: &[Share]) -> String {
    let words: Vec<String> = names.iter().zip(shares).map(|(name, share)| format!("{name} {share}")).collect();
    words.join(", ")
}
