//! What a kernel may move on a line and how far, by document 02's C-23; and what it did move.

use super::share::Share;
use crate::deblock::LumaDecision;

/// The bounds, in the order of `LineMoves::shares`.
pub const BOUND_NAMES: [&str; 4] = ["strong", "weak next to the edge", "weak one further", "chroma"];

/// How far one sample of a line may go, and by which of the bounds, as `BOUND_NAMES` numbers them.
#[derive(Clone, Copy)]
pub struct Limit {
    name: usize,
    bound: i32,
}

/// The limits of a line's samples, p3 to p0 and q0 to q3.
pub type Limits = [Limit; 8];

pub fn luma_limits(decision: LumaDecision, tc: i32) -> Limits {
    let strong = |bound: i32| Limit { name: 0, bound };
    let near = Limit { name: 1, bound: tc };
    let further = |bound: i32| Limit { name: 2, bound };
    let flagged = |flag: bool| further(if flag { tc >> 1 } else { 0 });
    match decision {
        LumaDecision::Skip => [strong(0); 8],
        LumaDecision::Strong => [0, 2 * tc, 2 * tc, 2 * tc, 2 * tc, 2 * tc, 2 * tc, 0].map(strong),
        LumaDecision::Weak { do_p1, do_q1 } => [further(0), further(0), flagged(do_p1), near, near, flagged(do_q1), further(0), further(0)],
    }
}

pub fn chroma_limits(tc: i32) -> Limits {
    [0, 0, 0, tc, tc, 0, 0, 0].map(|bound| Limit { name: 3, bound })
}

/// Where a segment's samples stand in the band of rows that a kernel is given.
pub struct Window {
    /// Sample p3 of line 0.
    first: usize,
    /// To the next sample of a line, and to the next line.
    across: usize,
    along: usize,
    width: usize,
    first_row: usize,
}

/// The samples of a window, line by line.
pub type Lines = [[u16; 8]; 4];

impl Window {
    pub fn vertical(width: usize, edge: usize, line: usize, first_row: usize) -> Self {
        Window { first: (line - first_row) * width + edge - 4, across: 1, along: width, width, first_row }
    }

    pub fn horizontal(width: usize, edge: usize, line: usize, first_row: usize) -> Self {
        Window { first: (edge - 4 - first_row) * width + line, across: width, along: 1, width, first_row }
    }

    pub fn lines(&self, band: &[u16]) -> Lines {
        std::array::from_fn(|line| std::array::from_fn(|number| band[self.first + line * self.along + number * self.across]))
    }

    /// A sample's place in its plane.
    fn place(&self, line: usize, number: usize) -> (usize, usize) {
        let at = self.first + line * self.along + number * self.across;
        (at % self.width, self.first_row + at / self.width)
    }
}

/// A sample that went farther than it may.
#[derive(Clone, Copy)]
struct TooFar {
    name: usize,
    place: (usize, usize),
    share: Share,
}

/// How far kernels moved samples.
#[derive(Clone, Copy, Default)]
pub struct LineMoves {
    /// The largest share of each bound.
    pub shares: [Share; 4],
    too_far: Option<TooFar>,
}

impl LineMoves {
    /// Counts what one kernel did to its window.
    pub fn count(&mut self, window: &Window, limits: &Limits, before: &Lines, after: &Lines) {
        let moved = |line: usize, number: usize| before[line][number].abs_diff(after[line][number]);
        let farthest: [u16; 8] = std::array::from_fn(|number| (0..4).map(|line| moved(line, number)).max().unwrap_or(0));
        for (number, (limit, &far)) in limits.iter().zip(&farthest).enumerate().filter(|(_, (_, far))| **far > 0) {
            let share = Share { moved: far.into(), bound: limit.bound as u32 };
            if share.moved <= share.bound {
                self.shares[limit.name] = self.shares[limit.name].larger(share, u32::max);
            } else if self.too_far.is_none() {
                let line = (0..4).find(|&line| moved(line, number) == far).unwrap_or(0);
                self.too_far = Some(TooFar { name: limit.name, place: window.place(line, number), share });
            }
        }
    }

    /// The first sample that went too far, if one did.
    pub fn check(&self) -> Result<(), String> {
        let Some(TooFar { name, place: (x, y), share: Share { moved, bound } }) = self.too_far else { return Ok(()) };
        let name = BOUND_NAMES[name];
        Err(format!("a kernel of the customer's Rust ({name}) moves sample ({x}, {y}) of its plane by {moved}, the bound is {bound}"))
    }
}
