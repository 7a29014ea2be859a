//! What an accepted picture exercises: its segments by what the gate and tc say of them, and its suppressed cells.
//!
//! The gate is that of the second program. The customer's kernels are called for the segments that it leaves, and the two counts must
//! agree; so the tally cannot claim what no kernel did.

use crate::decode;
use crate::gate::{Closed, Direction, Open, gate, segments};
use crate::picture::{LOSSLESS, PALETTE, PCM, Picture};

/// Segments of luma, or of chroma, where each stands for Cb and for Cr.
#[derive(Clone, Copy, Default)]
pub struct Segments {
    /// The closed ones, by `Closed` in its order.
    pub closed: [u64; 5],
    pub open: u64,
    /// Of the open ones, with tc 0; in chroma counted for Cb and for Cr.
    pub tc_zero: u64,
    /// Of the open ones, with a negative average QP.
    pub negative_qp: u64,
    /// In 4:2:0, of the open ones, the chroma indices 58 to 63, counted for Cb and for Cr: there the Rust does not decide.
    pub above_57: [u64; 6],
    /// Of luma, the entries of the tc table that the open ones ask for (document 02, C-18), a bit to an entry.
    entries: [u64; ENTRIES.div_ceil(64)],
}

/// The table's entries: average QP 0 to 51, bS 1 and 2, tc div2 -6 to 6.
pub const ENTRIES: usize = 52 * 2 * 13;

/// The first 18 rows of the tc table are 0.
fn tc_is_zero(index: i32) -> bool {
    index < 18
}

impl Segments {
    fn count_closed(&mut self, why: Closed) {
        self.closed[why as usize] += 1;
    }

    fn count_open(&mut self, p: &Picture, plane: usize, open: &Open) {
        self.open += 1;
        self.negative_qp += u64::from(open.average < 0);
        let offset = 2 * open.tc_offset_div2;
        if plane == 0 {
            self.tc_zero += u64::from(tc_is_zero(open.average + 2 * (open.bs - 1) + offset));
            self.count_entry(open);
            return;
        }
        for plane in [1, 2] {
            let index = open.chroma_index(p, plane);
            let qp = decode::qpc(index, p.format as u8, p.chroma_depth as u8);
            self.tc_zero += u64::from(tc_is_zero(qp + 2 + offset));
            if p.format == 1 && index > 57 {
                self.above_57[index as usize - 58] += 1;
            }
        }
    }

    fn count_entry(&mut self, open: &Open) {
        if let Ok(average) = usize::try_from(open.average) {
            let entry = 26 * average + 13 * (open.bs - 1) as usize + (open.tc_offset_div2 + 6) as usize;
            self.entries[entry / 64] |= 1 << (entry % 64);
        }
    }

    pub fn entries_read(&self) -> u32 {
        self.entries.iter().map(|bits| bits.count_ones()).sum()
    }

    fn add(&mut self, more: &Segments) {
        self.entries.iter_mut().zip(more.entries).for_each(|(a, b)| *a |= b);
        self.closed.iter_mut().zip(more.closed).for_each(|(a, b)| *a += b);
        self.above_57.iter_mut().zip(more.above_57).for_each(|(a, b)| *a += b);
        self.open += more.open;
        self.tc_zero += more.tc_zero;
        self.negative_qp += more.negative_qp;
    }
}

/// The segments of a plane, both directions.
fn segments_of(p: &Picture, plane: usize) -> Segments {
    let mut found = Segments::default();
    for direction in [Direction::Vertical, Direction::Horizontal] {
        for segment in segments(p, plane, direction) {
            match gate(p, &segment) {
                Ok(open) => found.count_open(p, plane, &open),
                Err(why) => found.count_closed(why),
            }
        }
    }
    found
}

/// Suppressed cells, and pairs of cells on the two sides of a tile border.
#[derive(Clone, Copy, Default)]
pub struct Suppressed {
    pub cells: u64,
    /// Palette cells; and those that nothing else suppresses.
    pub palette: u64,
    pub palette_alone: u64,
    pub before_border: u64,
    pub after_border: u64,
    pub on_both_sides: u64,
}

impl Suppressed {
    fn pair(&mut self, before: bool, after: bool) {
        self.before_border += u64::from(before && !after);
        self.after_border += u64::from(after && !before);
        self.on_both_sides += u64::from(before && after);
    }
}

fn suppressed(p: &Picture) -> Suppressed {
    let (across, shift) = (p.cells_across(), p.log2_ctb - 2);
    let down = p.height as usize / 4;
    let at = |x: usize, y: usize| p.suppressed(y * across + x);
    let mut found = Suppressed::default();
    let alone = |number: &usize| {
        let flags = p.cell(*number)[1];
        flags & PALETTE != 0 && flags & LOSSLESS == 0 && (flags & PCM == 0 || !p.pcm_switch)
    };
    found.cells = (0..across * down).filter(|&number| p.suppressed(number)).count() as u64;
    found.palette = p.palette_cells() as u64;
    found.palette_alone = (0..across * down).filter(alone).count() as u64;
    for x in p.columns[1..].iter().map(|&start| usize::from(start) << shift) {
        (0..down).for_each(|y| found.pair(at(x - 1, y), at(x, y)));
    }
    for y in p.rows[1..].iter().map(|&start| usize::from(start) << shift) {
        (0..across).for_each(|x| found.pair(at(x, y - 1), at(x, y)));
    }
    found
}

/// What pictures exercise, summed up.
#[derive(Clone, Copy, Default)]
pub struct Coverage {
    pub luma: Segments,
    pub chroma: Segments,
    pub suppressed: Suppressed,
}

impl Coverage {
    pub fn of(p: &Picture) -> Self {
        Coverage { luma: segments_of(p, 0), chroma: segments_of(p, 1), suppressed: suppressed(p) }
    }

    pub fn add(&mut self, more: &Coverage) {
        self.luma.add(&more.luma);
        self.chroma.add(&more.chroma);
        self.suppressed.cells += more.suppressed.cells;
        self.suppressed.palette += more.suppressed.palette;
        self.suppressed.palette_alone += more.suppressed.palette_alone;
        self.suppressed.before_border += more.suppressed.before_border;
        self.suppressed.after_border += more.suppressed.after_border;
        self.suppressed.on_both_sides += more.suppressed.on_both_sides;
    }
}
