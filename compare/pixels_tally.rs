//! What pixels a run asked for, and which floats went the way back. As in tally.rs all of it is sums.

use crate::check::Found;
use crate::ledger::Verdict;
use crate::picture::Picture;
use crate::pixels::Outcome;
use crate::tally::{Table, add, print_table};

/// Pixels of one sort of planes.
#[derive(Default)]
struct Asked {
    answers: [u64; 15],
    /// Of those inside, at a corner; of those outside, one past a border or two.
    corners: u64,
    one_past: u64,
}

impl Asked {
    fn count(&mut self, p: &Picture, found: &Outcome) {
        let ((x, y), (number, _)) = (found.pixel, found.verdict);
        self.answers[number as usize] += 1;
        let at_end = |place: u32, count: u32| place == 0 || place + 1 == count;
        self.corners += u64::from(number == 0 && at_end(x, p.width) && at_end(y, p.height));
        self.one_past += u64::from(number == 14 && x <= p.width && y <= p.height);
    }

    fn add(&mut self, more: &Asked) {
        self.answers.iter_mut().zip(more.answers).for_each(|(a, b)| *a += b);
        self.corners += more.corners;
        self.one_past += more.one_past;
    }

    fn told(&self, numbers: &[usize]) -> String {
        let refused: Vec<String> = numbers.iter().map(|&number| format!("{number}: {}", self.answers[number])).collect();
        let (inside, refused) = (self.answers[0], refused.join(", "));
        format!("inside {inside}, of which at a corner {}; refused {refused}, of which one past {}", self.corners, self.one_past)
    }
}

#[derive(Default)]
pub struct PixelsTally {
    given: Asked,
    finished: Asked,
    planes: Asked,
    blocks: u64,
    beside_refused: u64,
    /// Floats at random: those of a depth out of range; and of luma and of chroma by depth, with how many were taken.
    no_depth: u64,
    floats: [Table<9>; 2],
}

impl PixelsTally {
    /// Of a picture that the stage was run on.
    pub fn count(&mut self, p: &Picture, found: &Found) {
        self.given.count(p, &found.asked);
        if let Some(agreed) = &found.agreed {
            self.finished.count(p, &agreed.asked);
        }
    }

    /// Of planes at random.
    pub fn count_planes(&mut self, p: &Picture, found: &[Outcome]) {
        found.iter().for_each(|outcome| self.planes.count(p, outcome));
    }

    /// A block of samples that went there and back.
    pub fn count_block(&mut self, beside_refused: u64) {
        self.blocks += 1;
        self.beside_refused += beside_refused;
    }

    pub fn count_floats(&mut self, found: &[(u32, bool, Verdict)]) {
        for &(depth, chroma, verdict) in found {
            if verdict == (3, 0) {
                self.no_depth += 1;
                continue;
            }
            let entry = &mut self.floats[usize::from(chroma)][depth as usize - 8];
            *entry = (entry.0 + 1, entry.1 + u64::from(verdict == (0, 0)));
        }
    }

    pub fn add(&mut self, more: &PixelsTally) {
        self.given.add(&more.given);
        self.finished.add(&more.finished);
        self.planes.add(&more.planes);
        self.blocks += more.blocks;
        self.beside_refused += more.beside_refused;
        self.no_depth += more.no_depth;
        self.floats.iter_mut().zip(&more.floats).for_each(|(into, from)| add(into, from));
    }

    pub fn print(&self) {
        let causes = [1, 2, 3, 6, 10, 14];
        println!("pixels of all these pictures: of given planes, {}", self.given.told(&causes));
        println!("  of finished planes, {}", self.finished.told(&[14]));
        println!("pixels of planes at random: {}", self.planes.told(&causes));
        let samples = 64 * self.blocks;
        println!("samples there and back: luma {samples}, chroma {samples}; floats beside them that were refused {}", self.beside_refused);
        let entries = self.floats.iter().flatten();
        let (count, taken) = entries.fold((0, 0), |(count, taken), entry| (count + entry.0, taken + entry.1));
        let all = count + self.no_depth;
        println!("floats at random {all}; taken {taken}, refused 3: {}, 15: {}", self.no_depth, count - taken);
        print_table("depth, luma (taken)", 8, &self.floats[0]);
        print_table("depth, chroma (taken)", 8, &self.floats[1]);
    }
}
