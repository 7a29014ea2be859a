//! What a run's checksums were of. As in tally.rs all of it is sums and largest numbers.

use crate::check::Found;
use crate::picture::Picture;
use crate::sums::Outcome;
use crate::tally::{Table, add, print_table};

/// Of pictures that the stage was run on.
#[derive(Default)]
pub struct PicturesTally {
    given: [u64; 11],
    finished: u64,
}

impl PicturesTally {
    pub fn count(&mut self, found: &Found) {
        self.given[found.summed.verdict.0 as usize] += 1;
        self.finished += u64::from(found.agreed.is_some());
    }

    pub fn add(&mut self, more: &PicturesTally) {
        self.given.iter_mut().zip(more.given).for_each(|(a, b)| *a += b);
        self.finished += more.finished;
    }

    pub fn print(&self) {
        println!("checksums of all these pictures: of given planes, {}; of finished planes {}", by_number(&self.given), self.finished);
    }
}

fn by_number(answers: &[u64; 11]) -> String {
    let refused: Vec<String> = [1, 2, 3, 6, 10].map(|number| format!("{number}: {}", answers[number])).to_vec();
    format!("accepted {}, refused {}", answers[0], refused.join(", "))
}

/// Of planes at random.
#[derive(Default)]
pub struct PlanesTally {
    answers: [u64; 11],
    later_places: u64,
    samples: u64,
    /// Of accepted ones past 255 and past 4095: columns, rows, both.
    past: [[u64; 3]; 2],
    sums: u64,
    largest: u64,
    /// Of accepted ones, and of those the planes whose exact sum is 2^32 or more.
    formats: Table<4>,
    luma_depths: Table<9>,
    chroma_depths: Table<9>,
}

fn passes(exact: &[u64]) -> u64 {
    exact.iter().filter(|&&sum| sum >> 32 > 0).count() as u64
}

impl PlanesTally {
    pub fn count(&mut self, p: &Picture, found: &Outcome) {
        self.answers[found.verdict.0 as usize] += 1;
        self.later_places += u64::from(found.verdict.1 > 0);
        self.samples += p.planes.iter().map(|plane| plane.len() as u64).sum::<u64>();
        if found.exact.is_empty() {
            return;
        }
        self.sums += found.exact.len() as u64;
        self.largest = found.exact.iter().copied().fold(self.largest, u64::max);
        for (past, last) in self.past.iter_mut().zip([255, 4095]) {
            let (wide, high) = (p.width > last + 1, p.height > last + 1);
            past.iter_mut().zip([wide, high, wide && high]).for_each(|(count, is)| *count += u64::from(is));
        }
        let count = |entry: &mut (u64, u64), exact: &[u64]| *entry = (entry.0 + 1, entry.1 + passes(exact));
        count(&mut self.formats[p.format as usize], &found.exact);
        count(&mut self.luma_depths[p.luma_depth as usize - 8], &found.exact[..1]);
        if p.format > 0 {
            count(&mut self.chroma_depths[p.chroma_depth as usize - 8], &found.exact[1..]);
        }
    }

    pub fn add(&mut self, more: &PlanesTally) {
        self.answers.iter_mut().zip(more.answers).for_each(|(a, b)| *a += b);
        self.later_places += more.later_places;
        self.samples += more.samples;
        self.past.iter_mut().flatten().zip(more.past.iter().flatten()).for_each(|(a, b)| *a += b);
        self.sums += more.sums;
        self.largest = self.largest.max(more.largest);
        add(&mut self.formats, &more.formats);
        add(&mut self.luma_depths, &more.luma_depths);
        add(&mut self.chroma_depths, &more.chroma_depths);
    }

    pub fn print(&self) {
        let count: u64 = self.answers.iter().sum();
        println!("planes at random {count}; samples {}; {}; place not 0 {}", self.samples, by_number(&self.answers), self.later_places);
        let [short, long] = self.past.map(|[wide, high, both]| format!("columns {wide}, rows {high}, both {both}"));
        println!("  past 255: {short}; past 4095: {long}");
        let passed: u64 = self.formats.iter().map(|(_, passed)| passed).sum();
        println!("  sums {}, of which 2^32 and more {passed}; the largest {}", self.sums, self.largest);
        print_table("format (sums of 2^32 and more)", 0, &self.formats);
        print_table("luma depth (sums of 2^32 and more)", 8, &self.luma_depths);
        print_table("chroma depth (sums of 2^32 and more)", 8, &self.chroma_depths);
    }
}
