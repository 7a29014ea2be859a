//! Counts of samples by tile and plane, as text.

use std::fmt::Display;

use tinladle::cut::{self, Tile};
use tinladle::{Plane, Settings};

/// The samples in which two pictures of one size differ, for each tile.
pub struct Counts {
    tiles: Vec<(Tile, [u64; 3])>,
}

impl Counts {
    pub fn of(settings: &Settings, tiles: &[Tile], a: [&[u16]; 3], b: [&[u16]; 3]) -> Self {
        let count = |tile: &Tile| (*tile, cut::differing(settings, tile, a, b));
        Counts { tiles: tiles.iter().map(count).collect() }
    }

    /// In each plane, over all tiles, which cover the picture.
    fn sums(&self) -> [u64; 3] {
        let mut sums = [0; 3];
        for (_, counts) in &self.tiles {
            for (sum, count) in sums.iter_mut().zip(counts) {
                *sum += count;
            }
        }
        sums
    }

    pub fn total(&self) -> u64 {
        self.sums().iter().sum()
    }

    /// A line for each tile and one for the whole; `what` heads the tiles' names.
    pub fn text(&self, what: &str) -> String {
        let mut text = line(what, Plane::ALL);
        for (tile, counts) in &self.tiles {
            text += &line(&name(tile), *counts);
        }
        text + &line("whole picture", self.sums())
    }
}

/// A line of a table with a column for each plane.
pub fn line(name: &str, [y, cb, cr]: [impl Display; 3]) -> String {
    format!("  {name:<24}{y:>10}{cb:>10}{cr:>10}\n")
}

/// A tile's name in every table.
pub fn name(tile: &Tile) -> String {
    format!("tile column {}, row {}", tile.column, tile.row)
}
