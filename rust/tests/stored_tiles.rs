//! crates/tile_cases, replayed through the Rust API: every tile of the stored pictures, within its picture and cut
//! out. The expected lines are those of oracle/README.md: a tile's samples were taken out of the planes that the
//! customer's Rust left of the picture.

mod common;

use std::collections::{BTreeMap, BTreeSet};

use common::stored::{expected, fingerprints, records};
use common::{run, run_into};
use tinladle::container::StoredPicture;
use tinladle::cut::{Tile, apart, cut, tiles};
use tinladle::{PlanesBuf, Refusal, Settings};

/// A tile column, a tile row, and the answer there.
type Line = (usize, usize, String);

/// The lines of each record. Those of lists that a caller lends (LIST above 0) are left out: this crate makes the
/// cut's lists itself.
fn lines() -> BTreeMap<usize, Vec<Line>> {
    let mut found: BTreeMap<usize, Vec<Line>> = BTreeMap::new();
    for line in expected("tile_cases").lines().filter(|&line| line != "short") {
        let words: Vec<&str> = line.splitn(5, ' ').collect();
        let [number, column, row, list] = [0, 1, 2, 3].map(|i| words[i].parse::<usize>().unwrap());
        let of_record = found.entry(number).or_default();
        if list == 0 {
            of_record.push((column, row, words[4].to_string()));
        }
    }
    found
}

/// A tile's samples out of a picture's planes, by the chroma formats of the standard.
fn crop(s: &Settings, tile: &Tile, planes: &PlanesBuf) -> [Vec<u16>; 3] {
    let (across, down) = [(0, 0), (2, 2), (2, 1), (1, 1)][s.chroma_format as usize];
    let part = |plane: &[u16], across: u32, down: u32| {
        if across == 0 {
            return Vec::new();
        }
        let [stride, x, width] = [s.width, tile.x, tile.width].map(|n| (n / across) as usize);
        let [y, height] = [tile.y, tile.height].map(|n| (n / down) as usize);
        (y..y + height).flat_map(|row| plane[row * stride + x..][..width].to_vec()).collect()
    };
    [part(&planes.y, 1, 1), part(&planes.cb, across, down), part(&planes.cr, across, down)]
}

/// The answer for a tile: the fingerprints of its finished samples, which must be the same when it is filtered alone.
fn differing(stored: &StoredPicture, finished: &PlanesBuf, tile: &Tile) -> String {
    let picture = stored.picture.picture();
    let [y, cb, cr] = crop(&picture.settings, tile, finished);
    let within = fingerprints([&y, &cb, &cr]);
    let alone = run(&cut(&picture, tile).unwrap()).unwrap();
    assert_eq!(fingerprints(alone.samples()), within, "{tile:?}");
    format!("differing {} {within}", apart(&picture, finished, tile).unwrap())
}

fn answer(stored: &StoredPicture, verdict: &Result<PlanesBuf, Refusal>, column: usize, row: usize) -> String {
    let finished = match verdict {
        Ok(finished) => finished,
        Err(refusal) => return format!("refused {} {}", refusal.number(), refusal.place()),
    };
    match tiles(&stored.picture.picture()).iter().find(|tile| (tile.column, tile.row) == (column, row)) {
        Some(tile) => differing(stored, finished, tile),
        None => "no tile".into(),
    }
}

#[test]
fn tile_cases() {
    let (pictures, short) = records("tile_cases");
    assert_eq!(short, expected("tile_cases").ends_with("\nshort\n"));
    let lines = lines();
    assert!(lines.keys().copied().eq(1..=pictures.len()), "each record has lines");
    let mut kinds = BTreeSet::new();
    for (stored, (number, lines)) in pictures.iter().zip(&lines) {
        let verdict = run_into(&stored.picture, stored.output_lengths);
        for (column, row, wanted) in lines {
            assert_eq!(answer(stored, &verdict, *column, *row), *wanted, "record {number}, tile {column} {row}");
            kinds.insert(wanted.split(' ').next().unwrap());
        }
        if verdict.is_ok() {
            let found = tiles(&stored.picture.picture()).iter().map(|tile| (tile.column, tile.row)).collect();
            let tried = lines.iter().filter(|line| line.2 != "no tile").map(|line| (line.0, line.1));
            assert_eq!(tried.collect::<BTreeSet<_>>(), found, "record {number}: every tile has a line");
        }
    }
    assert_eq!(kinds, BTreeSet::from(["differing", "no", "refused"]), "each kind of answer is among them");
}
