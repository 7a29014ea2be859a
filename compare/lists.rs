//! Cell lists at random, of any length and with any bytes, and the library's conversion of a list beside that of conversion.rs.

use crate::conversion;
use crate::ledger;
use crate::ours;
use crate::picture::CELL_BYTES;
use crate::random::Random;

/// What the lists of a run were.
#[derive(Clone, Copy, Default)]
pub struct Lists {
    pub count: u64,
    pub bytes: u64,
    /// Lent with an output list of another length.
    pub refused: u64,
    pub empty: u64,
    /// Ending within a record.
    pub partial: u64,
    /// Without a strength that has no edge.
    pub in_rule: u64,
    pub zeroed: u64,
}

impl Lists {
    pub fn count(&mut self, cells: &[u8], out_length: usize) {
        self.count += 1;
        self.bytes += cells.len() as u64;
        self.empty += u64::from(cells.is_empty());
        self.partial += u64::from(cells.len() % CELL_BYTES > 0);
        self.in_rule += u64::from(ledger::first_edgeless(cells).is_none());
        if cells.len() == out_length {
            self.zeroed += conversion::zeroed(cells, &conversion::list(cells));
        } else {
            self.refused += 1;
        }
    }

    pub fn add(&mut self, more: &Lists) {
        self.count += more.count;
        self.bytes += more.bytes;
        self.refused += more.refused;
        self.empty += more.empty;
        self.partial += more.partial;
        self.in_rule += more.in_rule;
        self.zeroed += more.zeroed;
    }
}

/// The bytes of a list: with flags and strengths in range, with strengths at all ends, all with both edges, or any bytes.
pub fn bytes(random: &mut Random, length: usize) -> Vec<u8> {
    let style = random.below(4);
    let byte = |at: usize| match (style, at % CELL_BYTES) {
        (0, 1) => random.below(32) as u8,
        (0, 2 | 3) => random.below(3) as u8,
        (1, 1) => random.below(8) as u8,
        (1, 2 | 3) => random.pick(&[0, 1, 2, 3, 127, 128, 255]),
        (2, 1) => random.next() as u8 | 3,
        _ => random.next() as u8,
    };
    (0..length).map(byte).collect()
}

/// A list, and the length of the output that is lent with it: its own, or in a fifth of the cases another.
pub fn list(random: &mut Random) -> (Vec<u8>, usize) {
    let longest = match random.below(100) {
        0..3 => 0,
        3..25 => 24,
        25..60 => 640,
        _ => 5000,
    };
    let length = random.between(0, longest) as usize;
    let other = [length + 1, length.saturating_sub(1), length + 8, length.saturating_sub(8), 0, random.index(5000)];
    let out_length = if random.chance(80) { length } else { random.pick(&other) };
    (bytes(random, length), out_length)
}

/// The first byte that differs from the one of conversion.rs.
pub fn same_list(cells: &[u8], made: &[u8]) -> Result<(), String> {
    let wanted = conversion::list(cells);
    if made.len() != wanted.len() {
        return Err(format!("a list of {} bytes is converted to {}", wanted.len(), made.len()));
    }
    match (0..made.len()).find(|&at| made[at] != wanted[at]) {
        None => Ok(()),
        Some(at) => {
            let record = cells.chunks(CELL_BYTES).nth(at / CELL_BYTES).unwrap();
            Err(format!("byte {at} of {} converted: {} in place of {}, record {record:?}", made.len(), made[at], wanted[at]))
        }
    }
}

/// The library on a list: refused with 6 where the two lengths differ. Else it is converted as in conversion.rs, is in rule, stays the same
/// when it is converted again, and is the list itself where that was in rule.
pub fn check(cells: &[u8], out_length: usize, random: &mut Random) -> Result<(), String> {
    let (number, made) = ours::convert(cells, out_length, random)?;
    let wanted = if cells.len() == out_length { 0 } else { 6 };
    if number != wanted {
        return Err(format!("{} bytes converted to {out_length}: answered with {number} in place of {wanted}", cells.len()));
    }
    if number != 0 {
        return Ok(());
    }
    same_list(cells, &made)?;
    if let Some(place) = ledger::first_edgeless(&made) {
        return Err(format!("record {place} of a converted list has a strength without its edge"));
    }
    if ledger::first_edgeless(cells).is_none() && made != cells {
        return Err("a list in rule is converted to another".into());
    }
    if ours::convert(&made, out_length, random)? != (0, made) {
        return Err("a list converted twice is not as it is converted once".into());
    }
    Ok(())
}
