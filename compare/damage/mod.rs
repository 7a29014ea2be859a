//! Damaged pictures: each kind of damage breaks one rule of the refusal ledger.

mod cells;
mod lengths;
mod lists;
mod settings;

use crate::generate::{self, Sizes};
use crate::ledger;
use crate::picture::Picture;
use crate::random::Random;

/// Spoils a picture, whatever was done to it before; false where this picture has nothing of the kind to spoil.
type Apply = fn(&mut Picture, &mut Random) -> bool;

pub struct Kind {
    pub name: &'static str,
    /// The ledger's number where nothing else is wrong.
    pub number: u32,
    apply: Apply,
}

const fn kind(name: &'static str, number: u32, apply: Apply) -> Kind {
    Kind { name, number, apply }
}

/// All kinds, in the ledger's order.
pub fn kinds() -> impl Iterator<Item = &'static Kind> {
    settings::KINDS.iter().chain(lengths::KINDS).chain(lists::KINDS).chain(cells::KINDS)
}

/// One to three places in a list of `count`, so that the first of them matters: often its first or its last.
fn places(count: usize, r: &mut Random) -> Vec<usize> {
    let mut place = || match r.below(6) {
        0 => 0,
        1 => count - 1,
        _ => r.index(count),
    };
    if count == 0 {
        return vec![];
    }
    let first = place();
    let mut found = vec![first];
    while found.len() < 3 && r.chance(25) {
        found.push(r.index(count));
    }
    found
}

/// One to three kinds of damage at random, where there is something to spoil.
pub fn spoil(p: &mut Picture, random: &mut Random) {
    let all: Vec<&Kind> = kinds().collect();
    for _ in 0..random.between(1, 3) {
        (random.pick(&all).apply)(p, random);
    }
}

/// A refused picture and the kinds of damage done to it. Picture `number` of a run has kind `number` in turn; a third of the pictures
/// have one to three more.
pub fn damaged(random: &mut Random, number: u64) -> (Picture, Vec<usize>) {
    let all: Vec<&Kind> = kinds().collect();
    let more = if random.chance(33) { random.between(1, 3) } else { 0 };
    loop {
        // Drawn anew each time: one kind can leave another nothing to spoil, whatever the picture.
        let others = (0..more).map(|_| random.index(all.len()));
        let done: Vec<usize> = std::iter::once(number as usize % all.len()).chain(others).collect();
        // Few are large: it is the rules that matter here, and that a place may be far off.
        let sizes = if random.chance(4) { Sizes::Mixed } else { Sizes::Small };
        let mut p = generate::accepted(random, sizes);
        if !done.iter().all(|&kind| (all[kind].apply)(&mut p, random)) {
            continue;
        }
        let (given, _) = ledger::verdict(&p);
        let wanted = all[done[0]].number;
        assert!(done.len() > 1 || given == wanted, "{}: {given} in place of {wanted}", all[done[0]].name);
        // Of several, one may undo the other.
        if given != 0 {
            return (p, done);
        }
    }
}
