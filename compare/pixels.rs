//! The library's pixels beside those of recogniser.rs.

use crate::ledger::Verdict;
use crate::ours::{LentPlanes, Stored};
use crate::picture::{PLANE_NAMES, Picture};
use crate::random::Random;
use crate::recogniser;
use crate::sums::facts;

/// A pixel, and what both sides say of it.
pub struct Outcome {
    pub pixel: (u32, u32),
    pub verdict: Verdict,
}

/// Planes of at most so many samples are asked for more pixels: each call looks at all samples.
const SMALL: usize = 1 << 14;

/// Inside for the most part; the last one, one past it, and what a number of 16 bits would take for one inside.
fn side(random: &mut Random, count: u32) -> u32 {
    let inside = random.below(u64::from(count.max(1))) as u32;
    match random.below(24) {
        0 => count.wrapping_sub(1),
        1 => count,
        2 => random.pick(&[count.wrapping_add(1), inside.wrapping_add(1 << 16), inside | 1 << 31, u32::MAX]),
        _ => inside,
    }
}

pub fn any(p: &Picture, random: &mut Random) -> (u32, u32) {
    (side(random, p.width), side(random, p.height))
}

/// The four corners, and one past the picture on the right, below and both.
fn borders(p: &Picture) -> [(u32, u32); 7] {
    let (width, height) = (p.width, p.height);
    let (x, y) = (width.wrapping_sub(1), height.wrapping_sub(1));
    [(0, 0), (x, 0), (0, y), (x, y), (width, y), (x, height), (width, height)]
}

/// The places of the floats hold those of recogniser.rs, bit for bit; what has none holds what it held.
fn same_parts(parts: &[u32], answer: &Stored) -> Result<(), String> {
    for plane in 0..3 {
        let (name, found) = (PLANE_NAMES[plane], answer.words[plane]);
        match parts.get(plane) {
            Some(&part) if found != part => return Err(format!("float of {name} {found:08x}, second program {part:08x}")),
            None if found != answer.junk[plane] => return Err(format!("answered with {}, stored a float of {name}", answer.number)),
            _ => {}
        }
    }
    Ok(())
}

/// One pixel of planes with the settings of the picture, for which the ledger's verdict is `planes_verdict`.
pub fn check(
    p: &Picture,
    planes: &[Vec<u16>; 3],
    planes_verdict: Verdict,
    pixel: (u32, u32),
    lent: &mut LentPlanes,
    random: &mut Random,
) -> Result<Outcome, String> {
    let verdict = recogniser::pixel_verdict(p, planes_verdict, pixel);
    let answer = lent.pixel(p, pixel, random)?;
    let differs = |what: String| format!("pixel {pixel:?} {what}; {}", facts(p));
    if (answer.number, answer.place) != verdict {
        let (number, place) = verdict;
        return Err(differs(format!("{}, place {}; ledger {number}, place {place}", answer.number, answer.place)));
    }
    let parts = if verdict == (0, 0) { recogniser::parts(p, planes, pixel) } else { vec![] };
    same_parts(&parts, &answer).map_err(differs)?;
    Ok(Outcome { pixel, verdict })
}

/// A pixel of the planes of a picture as they are given, or as the stage left them.
pub fn check_one(p: &Picture, planes: &[Vec<u16>; 3], verdict: Verdict, random: &mut Random) -> Result<Outcome, String> {
    let pixel = any(p, random);
    check(p, planes, verdict, pixel, &mut LentPlanes::of(planes, random.next()), random)
}

/// Pixels of given planes, their borders too: several of small ones.
pub fn check_some(p: &Picture, verdict: Verdict, random: &mut Random) -> Result<Vec<Outcome>, String> {
    let samples: usize = p.planes.iter().map(Vec::len).sum();
    let times = if samples > SMALL { 1 } else { 3 };
    let mut lent = LentPlanes::of(&p.planes, random.next());
    let mut found = vec![];
    for _ in 0..times {
        for pixel in [any(p, random), random.pick(&borders(p))] {
            found.push(check(p, &p.planes, verdict, pixel, &mut lent, random)?);
        }
    }
    Ok(found)
}
