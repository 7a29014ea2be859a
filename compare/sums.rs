//! The library's checksums of planes beside those of checksum.rs.

use crate::checksum;
use crate::ledger::{self, Verdict};
use crate::ours;
use crate::picture::{PLANE_NAMES, Picture};
use crate::random::Random;

/// What both sides say of some planes: number and place, and the exact sums of the accepted ones.
pub struct Outcome {
    pub verdict: Verdict,
    pub exact: Vec<u64>,
}

/// Sizes, format and depths, for whoever looks into a difference.
pub fn facts(p: &Picture) -> String {
    format!("{} by {}, format {}, depths {} and {}", p.width, p.height, p.format, p.luma_depth, p.chroma_depth)
}

/// The places of the sums hold those of checksum.rs; what has no sum holds what it held.
fn same_sums(p: &Picture, exact: &[u64], answer: &ours::Stored, whose: &str) -> Result<(), String> {
    let wanted = |plane: usize| exact.get(plane).map_or(answer.junk[plane], |&sum| checksum::modulo(sum));
    let Some(plane) = (0..3).find(|&plane| answer.words[plane] != wanted(plane)) else { return Ok(()) };
    let (name, sum) = (PLANE_NAMES[plane], answer.words[plane]);
    Err(match exact.get(plane) {
        Some(_) => format!("checksum of {whose} {name} {sum:08x}, second program {:08x}; {}", wanted(plane), facts(p)),
        None => format!("checksum of {whose} planes, answered with {}, stored a sum of {name}; {}", answer.number, facts(p)),
    })
}

/// `planes` with the settings of the picture, for which the ledger's verdict is `verdict`.
fn check(p: &Picture, planes: &[Vec<u16>; 3], verdict: Verdict, whose: &str, random: &mut Random) -> Result<Outcome, String> {
    let answer = ours::checksum(p, planes, random)?;
    if (answer.number, answer.place) != verdict {
        let ((number, place), facts) = (verdict, facts(p));
        return Err(format!(
            "checksum of {whose} planes {}, place {}; ledger {number}, place {place}; {facts}",
            answer.number, answer.place
        ));
    }
    let exact = if verdict == (0, 0) { checksum::exact_sums(p, planes) } else { vec![] };
    same_sums(p, &exact, &answer, whose)?;
    Ok(Outcome { verdict, exact })
}

/// The planes of a picture as they are given. Nothing but its planes and five of its settings may matter.
pub fn check_given(p: &Picture, random: &mut Random) -> Result<Outcome, String> {
    check(p, &p.planes, ledger::planes_verdict(p), "given", random)
}

/// The planes that the stage left of an accepted picture.
pub fn check_finished(p: &Picture, planes: &[Vec<u16>; 3], random: &mut Random) -> Result<Outcome, String> {
    check(p, planes, (0, 0), "finished", random)
}
