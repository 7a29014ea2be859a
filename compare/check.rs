//! One picture on both sides: the ledger and the stage, and where it is accepted the customer's Rust and the second program. Where C-14's
//! rule alone refuses it, all of that on the converted one too.

use crate::conversion;
use crate::counted::counted;
use crate::coverage::Coverage;
use crate::cut;
use crate::gate;
use crate::ledger;
use crate::lists;
use crate::moves;
use crate::ours;
use crate::picture::{PLANE_NAMES, Picture};
use crate::pixels;
use crate::random::Random;
use crate::standard;
use crate::sums;
use crate::theirs::kernels::Calls;
use crate::theirs::share::Share;
use crate::theirs::{Grid, Rust};

/// What was found of an accepted picture on which both sides agree.
pub struct Agreed {
    pub coverage: Coverage,
    pub calls: Calls,
    /// Samples that the filter moved, by plane; and of how far one may go the largest share.
    pub moved: [u64; 3],
    pub shares: [Share; 3],
    pub tiles: u64,
    /// Whether the customer's Rust was also run with the absent grid.
    pub absent_grid: bool,
    /// Whether the customer's Rust is not asked here, but the second program alone; and whether the Rust leaves other planes.
    pub left_out: bool,
    pub parted: bool,
    /// A pixel of the planes that the stage left.
    pub asked: pixels::Outcome,
    /// What the customer's Rust left.
    theirs: [Vec<u16>; 3],
}

/// What was found of a picture, accepted or not, on which both sides agree.
pub struct Found {
    /// Of an accepted picture; where C-14's rule alone refuses the picture, of the converted one. `None` stands for any other refusal.
    pub agreed: Option<Agreed>,
    /// Strengths that had no edge, where C-14's rule alone refuses the picture.
    pub zeroed: u64,
    /// The checksums of the given planes, and a pixel of them.
    pub summed: sums::Outcome,
    pub asked: pixels::Outcome,
}

/// The first sample that differs, with both values.
fn same_planes(p: &Picture, ours: &[Vec<u16>; 3], theirs: &[Vec<u16>; 3], whose: &str) -> Result<(), String> {
    for plane in 0..3 {
        if ours[plane].len() != theirs[plane].len() {
            return Err(format!("{} has {} samples, {whose}'s {}", PLANE_NAMES[plane], ours[plane].len(), theirs[plane].len()));
        }
        let Some(at) = (0..ours[plane].len()).find(|&at| ours[plane][at] != theirs[plane][at]) else { continue };
        let width = p.plane_size(plane).0;
        let differ = ours[plane].iter().zip(&theirs[plane]).filter(|(a, b)| a != b).count() as u64;
        let differ = counted(differ, "sample of the plane differs", "samples of the plane differ");
        let (name, x, y) = (PLANE_NAMES[plane], at % width, at / width);
        let values = format!("stage {}, {whose} {}, original {}", ours[plane][at], theirs[plane][at], p.planes[plane][at]);
        return Err(format!("{name} sample ({x}, {y}): {values}; {differ}"));
    }
    Ok(())
}

/// The kernels must have been called for the segments that document 01's gate leaves.
fn same_counts(coverage: &Coverage, calls: &Calls) -> Result<(), String> {
    let (luma, chroma) = (&coverage.luma, &coverage.chroma);
    if calls.strong + calls.weak > luma.open - luma.tc_zero {
        return Err("the customer's Rust filters more luma segments than the gate of the coverage opens".into());
    }
    if calls.chroma != 2 * chroma.open - chroma.tc_zero {
        return Err("the customer's Rust filters other chroma segments than the gate of the coverage opens".into());
    }
    Ok(())
}

/// The customer's Rust with the fallback that it is given for an empty slice list, and with the record that the list stands for.
fn check_fallback(p: &Picture, theirs: &[Vec<u16>; 3], rust: &mut Rust) -> Result<(), String> {
    match p.outright() {
        Some(with_record) if rust.run(&with_record, Grid::Given)?.0 != *theirs => {
            Err("the customer's Rust filters otherwise with the slice record than by its fallback".into())
        }
        _ => Ok(()),
    }
}

/// The planes that the stage leaves, where its answer is the ledger's.
fn answered(p: &Picture, random: &mut Random) -> Result<[Vec<u16>; 3], String> {
    let (number, place) = ledger::verdict(p);
    let answer = ours::run(p, random)?;
    if (answer.number, answer.place) != (number, place) {
        return Err(format!("stage {}, place {}; ledger {number}, place {place}", answer.number, answer.place));
    }
    Ok(answer.planes)
}

/// The stage answers alike on another form of the picture, and leaves the same planes; on a refusal `ours` has seen that it wrote none.
fn check_form(p: &Picture, planes: &[Vec<u16>; 3], form: Option<Picture>, whose: &str, random: &mut Random) -> Result<(), String> {
    let Some(form) = form else { return Ok(()) };
    let (number, place) = ledger::verdict(p);
    let answer = ours::run(&form, random)?;
    if (answer.number, answer.place) != (number, place) {
        return Err(format!("stage {number}, place {place}; {whose} {}, place {}", answer.number, answer.place));
    }
    if number == 0 { same_planes(p, planes, &answer.planes, whose) } else { Ok(()) }
}

/// The customer's Rust, on the picture or on the turned one.
fn check_rust(p: &Picture, planes: &[Vec<u16>; 3], theirs: &[Vec<u16>; 3], rust: &mut Rust, whose: &str) -> Result<bool, String> {
    same_planes(p, planes, theirs, whose)?;
    if p.one_tile() {
        same_planes(p, planes, &rust.run(p, Grid::Absent)?.0, &format!("{whose} without tiles"))?;
    }
    Ok(p.one_tile())
}

fn check_accepted(p: &Picture, planes: &[Vec<u16>; 3], rust: &mut Rust, random: &mut Random) -> Result<Agreed, String> {
    // Term 3 first: it needs no witness but the stage, and what it finds must not hide behind the Rust.
    let tiles = cut::check_tiles(p, planes, random)?;
    // The Rust has no palette input: of a picture with palette cells it is given the turned one. There the second program decides, else the
    // Rust; who decides comes first.
    let turned = p.turned();
    let known = turned.as_ref().unwrap_or(p);
    let second = || same_planes(p, planes, &standard::deblocked(p), "second program");
    if turned.is_some() {
        second()?;
    }
    let (theirs, calls) = rust.run(known, Grid::Given)?;
    let coverage = Coverage::of(p);
    let left_out = gate::parts(p);
    assert_eq!(left_out, coverage.chroma.above_57 != [0; 6], "the tally counts other segments than those that part");
    let whose = if turned.is_some() { "Rust with lossless for palette" } else { "Rust" };
    let absent_grid = !left_out && check_rust(known, planes, &theirs, rust, whose)?;
    if turned.is_none() {
        second()?;
    }
    check_fallback(known, &theirs, rust)?;
    same_counts(&coverage, &calls)?;
    let moved = [0, 1, 2].map(|k| planes[k].iter().zip(&p.planes[k]).filter(|(a, b)| a != b).count() as u64);
    // Last: what is too far because it is another sample is told as that, and so is what sums up otherwise.
    let shares = moves::check(p, planes)?;
    sums::check_finished(p, planes, random)?;
    let asked = pixels::check_one(p, planes, (0, 0), random).map_err(|what| format!("finished planes: {what}"))?;
    Ok(Agreed { coverage, calls, moved, shares, tiles, absent_grid, left_out, parted: *planes != theirs, asked, theirs })
}

/// Both sides on one picture as it is, and the planes that the stage leaves. `None` stands for a refusal on which they agree.
fn check_as_it_is(p: &Picture, rust: &mut Rust, random: &mut Random) -> Result<(Option<Agreed>, [Vec<u16>; 3]), String> {
    let planes = answered(p, random)?;
    let accepted = ledger::verdict(p) == (0, 0);
    let agreed = if accepted { Some(check_accepted(p, &planes, rust, random)?) } else { None };
    check_form(p, &planes, p.outright(), "the explicit slice record", random)?;
    check_form(p, &planes, p.turned(), "lossless for palette", random)?;
    Ok((agreed, planes))
}

/// The customer's Rust and the second program on the picture as it was, beside what the stage and the Rust leave of the converted one.
fn check_unconverted(p: &Picture, converted: &Agreed, planes: &[Vec<u16>; 3], rust: &mut Rust) -> Result<(), String> {
    let turned = p.turned();
    let (theirs, calls) = rust.run(turned.as_ref().unwrap_or(p), Grid::Given)?;
    if !converted.left_out {
        same_planes(p, planes, &theirs, "Rust on the unconverted")?;
    }
    let counts = |calls: &Calls| [calls.strong, calls.weak, calls.chroma];
    if theirs != converted.theirs || counts(&calls) != counts(&converted.calls) {
        return Err("the customer's Rust filters the unconverted picture otherwise than the converted one".into());
    }
    same_planes(p, planes, &standard::deblocked(p), "second program on the unconverted")
}

/// Both sides on one picture, accepted or not, on its cell list, on the checksums of its planes and on a pixel. An error says what differs.
pub fn check(p: &Picture, rust: &mut Rust, random: &mut Random) -> Result<Found, String> {
    let (agreed, _) = check_as_it_is(p, rust, random)?;
    lists::check(&p.cells, p.cells.len(), random)?;
    let summed = sums::check_given(p, random)?;
    let asked = pixels::check_one(p, &p.planes, summed.verdict, random).map_err(|what| format!("given planes: {what}"))?;
    if agreed.is_some() || ledger::verdict_before(p) != (0, 0) {
        return Ok(Found { agreed, zeroed: 0, summed, asked });
    }
    let converted = conversion::picture(p.clone());
    let (agreed, planes) = check_as_it_is(&converted, rust, random).map_err(|what| format!("converted: {what}"))?;
    let agreed = agreed.ok_or("the ledger refuses the converted picture")?;
    check_unconverted(p, &agreed, &planes, rust)?;
    Ok(Found { agreed: Some(agreed), zeroed: conversion::zeroed(&p.cells, &converted.cells), summed, asked })
}
