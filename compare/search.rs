//! Small pictures in which samples go as far as document 02's C-23 allows, found by a search: what `--search` writes.
//!
//! How far a sample goes is asked of the second program, never of the stage. The search begins with some samples at random around a
//! crossing of two edges, changes one at a time, keeps a change where the sample that it is after goes no less far, and begins anew where
//! that leads nowhere. What it finds is made plain: samples are set back to the flat level for as long as the bound stays met.

use std::process::ExitCode;

use crate::generate;
use crate::moves;
use crate::picture::{HORIZONTAL, PLANE_NAMES, Picture, VERTICAL, scales};
use crate::random::Random;
use crate::standard;

/// Changes before the search begins anew, and beginnings before it gives up.
const CHANGES: u32 = 500;
const BEGINNINGS: u32 = 5000;
/// Of a hundred changes so many set a sample to the flat level.
const FLAT: u64 = 85;

/// Format, luma depth and chroma depth of pictures with two depths. The others have every format at every depth.
const TWO_DEPTHS: [(u32, u32, u32); 6] = [(1, 8, 16), (1, 16, 8), (2, 8, 10), (2, 12, 9), (3, 10, 8), (3, 9, 16)];

/// The places of luma, by column and row from the crossing on. Most of them are the second and third sample from either edge. Those in the
/// columns next to the vertical edge are nearly always the hardest to find, and stand where the picture is one of format 0.
#[rustfmt::skip]
const LUMA: [(i64, i64); 20] = [
    (-1, -3), (-3, -3), (-2, -3), (1, -3),
    (0, -3), (2, -3), (-3, -2), (-2, -2),
    (-1, 2), (1, -2), (2, -2), (-3, 1),
    (0, 2), (-2, 1), (1, 1), (2, 1),
    (-3, 2), (-2, 2), (1, 2), (2, 2),
];

/// What is searched for in one plane: a sample beside a crossing of two edges that goes as far as it may, up or down.
struct Goal {
    plane: usize,
    crossing: (usize, usize),
    place: (usize, usize),
    up: bool,
}

/// How a goal was met.
struct Met {
    level: u16,
    /// Samples that are not at the flat level.
    off_level: usize,
    /// Pictures that were tried, before the one that was found was made plain.
    tries: u64,
}

fn wanted() -> Vec<(u32, u32, u32)> {
    let every = (8..=16).flat_map(|depth| (0..4).map(move |format| (format, depth, depth)));
    every.chain(TWO_DEPTHS).collect()
}

/// A small picture with a whole block of 8 on each side of a crossing in every plane: QP 51, bS 2 at every edge, both offsets at the top.
fn blank(format: u32, luma_depth: u32, chroma_depth: u32) -> Picture {
    let (across, down) = scales(format);
    let mut p = Picture {
        width: 16 * across as u32,
        height: 16 * down as u32,
        format,
        luma_depth,
        chroma_depth,
        log2_ctb: 4,
        cells: [51 + 64, VERTICAL | HORIZONTAL, 2, 2, 0, 0, 0, 0].repeat(16 * across * down),
        slices: vec![0, 12, 12, 1],
        columns: vec![0],
        rows: vec![0],
        ..Picture::default()
    };
    generate::fill(&mut p, |_, columns, rows, _| vec![0; columns * rows]);
    p
}

/// The goals of picture `number`. Over all of the pictures every place is gone through, up and down; in chroma they are the four at the
/// crossing. Cb and Cr of a picture have different places.
fn goals(p: &Picture, number: usize, random: &mut Random) -> Vec<Goal> {
    let planes = if p.format == 0 { 1 } else { 3 };
    let goal = |plane: usize| {
        let (columns, rows) = p.plane_size(plane);
        let mut edge = |length: usize| 8 * (1 + random.index(length / 8 - 1));
        let crossing = (edge(columns), edge(rows));
        let turn = (number / 4 + plane) as i64;
        let ((x, y), up) = match plane {
            0 => (LUMA[number % LUMA.len()], (number + number / LUMA.len()) % 2 == 0),
            _ => ((turn % 2 - 1, turn / 2 % 2 - 1), (number + plane) % 2 == 0),
        };
        let place = ((crossing.0 as i64 + x) as usize, (crossing.1 as i64 + y) as usize);
        Goal { plane, crossing, place, up }
    };
    (0..planes).map(goal).collect()
}

/// How far the goal's sample goes its way; and whether that meets the bound, and no sample before it goes so far.
fn tried(p: &Picture, goal: &Goal) -> (i32, bool) {
    let (samples, filtered) = (&p.planes[goal.plane], &standard::deblocked(p)[goal.plane]);
    let at = goal.place.1 * p.plane_size(goal.plane).0 + goal.place.0;
    let rise = i32::from(filtered[at]) - i32::from(samples[at]);
    let moved = if goal.up { rise } else { -rise };
    let bound = moves::bound(p, goal.plane);
    (moved, moved == bound as i32 && moves::farthest(samples, filtered) == (bound, at))
}

/// Any of the 8 by 8 samples around the crossing.
fn any_around(p: &Picture, goal: &Goal, random: &mut Random) -> usize {
    let (x, y) = (goal.crossing.0 - 4 + random.index(8), goal.crossing.1 - 4 + random.index(8));
    y * p.plane_size(goal.plane).0 + x
}

/// Makes the plane flat but for some samples around the crossing; its level.
fn begin(p: &mut Picture, goal: &Goal, random: &mut Random, largest: i64) -> u16 {
    let level = random.between(0, largest) as u16;
    p.planes[goal.plane].fill(level);
    for _ in 0..random.between(1, 6) {
        let at = any_around(p, goal, random);
        p.planes[goal.plane][at] = random.between(0, largest) as u16;
    }
    level
}

/// Searches one plane of a picture, and leaves it as found.
fn search(p: &mut Picture, goal: &Goal, random: &mut Random) -> Option<Met> {
    let largest = (1i64 << p.plane_depth(goal.plane)) - 1;
    let mut tries = 0;
    for _ in 0..BEGINNINGS {
        let level = begin(p, goal, random, largest);
        let mut farthest = i32::MIN;
        for _ in 0..CHANGES {
            let at = any_around(p, goal, random);
            let values = [0, largest, random.between(0, largest)];
            let value = if random.chance(FLAT) { level } else { random.pick(&values) as u16 };
            let before = std::mem::replace(&mut p.planes[goal.plane][at], value);
            tries += 1;
            let (moved, met) = tried(p, goal);
            if met {
                return Some(Met { level, off_level: make_plain(p, goal, level), tries });
            }
            if moved < farthest {
                p.planes[goal.plane][at] = before;
            } else {
                farthest = moved;
            }
        }
    }
    None
}

/// Sets samples to the flat level, or those that must differ from it to an end of the range, for as long as the goal stays met: how many
/// differ in the end. No sample is made less plain again, so that this ends.
fn make_plain(p: &mut Picture, goal: &Goal, level: u16) -> usize {
    let largest = ((1u32 << p.plane_depth(goal.plane)) - 1) as u16;
    let plain = [level, 0, largest];
    let mut changed = true;
    while changed {
        changed = false;
        for at in 0..p.planes[goal.plane].len() {
            let before = p.planes[goal.plane][at];
            for value in plain.into_iter().take_while(|&value| value != before) {
                p.planes[goal.plane][at] = value;
                if tried(p, goal).1 {
                    changed = true;
                    break;
                }
                p.planes[goal.plane][at] = before;
            }
        }
    }
    p.planes[goal.plane].iter().filter(|&&sample| sample != level).count()
}

/// Picture `number`, and a line on it; or the goal that was not met.
fn found(number: usize, (format, luma_depth, chroma_depth): (u32, u32, u32), seed: u64) -> Result<(Picture, String), String> {
    let mut random = Random::new(seed, 5, number as u64);
    let mut p = blank(format, luma_depth, chroma_depth);
    let mut line = format!("{:2}  format {format}, depths {luma_depth} and {chroma_depth}, {} by {}", number + 1, p.width, p.height);
    for goal in goals(&p, number, &mut random) {
        let (name, (x, y), way) = (PLANE_NAMES[goal.plane], goal.place, if goal.up { "up" } else { "down" });
        let met = search(&mut p, &goal, &mut random).ok_or(format!("{line}: {name} ({x}, {y}) {way} was not found"))?;
        let bound = moves::bound(&p, goal.plane);
        line += &format!("; {name} ({x}, {y}) {way} by {bound}, {} off level {}, {} tried", met.off_level, met.level, met.tries);
    }
    Ok((p, line))
}

/// Writes the pictures as records.
fn write(file: &str, seed: u64) -> Result<String, String> {
    let mut records = vec![];
    let all = wanted();
    for (number, &kind) in all.iter().enumerate() {
        let (picture, line) = found(number, kind, seed)?;
        println!("{line}");
        records.extend(picture.record());
    }
    std::fs::write(file, &records).map_err(|error| format!("not written to {file}: {error}"))?;
    Ok(format!("{} pictures, {} bytes, written to {file}", all.len(), records.len()))
}

pub fn run(file: &str, seed: u64) -> ExitCode {
    let (line, status) = match write(file, seed) {
        Ok(line) => (line, ExitCode::SUCCESS),
        Err(line) => (line, ExitCode::FAILURE),
    };
    println!("{line}");
    status
}
