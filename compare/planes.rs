//! Planes at random, for their checksums alone: any samples of their depth, of sizes up to 8192 by 8192, or damaged.

use crate::checksum;
use crate::damage;
use crate::generate;
use crate::picture::Picture;
use crate::random::Random;

/// One in so many is large, the first of a run among them, so that exact sums pass 2^32.
const LARGE: u64 = 5000;

fn side(random: &mut Random, least: i64, most: i64) -> u32 {
    8 * random.between(least / 8, most / 8) as u32
}

/// Small for the most part; past 255 in one direction or in both, and past 4095 in one.
fn size(random: &mut Random) -> (u32, u32) {
    let (long, short) = match random.below(400) {
        0 => (side(random, 264, 640), side(random, 264, 640)),
        1..3 => (side(random, 4104, 8192), side(random, 8, 24)),
        3..30 => (side(random, 264, 1024), side(random, 8, 24)),
        _ => (side(random, 8, 64), side(random, 8, 64)),
    };
    if random.chance(50) { (long, short) } else { (short, long) }
}

/// 8192 columns or rows, or both.
fn large_size(random: &mut Random) -> (u32, u32) {
    let other = random.pick(&[4096, 4104, 6144, 8192, 8192]);
    random.pick(&[(8192, other), (other, 8192)])
}

/// What one kind of plane has; all of it fits the depth.
fn samples(random: &mut Random, columns: usize, rows: usize, depth: u32) -> Vec<u16> {
    let largest = (1u32 << depth).wrapping_sub(1) as u16;
    let any = random.next() as u16 & largest;
    let level = random.pick(&[0, largest, any]);
    let count = columns * rows;
    // The large ones are those whose sums are large.
    let (first, last) = if count >> 22 > 0 { (4, 5) } else { (0, 7) };
    match random.between(first, last) {
        0 => vec![level; count],
        1 if count > 0 => sparse(random, vec![level; count], largest),
        2 => noise(random, count, 0x00FF & largest),
        3 => noise(random, count, 0xFF00 & largest),
        4 => opposite(columns, rows, largest),
        _ => noise(random, count, largest),
    }
}

/// Any bits of these.
fn noise(random: &mut Random, count: usize, bits: u16) -> Vec<u16> {
    let mut plane = Vec::with_capacity(count + 3);
    while plane.len() < count {
        plane.extend(random.next().to_le_bytes().chunks(2).map(|pair| u16::from_le_bytes([pair[0], pair[1]]) & bits));
    }
    plane.truncate(count);
    plane
}

/// A few other samples in a flat plane.
fn sparse(random: &mut Random, mut plane: Vec<u16>, largest: u16) -> Vec<u16> {
    for _ in 0..random.between(1, 3) {
        let at = random.index(plane.len());
        plane[at] = random.next() as u16 & largest;
    }
    plane
}

/// Low and high bytes that differ from the mask in every bit: at depth 8 and 16 no sum is larger.
fn opposite(columns: usize, rows: usize, largest: u16) -> Vec<u16> {
    let row = |y: usize| (0..columns).map(move |x| !(0x0101 * checksum::mask(x, y) as u16) & largest);
    (0..rows).flat_map(row).collect()
}

/// Planes `number` of a run, as a picture with nothing in its other lists. One in three is damaged in one to three ways; those that are of
/// other lists and settings are not to matter.
pub fn picture(random: &mut Random, number: u64) -> Picture {
    let large = number % LARGE == 0;
    let (width, height) = if large { large_size(random) } else { size(random) };
    let mut p = Picture {
        width,
        height,
        format: if large { random.below(2) as u32 } else { random.below(4) as u32 },
        luma_depth: if large { random.pick(&[8, 10, 16, 16]) } else { random.between(8, 16) as u32 },
        chroma_depth: random.between(8, 16) as u32,
        ..Picture::default()
    };
    generate::fill(&mut p, |_, columns, rows, depth| samples(random, columns, rows, depth));
    if !large && random.chance(33) {
        damage::spoil(&mut p, random);
    }
    p
}
