//! Samples that go far. A luma sample goes farthest where two edges cross, most easily in a column and a row that are 1 or 2 modulo 4:
//! both passes reach it on lines that no decision looks at. Around it the lines that are looked at must be flat, for the second pass
//! after the first one, or sloped evenly. A chroma sample goes farthest at the very crossing.

use crate::content;
use crate::random::Random;

struct Plane {
    samples: Vec<u16>,
    columns: usize,
    /// The level of what is flat.
    level: i64,
    largest: i64,
    scale: i64,
}

impl Plane {
    fn put(&mut self, (x, y): (usize, usize), value: i64) {
        self.samples[y * self.columns + x] = value.clamp(0, self.largest) as u16;
    }

    fn at(&self, (x, y): (usize, usize)) -> i64 {
        self.samples[y * self.columns + x].into()
    }

    /// The end of the range that is farther from the level.
    fn far_end(&self) -> i64 {
        if 2 * self.level > self.largest { 0 } else { self.largest }
    }

    fn anything(&self, random: &mut Random) -> i64 {
        random.between(0, self.largest)
    }
}

/// The samples of a plane: flat but around the crossings of its edges, for the most part.
pub fn plane(random: &mut Random, luma: bool, columns: usize, rows: usize, depth: u32) -> Vec<u16> {
    let (largest, scale) = ((1i64 << depth) - 1, 1i64 << (depth - 8));
    let middle = largest / 2 + scale * random.between(-90, 90);
    let level = if random.chance(90) { middle } else { random.pick(&[0, largest]) };
    let mut plane = Plane { samples: vec![level as u16; columns * rows], columns, level, largest, scale };
    match random.below(20) {
        0 => plane.samples = content::plane(random, columns, rows, depth),
        1 => black_and_white(random, &mut plane, rows),
        2 => (0..columns * rows).for_each(|at| plane.samples[at] = plane.anything(random) as u16),
        // Rough by so little that decisions are strong, or just not.
        3 => {
            let rough = scale * random.between(1, 4) - 1;
            (0..columns * rows).for_each(|at| plane.samples[at] = (level + random.between(0, rough)).min(largest) as u16);
        }
        _ => {}
    }
    for y in (8..rows).step_by(8) {
        for x in (8..columns).step_by(8) {
            if luma { around_luma(random, &mut plane, (x, y)) } else { around_chroma(random, &mut plane, (x, y)) }
        }
    }
    plane.samples
}

fn black_and_white(random: &mut Random, plane: &mut Plane, rows: usize) {
    let size = random.pick(&[1, 2, 4, 8]);
    let across = plane.columns.div_ceil(size);
    let blocks: Vec<bool> = (0..across * rows.div_ceil(size)).map(|_| random.chance(50)).collect();
    for (at, sample) in plane.samples.iter_mut().enumerate() {
        let block = at / plane.columns / size * across + at % plane.columns / size;
        *sample = if blocks[block] { plane.largest as u16 } else { 0 };
    }
}

/// The 8 by 8 samples around a crossing of luma edges.
fn around_luma(random: &mut Random, plane: &mut Plane, crossing: (usize, usize)) {
    match random.below(10) {
        0 => {}
        1 => wild(random, plane, crossing),
        2 => slope(random, plane, crossing),
        3 => {
            aim(random, plane, crossing);
            wild(random, plane, crossing);
        }
        _ => aim(random, plane, crossing),
    }
}

/// Samples at the ends of the range, or any, on lines that no decision of the first pass looks at.
fn wild(random: &mut Random, plane: &mut Plane, (x, y): (usize, usize)) {
    for _ in 0..random.between(1, 8) {
        let row = random.pick(&[y - 3, y - 2, y + 1, y + 2]);
        let column = x - 4 + random.index(8);
        let values = [0, plane.largest, plane.anything(random)];
        plane.put((column, row), random.pick(&values));
    }
}

/// A sample that both passes are to move as far as they can: at the far end, or so far from the level that they just may not. Beside it in
/// its row such samples that the first pass leaves the level, or nearly so, next to the edge: up to rounding that sample becomes
/// (a2 + 2 * a1 + 2 * a0 + 2 * b0 + b1) / 8 where `a` is the side of the edge with the aimed sample, a1 or a2, and `b` the other.
fn aim(random: &mut Random, plane: &mut Plane, (x, y): (usize, usize)) {
    let row = random.pick(&[y - 3, y - 2, y + 1, y + 2]);
    let right = random.chance(50);
    let a = |number: usize| (if right { x + number } else { x - 1 - number }, row);
    let b = |number: usize| (if right { x - 1 - number } else { x + number }, row);
    let (end, near_end) = (plane.far_end(), plane.largest - plane.far_end());
    let (aimed, other) = random.pick(&[(1, 2), (2, 1)]);
    let away = if random.chance(70) { plane.largest } else { plane.scale * random.between(100, 130) };
    plane.put(a(aimed), plane.level + if end == 0 { -away } else { away });
    for beside in [a(0), b(0), b(1)] {
        let values = [plane.level, plane.level, near_end, near_end, plane.anything(random)];
        plane.put(beside, random.pick(&values));
    }
    let weight = |number: usize| if number == 2 { 1 } else { 2 };
    let rest = weight(aimed) * plane.at(a(aimed)) + 2 * plane.at(a(0)) + 2 * plane.at(b(0)) + plane.at(b(1));
    let off = if random.chance(60) { 0 } else { plane.scale * random.between(-9, 9) };
    plane.put(a(other), (8 * (plane.level + off) - rest) / weight(other));
}

/// The same for a sample at the very crossing, where decisions look at both its lines: these are sloped, so that it goes far all the same.
/// Columns and rows count from the edges on, from 0 on its side of them and from -1 down beyond. The first pass takes rows 0 and 3 of
/// column 0 to the level that the second begins with.
fn slope(random: &mut Random, plane: &mut Plane, (x, y): (usize, usize)) {
    let (right, below) = (random.chance(50), random.chance(50));
    let from = |edge: usize, after: bool, k: i64| (if after { edge as i64 + k } else { edge as i64 - 1 - k }) as usize;
    let unit = if plane.far_end() == 0 { -plane.scale } else { plane.scale };
    let level = plane.level;
    let [a, b] = [0, 1].map(|_| unit * random.between(50, 66));
    let [e, f] = [0, 1].map(|_| unit * random.between(52, 60));
    let then = level + 48 * unit;
    for (row, column) in (-4..4).flat_map(|row| (-4..4).map(move |column| (row, column))) {
        let value = match (row, column) {
            (0.., 3) => level,
            (0 | 3, 0..) => level + column * a,
            (0 | 3, _) => level + e,
            (1 | 2, _) => then + row * b,
            (_, 0) => then + f,
            _ => level,
        };
        plane.put((from(x, right, column), from(y, below, row)), value);
    }
}

/// The four samples at a crossing of chroma edges, and those around them. From 72 below the level on, at depth 8, both passes move a
/// sample by 24.
fn around_chroma(random: &mut Random, plane: &mut Plane, (x, y): (usize, usize)) {
    for _ in 0..random.below(4) {
        let place = (x - random.index(2), y - random.index(2));
        let near = plane.scale * random.between(66, 78);
        let values = [plane.far_end(), plane.level - near, plane.level + near, plane.anything(random)];
        plane.put(place, random.pick(&values));
    }
    if random.chance(30) {
        let place = (x - 2 + random.index(4), y - 2 + random.index(4));
        plane.put(place, plane.anything(random));
    }
}
