//! Samples that make strong, weak and skipped segments all common, and that reach the ends of the range.

use crate::random::Random;

/// A block: its level, and how much it rises from sample to sample and from row to row.
struct Block {
    level: i64,
    across: i64,
    down: i64,
}

struct Style {
    /// The side of a block.
    size: usize,
    middle: i64,
    spread: i64,
    slope: i64,
    /// Samples are up to this much above their block's.
    rough: i64,
    /// Of a hundred blocks, how many lie at one of the two ends of the range.
    ends: u64,
}

fn style(random: &mut Random, largest: i64, scale: i64) -> Style {
    let anywhere = random.between(0, largest);
    let mut style = Style {
        size: random.pick(&[8, 8, 4]),
        middle: random.pick(&[0, largest, anywhere, anywhere]),
        spread: scale * random.pick(&[2, 6, 12, 30]),
        slope: scale * random.pick(&[0, 1, 1, 2]),
        rough: scale * random.pick(&[0, 1, 1, 2, 4, 8, 16]),
        ends: 0,
    };
    match random.below(20) {
        // Noise alone.
        0 => (style.spread, style.slope, style.rough) = (0, 0, random.between(1, largest)),
        // Black and white blocks.
        1 | 2 => style.ends = random.pick(&[10, 50, 100]),
        // Finer steps than the scale of the thresholds.
        3 | 4 => {
            (style.spread, style.slope, style.rough) = (random.between(1, 8 * scale), random.between(0, scale), random.between(0, scale))
        }
        _ => {}
    }
    style
}

fn block(random: &mut Random, style: &Style, largest: i64) -> Block {
    if style.ends > 0 && random.chance(style.ends) {
        return Block { level: random.pick(&[0, largest]), across: 0, down: 0 };
    }
    Block {
        level: style.middle + random.between(-style.spread, style.spread),
        across: random.between(-style.slope, style.slope),
        down: random.between(-style.slope, style.slope),
    }
}

/// The samples of a plane.
pub fn plane(random: &mut Random, columns: usize, rows: usize, depth: u32) -> Vec<u16> {
    let (largest, scale) = ((1i64 << depth) - 1, 1i64 << (depth - 8));
    let style = style(random, largest, scale);
    let mut samples = Vec::with_capacity(columns * rows);
    let mut blocks: Vec<Block> = vec![];
    for y in 0..rows {
        if y % style.size == 0 {
            blocks = (0..columns.div_ceil(style.size)).map(|_| block(random, &style, largest)).collect();
        }
        for (number, block) in blocks.iter().enumerate() {
            let start = block.level + block.down * (y % style.size) as i64;
            for x in 0..style.size.min(columns - number * style.size) {
                let noise = if style.rough > 0 { random.between(0, style.rough) } else { 0 };
                samples.push((start + block.across * x as i64 + noise).clamp(0, largest) as u16);
            }
        }
    }
    samples
}
