//! What a coder leaves of a block at a coarse quantizer: the 8 by 8 transform of HEVC, each coefficient rounded to a
//! multiple of the step, and the transform back. No prediction; blocks know nothing of each other, which is why their
//! borders show.

/// The rows of the transform; each has length 2^7.5, up to rounding.
const TRANSFORM: [[i64; 8]; 8] = [
    [64, 64, 64, 64, 64, 64, 64, 64],
    [89, 75, 50, 18, -18, -50, -75, -89],
    [83, 36, -36, -83, -83, -36, 36, 83],
    [75, -18, -89, -50, 50, 89, 18, -75],
    [64, -64, -64, 64, 64, -64, -64, 64],
    [50, -89, 18, 75, -75, -18, 89, -50],
    [36, -83, 83, -36, -36, 83, -83, 36],
    [18, -50, 75, -89, 89, -75, 50, -18],
];
const SHIFT: u32 = 15;
const MIDDLE: i64 = 128;

/// The sum over both directions of the block's values times `weight(to, from)`.
fn both_ways(block: &[i64; 64], weight: impl Fn(usize, usize) -> i64) -> [i64; 64] {
    let along: [i64; 64] = std::array::from_fn(|i| (0..8).map(|k| weight(i % 8, k) * block[i / 8 * 8 + k]).sum());
    std::array::from_fn(|i| (0..8).map(|k| weight(i / 8, k) * along[k * 8 + i % 8]).sum())
}

/// To the multiple of the step below, or to the one above from two thirds of the way on, as coders do.
fn quantized(value: i64, step: i64) -> i64 {
    let scaled = step << SHIFT;
    value.signum() * ((value.abs() + scaled / 3) / scaled) * step
}

/// The block as it comes back.
pub fn coarse(block: &[i64; 64], step: i64) -> [i64; 64] {
    let coefficients = both_ways(&block.map(|sample| sample - MIDDLE), |to, from| TRANSFORM[to][from]);
    let kept = coefficients.map(|value| quantized(value, step));
    both_ways(&kept, |to, from| TRANSFORM[from][to]).map(|sum| ((sum + (1 << (SHIFT - 1))) >> SHIFT) + MIDDLE)
}
