//! The library's way back beside that of recogniser.rs: every sample there and back, floats at random, and every float.

use std::process::ExitCode;
use std::sync::atomic::{AtomicU64, Ordering};

use crate::ledger::Verdict;
use crate::ours::{self, LentPlanes};
use crate::picture::Picture;
use crate::pixels;
use crate::random::Random;
use crate::recogniser::{self, MINUS};

/// Floats at random that are looked at under one number of a run.
pub const BATCH: u64 = 1000;

/// Samples that go there and back under one number: those of a plane of 8 by 8.
const BLOCK: u32 = 64;

/// Blocks of the samples of all depths from 8 to 16.
pub const BLOCKS: u64 = ((1 << 17) - (1 << 8)) / BLOCK as u64;

/// One float on both sides: number and place, and the sample where there is one.
pub fn check(depth: u32, chroma: bool, bits: u32, word: u64) -> Result<(Verdict, Option<u16>), String> {
    let (verdict, sample) = recogniser::recovered(bits, depth, chroma);
    let answer = ours::sample(depth, chroma, bits, word)?;
    if (answer.number, answer.place) == verdict && answer.sample == sample.unwrap_or(answer.junk) {
        return Ok((verdict, sample));
    }
    let found = format!("{}, place {}, sample {}", answer.number, answer.place, answer.sample);
    let wanted = match sample {
        Some(sample) => format!("second program 0, place 0, sample {sample}"),
        None => format!("second program {}, place 0, and no sample, in place of which stood {}", verdict.0, answer.junk),
    };
    Err(format!("float {bits:08x} of {}, depth {depth}: {found}; {wanted}", kind(chroma)))
}

pub fn kind(chroma: bool) -> &'static str {
    if chroma { "chroma" } else { "luma" }
}

// ---- There and back ----

/// Depth and first sample of a block.
fn block(number: u64) -> (u32, u32) {
    let first = number as u32 * BLOCK + 256;
    let depth = first.ilog2();
    (depth, first - (1 << depth))
}

/// 8 by 8, with the block's samples in Y and Cb, and in Cr in the opposite order.
fn block_picture(depth: u32, first: u32) -> Picture {
    let samples: Vec<u16> = (first..first + BLOCK).map(|sample| sample as u16).collect();
    let reversed = samples.iter().rev().copied().collect();
    let planes = [samples.clone(), samples, reversed];
    Picture { width: 8, height: 8, format: 3, luma_depth: depth, chroma_depth: depth, planes, ..Picture::default() }
}

/// The next floats up and down, and the negative: no sample's but, of chroma, some negative.
fn beside(bits: u32) -> [u32; 3] {
    let next = if bits == 0 { MINUS | 1 } else { bits - 1 };
    [bits + 1, next, bits ^ MINUS]
}

/// Every sample of a block by `tinladle_pixel`, and back from the float that both sides gave; and what lies beside it. Returned is how
/// many floats of those beside were refused.
pub fn check_block(number: u64, random: &mut Random) -> Result<u64, String> {
    let (depth, first) = block(number);
    let picture = block_picture(depth, first);
    let mut lent = LentPlanes::of(&picture.planes, random.next());
    let mut refused = 0;
    for (x, y) in (0..8).flat_map(|y| (0..8).map(move |x| (x, y))) {
        pixels::check(&picture, &picture.planes, (0, 0), (x, y), &mut lent, random)?;
        for (chroma, bits) in [false, true].into_iter().zip(recogniser::parts(&picture, &picture.planes, (x, y))) {
            let went = picture.planes[usize::from(chroma)][(8 * y + x) as usize];
            let (_, back) = check(depth, chroma, bits, random.next())?;
            if back != Some(went) {
                return Err(format!("sample {went} of {}, depth {depth}, comes back from {bits:08x} as {back:?}", kind(chroma)));
            }
            for bits in beside(bits) {
                refused += u64::from(check(depth, chroma, bits, random.next())?.0 == (15, 0));
            }
        }
    }
    Ok(refused)
}

// ---- At random ----

fn depth(random: &mut Random) -> u32 {
    if random.below(64) == 0 { random.pick(&[0, 7, 17, 24, 32, 264, u32::MAX]) } else { random.between(8, 16) as u32 }
}

/// Any pattern; or a sample's float, of this depth or another, with a few bits changed, between two samples, or past an end.
fn bits(random: &mut Random, depth: u32, chroma: bool) -> u32 {
    let word = random.next();
    let near = if random.chance(80) { depth.clamp(8, 16) } else { random.between(8, 16) as u32 };
    let bits = recogniser::float_of(word as u16 & ((1u32 << near) - 1) as u16, near, chroma);
    let changed = 1 << random.below(32);
    match random.below(8) {
        0..3 => (word >> 32) as u32,
        3..5 => bits,
        5 => bits ^ changed,
        6 => bits.wrapping_add(random.between(-3, 3) as u32),
        _ => (random.between(-(4 << near), 8 << near) as f32 / (4 << near) as f32).to_bits(), // quarters of a step, past both ends too
    }
}

/// Depth, kind and answer of each float of a batch.
pub fn check_batch(count: u64, random: &mut Random) -> Result<Vec<(u32, bool, Verdict)>, String> {
    let mut found = vec![];
    for _ in 0..count {
        let (depth, chroma) = (depth(random), random.chance(50));
        let bits = bits(random, depth, chroma);
        found.push((depth, chroma, check(depth, chroma, bits, random.next())?.0));
    }
    Ok(found)
}

// ---- Every float ----

/// Patterns that a thread takes at once.
const PART: u64 = 1 << 20;

/// How many of the 2^32 floats are taken.
fn taken(depth: u32, chroma: bool, threads: u64) -> Result<u64, String> {
    let next = AtomicU64::new(0);
    let work = || {
        let mut count = 0;
        loop {
            let first = PART * next.fetch_add(1, Ordering::Relaxed);
            if first >> 32 > 0 {
                return Ok(count);
            }
            for bits in first..first + PART {
                let word = bits.wrapping_mul(0x9E37_79B9_7F4A_7C15);
                count += u64::from(check(depth, chroma, bits as u32, word)?.0 == (0, 0));
            }
        }
    };
    std::thread::scope(|scope| {
        let workers: Vec<_> = (0..threads).map(|_| scope.spawn(work)).collect();
        workers.into_iter().map(|worker| worker.join().unwrap()).sum()
    })
}

/// All floats for `all` depths and kinds, or for one of these, such as `12-chroma`: exactly 2^depth are taken.
pub fn run_every(which: &str, threads: u64) -> ExitCode {
    let kinds = (8..=16).flat_map(|depth| [(depth, false), (depth, true)]);
    let named = |&(depth, chroma): &(u32, bool)| which == "all" || which == format!("{depth}-{}", kind(chroma));
    let asked: Vec<_> = kinds.filter(named).collect();
    for &(depth, chroma) in &asked {
        let found = taken(depth, chroma, threads);
        match found {
            Ok(count) if count == 1 << depth => println!("every float, {} of depth {depth}: taken {count}", kind(chroma)),
            Ok(count) => println!("DIFFERENCE: {count} floats are taken for {} of depth {depth}", kind(chroma)),
            Err(ref what) => println!("DIFFERENCE: {what}"),
        }
        if found != Ok(1 << depth) {
            return ExitCode::FAILURE;
        }
    }
    if asked.is_empty() {
        eprintln!("--every-float takes all, or a depth and a kind, such as 8-luma or 16-chroma");
        return ExitCode::from(2);
    }
    println!("no difference");
    ExitCode::SUCCESS
}
