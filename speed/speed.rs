//! Times tinladle_deblock beside the customer's `apply_deblocking_parallel` on pictures of 2048 by 2048 and of 8192 by 8192, 4:2:0, and
//! holds their planes to each other sample for sample.
//!
//! All are called on one thread: ours with all its checks, which are timed by themselves too, the customer's with its scalar kernels and,
//! where the processor has AVX2, with its AVX2 kernels. The customer's filters in place, so a copy of the originals is counted, as ours
//! makes one. It is a copy into planes that were allocated beforehand, which takes less time than a clone, so the measure is to the
//! Rust's favour; and the lists that the Rust reads are laid out its way beforehand.

#![allow(dead_code)]

use std::time::Instant;

#[path = "../oracle/shims.rs"]
mod shims;
use shims::{config, decode, exec, threadpool, tiles};

#[path = "../target/oracle/customer/src/deblock.rs"]
mod deblock;

// Its functions `resolve_..` take these kernels where the program is built with the feature "avx", as run.sh does.
#[cfg(target_arch = "x86_64")]
#[path = "../target/oracle/customer/src/avx/deblock.rs"]
mod avx;

#[path = "../rust/src/library.rs"]
mod library;
use library::tinladle_deblock;

#[path = "../oracle/lent.rs"]
mod picture;
use picture::Picture;

#[path = "../oracle/theirs.rs"]
mod theirs;
use theirs::{Lists, context};

mod pictures;
use pictures::{LOG2_CTB, Timed, dense, sparse};

type Planes = [Vec<u16>; 3];

fn empty(p: &Picture) -> Planes {
    p.out_lengths.map(|length| vec![0; length])
}

/// The call, and the answer's number.
#[rustfmt::skip]
fn call(p: &Picture, out: &mut Planes, place: &mut u64) -> u32 {
    let ([y, cb, cr], [out_y, out_cb, out_cr]) = (&p.planes, out);
    // Each pointer has its own slice's length, and no output overlaps anything.
    unsafe {
        tinladle_deblock(
            p.width, p.height, p.format, p.luma_depth, p.chroma_depth,
            p.log2_ctb, p.cb_offset, p.cr_offset, p.pcm_switch,
            y.as_ptr(), y.len(), cb.as_ptr(), cb.len(), cr.as_ptr(), cr.len(),
            p.cells.as_ptr(), p.cells.len(), p.slices.as_ptr(), p.slices.len(),
            p.columns.as_ptr(), p.columns.len(), p.rows.as_ptr(), p.rows.len(),
            out_y.as_mut_ptr(), out_y.len(), out_cb.as_mut_ptr(), out_cb.len(), out_cr.as_mut_ptr(), out_cr.len(),
            place,
        )
    }
}

/// The seconds of a call, which must have this answer.
fn ours(p: &Picture, out: &mut Planes, answer: (u32, u64)) -> f64 {
    let mut place = 0u64;
    let began = Instant::now();
    let number = call(p, out, &mut place);
    let took = began.elapsed().as_secs_f64();
    assert_eq!((number, place), answer);
    took
}

/// The seconds of the checks alone: the picture is refused for its last sample, which is too large meanwhile.
fn checks(p: &mut Picture, out: &mut Planes) -> f64 {
    let last = p.planes.iter().map(Vec::len).sum::<usize>() - 1;
    let too_large = 1 << p.chroma_depth;
    let kept = std::mem::replace(p.planes[2].last_mut().expect("a Cr sample"), too_large);
    let took = ours(p, out, (10, last as u64));
    *p.planes[2].last_mut().expect("a Cr sample") = kept;
    took
}

/// The customer's AVX2 kernels, with the pair kernels, as its own `ExecContext` takes them; none where the processor has no AVX2.
#[cfg(target_arch = "x86_64")]
fn avx2() -> Option<exec::ExecContext> {
    std::is_x86_feature_detected!("avx2").then(|| exec::ExecContext {
        luma_deblock_vertical: deblock::resolve_luma_vertical_plane(),
        luma_deblock_horizontal: deblock::resolve_luma_horizontal_plane(),
        chroma_deblock_vertical: deblock::resolve_chroma_vertical_plane(),
        chroma_deblock_horizontal: deblock::resolve_chroma_horizontal_plane(),
        luma_deblock_vertical_pair: deblock::resolve_luma_vertical_pair(),
        luma_deblock_horizontal_pair: deblock::resolve_luma_horizontal_pair(),
        chroma_deblock_vertical_pair: deblock::resolve_chroma_vertical_pair(),
        chroma_deblock_horizontal_pair: deblock::resolve_chroma_horizontal_pair(),
    })
}

#[cfg(not(target_arch = "x86_64"))]
fn avx2() -> Option<exec::ExecContext> {
    None
}

/// One of the customer's sets of kernels, and what a run of it needs.
struct Theirs<'a> {
    pool: threadpool::ThreadPool,
    ctx: deblock::DeblockCtx<'a>,
    scratch: deblock::DeblockScratch,
}

impl<'a> Theirs<'a> {
    fn new(p: &Picture, lists: &'a Lists, exec: exec::ExecContext) -> Self {
        let pool = threadpool::ThreadPool::new(1);
        // No grid: of one tile it makes no difference, and it is the Rust's faster way.
        Theirs { pool, ctx: context(p, lists, None, exec), scratch: deblock::DeblockScratch::default() }
    }

    fn run(&mut self, p: &Picture, out: &mut Planes) -> f64 {
        let [mut y, mut cb, mut cr] = std::mem::take(out);
        let began = Instant::now();
        y.copy_from_slice(&p.planes[0]);
        cb.copy_from_slice(&p.planes[1]);
        cr.copy_from_slice(&p.planes[2]);
        let left = deblock::apply_deblocking_parallel(&self.pool, &self.ctx, LOG2_CTB, &mut self.scratch, y, cb, cr);
        let took = began.elapsed().as_secs_f64();
        *out = [left.y, left.cb, left.cr];
        took
    }
}

/// The seconds of each run of ours, of the scalar kernels, of the AVX2 kernels where there are any, and of our checks alone, in turn. After
/// every run of theirs the planes are held to ours. The first run of each brings the planes into memory and is not counted.
fn times(name: &str, timed: &mut Timed, runs: usize) -> [Vec<f64>; 4] {
    let lists = Lists::of(&timed.picture);
    let mut scalar = Theirs::new(&timed.picture, &lists, exec::ExecContext::scalar());
    let mut avx2 = avx2().map(|kernels| Theirs::new(&timed.picture, &lists, kernels));
    let (mut a, mut b) = (empty(&timed.picture), empty(&timed.picture));
    let mut all = [const { Vec::new() }; 4];
    for run in 0..=runs {
        let p = &timed.picture;
        let mut took = [Some(ours(p, &mut a, (0, 0))), None, None, None];
        for (theirs, took) in [Some(&mut scalar), avx2.as_mut()].into_iter().zip(&mut took[1..]) {
            *took = theirs.map(|t| t.run(p, &mut b));
            assert!(a == b, "{name}: the planes differ");
        }
        took[3] = Some(checks(&mut timed.picture, &mut b));
        if run == 0 {
            println!("{name}: {}", about(timed, &a));
        } else {
            all.iter_mut().zip(took).for_each(|(list, one)| list.extend(one));
        }
    }
    all
}

/// How much there is to filter in a picture.
fn about(timed: &Timed, out: &Planes) -> String {
    let originals = &timed.picture.planes;
    let moved = |out: &[u16], original: &[u16]| {
        let count = out.iter().zip(original).filter(|(x, y)| x != y).count();
        100.0 * count as f64 / out.len() as f64
    };
    format!(
        "{:.1} % of the luma segments open; {:.1} % of the luma and {:.1} % of the Cb samples moved; planes equal",
        100.0 * timed.open,
        moved(&out[0], &originals[0]),
        moved(&out[1], &originals[1])
    )
}

/// The best and the median, in ns per sample; None of no runs.
fn best_and_median(mut times: Vec<f64>, samples: usize) -> Option<(f64, f64)> {
    times.sort_by(f64::total_cmp);
    let ns = |time: f64| time * 1e9 / samples as f64;
    Some((ns(*times.first()?), ns(times[times.len() / 2])))
}

/// One picture's row of the table.
fn row(name: &str, timed: &mut Timed, runs: usize) -> String {
    let samples = timed.samples();
    let [ours, scalar, avx2, checks] = times(name, timed, runs).map(|list| best_and_median(list, samples));
    let ((ours, our_median), (checks, _), (scalar, median)) = (ours.expect("a run"), checks.expect("a run"), scalar.expect("a run"));
    let avx2 = avx2.map_or("-".into(), |(best, _)| format!("{best:.2}"));
    let (best, medians) = (ours / scalar, our_median / median);
    format!("| {name} | {runs} | {ours:.2} | {checks:.3} | {scalar:.2} | {avx2} | {best:.2} | {medians:.2} |")
}

type Maker = fn(usize, u32) -> Timed;

fn main() {
    let runs: usize = std::env::args().nth(1).map_or(15, |word| word.parse().expect("a number of runs")).max(1);
    let few = runs.div_ceil(5);
    let pictures: [(&str, Maker, usize, u32, usize); 5] = [
        ("dense 2048 x 2048, depth 8", dense, 2048, 8, runs),
        ("sparse 2048 x 2048, depth 8", sparse, 2048, 8, runs),
        ("dense 2048 x 2048, depth 10", dense, 2048, 10, runs),
        ("sparse 2048 x 2048, depth 10", sparse, 2048, 10, runs),
        ("sparse 8192 x 8192, depth 8", sparse, 8192, 8, few),
    ];
    let rows = pictures.map(|(name, maker, size, depth, runs)| row(name, &mut maker(size, depth), runs));
    println!();
    println!("ns per sample of all planes, best of the runs:");
    println!();
    println!("| picture | runs | ours | its checks | Rust, scalar | Rust, AVX2 | ours to scalar, best | ours to scalar, medians |");
    println!("|---|---|---|---|---|---|---|---|");
    rows.iter().for_each(|row| println!("{row}"));
}
