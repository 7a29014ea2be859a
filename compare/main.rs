//! The stage beside the customer's Rust, a second program from H.265 and document 01's refusal ledger, on random pictures; and the
//! conversion of cell lists, on random lists; and the checksums and pixels of planes, on those of the pictures and on random ones; and the
//! way back from a pixel's floats. README.md says what is compared. Besides, a search for pictures whose samples go as far as they can.

#![allow(dead_code)] // not all of the customer's files is called from here

use std::process::ExitCode;
use std::sync::Mutex;
use std::sync::atomic::{AtomicU64, Ordering};

#[path = "../oracle/shims.rs"]
mod shims;
use shims::{config, decode, exec, threadpool, tiles};

#[path = "../target/oracle/customer/src/deblock.rs"]
mod deblock;

#[path = "../rust/src/counted.rs"]
mod counted;

#[path = "../rust/src/library.rs"]
mod library;

#[path = "../oracle/gate.rs"]
mod gate;

#[path = "../oracle/lent.rs"]
mod picture;

#[path = "../oracle/standard.rs"]
mod standard;

#[path = "../oracle/theirs.rs"]
mod theirs;

mod check;
mod checksum;
mod content;
mod conversion;
mod coverage;
mod cut;
mod damage;
mod dump;
mod far;
mod far_content;
mod far_tally;
mod floats;
mod generate;
mod guards;
mod ledger;
mod lists;
mod moves;
mod options;
mod ours;
mod parts;
mod pixels;
mod pixels_tally;
mod planes;
mod planes_tally;
mod program;
mod random;
mod recogniser;
mod search;
mod shrink;
mod sums;
mod tally;

use options::Options;
use parts::Part;
use picture::Picture;
use random::Random;
use tally::Tally;
use theirs::Rust;

/// Where the two sides differ: at which picture or list, the picture if it is one, and what differs.
struct Difference {
    at: String,
    picture: Option<Picture>,
    what: String,
}

/// What the threads share.
struct Run {
    options: Options,
    next: AtomicU64,
    /// Nothing after this number need be looked at: the run ends at its first difference, whichever thread finds it.
    last: AtomicU64,
    found: Mutex<Vec<(u64, Difference)>>,
    tally: Mutex<Tally>,
}

/// Picture `number` of a run, and the damage done to it. Those that are accepted, as drawn or converted, come first.
fn picture(options: &Options, number: u64) -> (Picture, Vec<usize>, Random) {
    let mut random = Random::new(options.seed, 0, number);
    if number < options.accepted {
        let picture = generate::drawn(&mut random, generate::Sizes::Mixed);
        return (picture, vec![], random);
    }
    let (picture, kinds) = damage::damaged(&mut random, number - options.accepted);
    (picture, kinds, random)
}

/// One picture: counted, or what differs.
fn look_at(picture: &Picture, kinds: &[usize], rust: &mut Rust, random: &mut Random, tally: &mut Tally) -> Result<(), String> {
    let verdict = ledger::verdict(picture);
    let accepted = verdict == (0, 0) || kinds.is_empty() && ledger::verdict_before(picture) == (0, 0);
    assert_eq!(kinds.is_empty(), accepted, "the generator made another picture than it should");
    let found = check::check(picture, rust, random)?;
    tally.summed.count(&found);
    tally.pixels.count(picture, &found);
    match &found.agreed {
        Some(agreed) if accepted => tally.count_accepted(picture, verdict, agreed, found.zeroed),
        _ => tally.count_refused(picture, verdict, kinds, &found),
    }
    Ok(())
}

/// One adversarial picture: counted, or what differs.
fn look_at_far(picture: &Picture, rust: &mut Rust, random: &mut Random, tally: &mut Tally) -> Result<(), String> {
    assert_eq!(ledger::verdict(picture), (0, 0), "the generator made another picture than it should");
    let found = check::check(picture, rust, random)?;
    tally.summed.count(&found);
    tally.pixels.count(picture, &found);
    tally.far.count(picture, &found.agreed.ok_or("an accepted picture was not filtered")?);
    Ok(())
}

/// One picture's planes, for their checksums and some pixels: counted, or what differs.
fn look_at_planes(picture: &Picture, random: &mut Random, tally: &mut Tally) -> Result<(), String> {
    let found = sums::check_given(picture, random)?;
    tally.planes.count(picture, &found);
    tally.pixels.count_planes(picture, &pixels::check_some(picture, found.verdict, random)?);
    Ok(())
}

/// Number `number` of a part: counted, or what differs.
fn look_at_number(options: &Options, part: Part, number: u64, rust: &mut Rust, tally: &mut Tally) -> Result<(), Difference> {
    let differs = |at: String, picture: Option<Picture>| move |what: String| Difference { at, picture, what };
    let mut random = Random::new(options.seed, part as u64, number);
    match part {
        Part::Pictures => {
            let (picture, kinds, mut random) = picture(options, number);
            let looked = look_at(&picture, &kinds, rust, &mut random, tally);
            looked.map_err(differs(format!("picture {number}"), Some(picture)))
        }
        Part::Lists => {
            let (cells, out_length) = lists::list(&mut random);
            lists::check(&cells, out_length, &mut random).map_err(differs(format!("list {number}"), None))?;
            tally.lists.count(&cells, out_length);
            Ok(())
        }
        Part::Far => {
            let picture = far::picture(&mut random);
            let looked = look_at_far(&picture, rust, &mut random, tally);
            looked.map_err(differs(format!("adversarial picture {number}"), Some(picture)))
        }
        Part::Planes => {
            let picture = planes::picture(&mut random, number);
            look_at_planes(&picture, &mut random, tally).map_err(differs(format!("planes {number}"), None))
        }
        Part::Blocks => {
            let refused = floats::check_block(number, &mut random).map_err(differs(format!("block {number} of samples"), None))?;
            tally.pixels.count_block(refused);
            Ok(())
        }
        Part::Floats => {
            let count = floats::BATCH.min(options.floats - number * floats::BATCH);
            let found = floats::check_batch(count, &mut random).map_err(differs(format!("batch {number} of floats"), None))?;
            tally.pixels.count_floats(&found);
            Ok(())
        }
    }
}

fn work(run: &Run) {
    let mut rust = Rust::new();
    let mut tally = Tally::new();
    loop {
        let number = run.next.fetch_add(1, Ordering::Relaxed);
        let Some((part, own)) = Part::of(&run.options, number).filter(|_| number <= run.last.load(Ordering::Relaxed)) else { break };
        if let Err(difference) = look_at_number(&run.options, part, own, &mut rust, &mut tally) {
            run.last.fetch_min(number, Ordering::Relaxed);
            run.found.lock().unwrap().push((number, difference));
        }
    }
    run.tally.lock().unwrap().add(&tally);
}

/// Shrinks the picture, prints it and writes it as a record.
fn report(options: &Options, difference: &Difference) {
    println!("DIFFERENCE at {} (seed {}): {}", difference.at, options.seed, difference.what);
    let Some(picture) = difference.picture.as_ref().filter(|_| options.shrink) else { return };
    let mut rust = Rust::new();
    let mut differs = |p: &Picture| check::check(p, &mut rust, &mut Random::new(0, 1, 0)).err();
    if differs(picture).is_none() {
        println!("not made smaller: it differs at that pixel, and not at the one that is asked for now");
        return;
    }
    let small = shrink::shrink(picture, |p| differs(p).is_some());
    println!("the smallest picture found: {}", differs(&small).unwrap_or_default());
    dump::print(&small);
    match std::fs::write(&options.smallest, small.record()) {
        Ok(()) => println!("written as a record to {}", options.smallest),
        Err(error) => println!("not written to {}: {error}", options.smallest),
    }
}

/// A panic in the customer's code is caught and reported as a difference, so it need not print anything.
fn quiet_customer() {
    let usual = std::panic::take_hook();
    std::panic::set_hook(Box::new(move |info| {
        if !theirs::INSIDE.get() {
            usual(info);
        }
    }));
}

/// What is asked for in place of the run.
fn instead(options: &Options) -> Option<ExitCode> {
    if let Some(file) = &options.program {
        return Some(program::run(file, options.accepted, options.seed));
    }
    if let Some(file) = &options.search {
        return Some(search::run(file, options.seed));
    }
    options.every_float.as_ref().map(|which| floats::run_every(which, options.threads))
}

fn main() -> ExitCode {
    let options = match Options::read(std::env::args().skip(1)) {
        Ok(options) => options,
        Err(message) => {
            eprintln!("{message}");
            return ExitCode::from(2);
        }
    };
    println!("seed {}", options.seed);
    if let Some(code) = instead(&options) {
        return code;
    }
    quiet_customer();
    let threads = options.threads;
    let run = Run {
        options,
        next: AtomicU64::new(0),
        last: AtomicU64::new(u64::MAX),
        found: Mutex::new(vec![]),
        tally: Mutex::new(Tally::new()),
    };
    std::thread::scope(|scope| (0..threads).for_each(|_| drop(scope.spawn(|| work(&run)))));
    run.tally.into_inner().unwrap().print();
    let found = run.found.into_inner().unwrap();
    match found.iter().min_by_key(|(number, _)| number) {
        None => {
            println!("no difference");
            ExitCode::SUCCESS
        }
        Some((_, first)) => {
            report(&run.options, first);
            ExitCode::FAILURE
        }
    }
}
