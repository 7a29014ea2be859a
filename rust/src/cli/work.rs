//! Pieces of work, one after the other or side by side, and what is shown of them.

use std::collections::BTreeMap;
use std::fmt::Display;
use std::hint::black_box;
use std::io::{self, Write};
use std::iter;
use std::path::Path;
use std::sync::{Mutex, mpsc};
use std::thread::{self, Scope};

use super::progress::Progress;
use super::streams::{BAD, complain, print};
use super::words::Words;

/// Why a piece of work has no result.
pub enum Failure {
    /// The file's picture was refused: a line for standard output.
    Refused(String),
    /// The same of a verb whose standard output programs read: a line for standard error.
    RefusedAside(String),
    /// The file cannot be used: a line for standard error.
    Bad(String),
}

/// The text for standard output and the status, 0 or 1.
pub type Outcome = Result<(String, u8), Failure>;

pub fn bad(path: &Path, why: impl Display) -> Failure {
    Failure::Bad(format!("{}: {why}", path.display()))
}

/// Shows an outcome and answers with its status.
fn show(outcome: Outcome) -> u8 {
    match outcome {
        Ok((text, status)) => status.max(print(&text)),
        Err(Failure::Refused(line)) => print(&format!("{line}\n")).max(1),
        Err(Failure::RefusedAside(line)) => {
            complain(&line);
            1
        }
        Err(Failure::Bad(line)) => {
            complain(&line);
            BAD
        }
    }
}

/// Shows the outcomes in the order of the pieces, as they come in, and answers with the worst status.
fn in_order(receive: mpsc::Receiver<(usize, Outcome)>) -> u8 {
    let mut waiting = BTreeMap::new();
    let (mut shown, mut worst) = (0, 0);
    for (number, outcome) in receive {
        waiting.insert(number, outcome);
        while let Some(outcome) = waiting.remove(&shown) {
            worst = worst.max(show(outcome));
            shown += 1;
        }
    }
    worst
}

/// How many threads work. One needs none of its own, and more than there are processors would only take memory.
fn threads(jobs: usize, pieces: usize) -> usize {
    let processors = thread::available_parallelism().map_or(1, usize::from);
    let most = jobs.min(pieces).min(processors);
    if most == 1 { 0 } else { most }
}

/// A thread's stack, which Rust makes 2 MiB large, and as much for what it does first.
const FOR_A_THREAD: usize = 4 << 20;

/// Starts a thread, where there is one to be had and memory for it; Rust's runtime stops a thread that finds too
/// little.
fn start<'scope>(scope: &'scope Scope<'scope, '_>, work: impl FnOnce() + Send + 'scope) {
    let mut trial = Vec::<u8>::new();
    let enough = trial.try_reserve_exact(FOR_A_THREAD).is_ok();
    // Seen to be used, or the compiler would leave the trial out.
    drop(black_box(trial));
    if enough {
        let _ = thread::Builder::new().spawn_scoped(scope, work);
    }
}

/// Does the pieces of work, up to `jobs` at a time, and answers with the worst status.
pub fn side_by_side<T: Sync>(pieces: &[T], jobs: usize, work: impl Fn(&T, &Progress) -> Outcome + Sync) -> u8 {
    let progress = Progress::new(pieces.len());
    let next = Mutex::new(pieces.iter().enumerate());
    let do_next = || {
        let (number, piece) = next.lock().ok()?.next()?;
        let outcome = work(piece, &progress);
        progress.one_done();
        Some((number, outcome))
    };
    let (send, receive) = mpsc::channel();
    // It can always be sent: the outcomes are received below until the last worker has ended.
    let worker = |send: mpsc::Sender<_>| iter::from_fn(do_next).for_each(|done| drop(send.send(done)));
    thread::scope(|scope| {
        start(scope, || progress.tell(say));
        for _ in 0..threads(jobs, pieces.len()) {
            let (send, worker) = (send.clone(), &worker);
            start(scope, move || worker(send));
        }
        drop(send);
        let worst = in_order(receive);
        // What no thread took, which is all where none was started.
        let worst = iter::from_fn(do_next).map(|(_, outcome)| show(outcome)).fold(worst, u8::max);
        progress.end();
        worst
    })
}

fn say(line: String) {
    // Standard error is the last place to say anything.
    let _ = writeln!(io::stderr().lock(), "{line}");
}

/// The same piece of work for each of the verb's files.
pub fn each(words: &Words, work: impl Fn(&Path, &Progress) -> Outcome + Sync) -> u8 {
    side_by_side(&words.all_files(), words.jobs.unwrap_or(1), |file, progress| work(file, progress))
}

/// One piece of work.
pub fn alone(work: impl Fn(&Progress) -> Outcome + Sync) -> u8 {
    side_by_side(&[()], 1, |(), progress| work(progress))
}
