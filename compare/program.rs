//! The program that converts a stored list, standard input to standard output, beside conversion.rs.

use std::fs::{File, OpenOptions};
use std::io::{Read, Write};
use std::process::{Child, Command, ExitCode, Stdio};

use crate::lists;
use crate::random::Random;

/// The program reads its input in parts of so many bytes, so lists end near multiples of it.
const PART: i64 = 32768;

fn length(random: &mut Random) -> usize {
    match random.below(4) {
        0 => random.between(0, 24) as usize,
        1 => random.between(0, 5000) as usize,
        2 => (PART * random.between(1, 5) + random.between(-17, 17)) as usize,
        _ => random.between(0, 5 * PART) as usize,
    }
}

/// The list in pieces, so that a read may come short of what was asked for. A program that does not read on is told by its output.
fn write_pieces(child: &mut Child, cells: &[u8], piece: usize) {
    let mut input = child.stdin.take().unwrap();
    let _ = cells.chunks(piece).try_for_each(|bytes| input.write_all(bytes));
}

/// The program's output for a list.
fn converted(file: &str, cells: &[u8], piece: usize) -> std::io::Result<Vec<u8>> {
    let mut child = Command::new(file).stdin(Stdio::piped()).stdout(Stdio::piped()).spawn()?;
    let mut output = child.stdout.take().unwrap();
    let mut made = vec![];
    std::thread::scope(|scope| {
        scope.spawn(|| write_pieces(&mut child, cells, piece));
        output.read_to_end(&mut made)
    })?;
    let status = child.wait()?;
    if status.success() { Ok(made) } else { Err(std::io::Error::other(format!("the program ended with {status}"))) }
}

fn check(file: &str, random: &mut Random) -> Result<usize, String> {
    let length = length(random);
    let cells = lists::bytes(random, length);
    let piece = random.pick(&[1 << 20, 4096, 1000, 7]);
    let made = converted(file, &cells, piece).map_err(|error| format!("{file}: {error}"))?;
    lists::same_list(&cells, &made)?;
    Ok(length)
}

/// What the program says where it can read nothing, of a folder, and where it can write nothing, to a full device.
fn check_failures(file: &str) -> Result<(), String> {
    let said = |input: &str, output: &str, what: &str| {
        let (input, output) = (File::open(input)?, OpenOptions::new().write(true).open(output)?);
        let done = Command::new(file).stdin(input).stdout(output).stderr(Stdio::piped()).output()?;
        if done.stderr == what.as_bytes() { Ok(()) } else { Err(std::io::Error::other(format!("it did not say: {}", what.trim_end()))) }
    };
    said("/", "/dev/null", "the input could not be read\n")
        .and_then(|()| said(file, "/dev/full", "the output could not be written\n"))
        .map_err(|error| error.to_string())
}

/// The program on so many lists, and where it can read or write nothing.
pub fn run(file: &str, count: u64, seed: u64) -> ExitCode {
    if let Err(what) = check_failures(file) {
        println!("DIFFERENCE where nothing can be read or written: {what}");
        return ExitCode::FAILURE;
    }
    let mut bytes = 0;
    for number in 0..count {
        match check(file, &mut Random::new(seed, 3, number)) {
            Ok(length) => bytes += length,
            Err(what) => {
                println!("DIFFERENCE at list {number} (seed {seed}): {what}");
                return ExitCode::FAILURE;
            }
        }
    }
    println!("lists {count} through {file}, bytes {bytes}\nno difference");
    ExitCode::SUCCESS
}
