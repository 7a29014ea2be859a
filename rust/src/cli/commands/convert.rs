//! `tinladle convert`: pictures with each strength 0 that has no edge flag, each to its output.

use std::path::Path;

use super::{each_to_its_output, load, write};
use crate::cli::progress::Progress;
use crate::cli::verbs::Answer;
use crate::cli::words::Words;
use crate::cli::work::{Outcome, bad};
use crate::counted::counted;
use tinladle::Cell;

/// How many strengths were set to 0, and in how many cells.
fn zeroed(before: &[u8], after: &[u8]) -> (u64, u64) {
    let (mut strengths, mut cells) = (0, 0);
    for (old, new) in before.chunks(Cell::BYTES).zip(after.chunks(Cell::BYTES)) {
        let changed = old.iter().zip(new).filter(|(old, new)| old != new).count() as u64;
        strengths += changed;
        cells += u64::from(changed > 0);
    }
    (strengths, cells)
}

fn one(input: &Path, output: &Path, progress: &Progress) -> Outcome {
    let mut stored = load(input, progress)?;
    progress.doing(format!("converting {}", input.display()));
    let converted = tinladle::convert_cells(&stored.picture.cells)
        .map_err(|error| bad(input, format_args!("cannot be converted: {error}")))?;
    let (strengths, cells) = zeroed(&stored.picture.cells, &converted);
    stored.picture.cells = converted;
    let written = write(output, &stored, progress)?;
    let name = input.display();
    if strengths == 0 {
        let text = format!("{name}: every strength above 0 has its edge flag already\n{written}, the same bytes\n");
        return Ok((text, 0));
    }
    let (strengths, cells) = (counted(strengths, "strength", "strengths"), counted(cells, "cell", "cells"));
    Ok((format!("{name}: set {strengths} to 0 that had no edge flag, in {cells}\n{written}\n"), 0))
}

pub fn run(words: &Words) -> Answer {
    each_to_its_output(words, one)
}
