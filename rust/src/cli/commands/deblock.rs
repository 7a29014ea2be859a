//! `tinladle deblock`: pictures filtered, each to its output.

use std::path::Path;

use super::{accepted, each_to_its_output, filter, load, write};
use crate::cli::progress::Progress;
use crate::cli::table::Counts;
use crate::cli::verbs::Answer;
use crate::cli::words::Words;
use crate::cli::work::Outcome;
use tinladle::container::StoredPicture;
use tinladle::{PlanesBuf, cut};

/// The samples that the filter moved, by tile and plane.
fn moved(stored: &StoredPicture, finished: &PlanesBuf) -> String {
    let picture = stored.picture.picture();
    let counts = Counts::of(&picture.settings, &cut::tiles(&picture), picture.samples(), finished.samples());
    counts.text("samples moved")
}

fn one(input: &Path, output: &Path, progress: &Progress) -> Outcome {
    let stored = load(input, progress)?;
    let finished = filter(input, &stored, progress)?;
    let text = accepted(input, &stored) + &moved(&stored, &finished);
    let written = write(output, &stored.with_planes(finished), progress)?;
    Ok((format!("{text}{written}\n"), 0))
}

pub fn run(words: &Words) -> Answer {
    each_to_its_output(words, one)
}
