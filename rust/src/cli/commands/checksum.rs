//! `tinladle checksum`: the checksums of each file's planes as they stand.

use std::path::Path;

use super::{load, refused_aside};
use crate::cli::progress::Progress;
use crate::cli::verbs::Answer;
use crate::cli::words::Words;
use crate::cli::work::{Outcome, each};
use tinladle::Plane;

/// A line for each plane: its sum and, where it is to be told apart from those of other files, plane and file.
fn one(input: &Path, told_apart: bool, progress: &Progress) -> Outcome {
    let stored = load(input, progress)?;
    progress.doing(format!("checksums of {}", input.display()));
    let picture = stored.picture.picture();
    let sums =
        tinladle::checksum(&picture.settings, picture.samples()).map_err(|refusal| refused_aside(input, refusal))?;
    let line = |plane| {
        let behind = if told_apart { format!("  {plane:<2}  {}", input.display()) } else { String::new() };
        sums.plane(plane).map(|sum| format!("{sum:08x}{behind}\n"))
    };
    Ok((Plane::ALL.into_iter().filter_map(line).collect(), 0))
}

pub fn run(words: &Words) -> Answer {
    let several = words.arguments.len() > 1;
    Ok(each(words, |input, progress| one(input, several, progress)))
}
