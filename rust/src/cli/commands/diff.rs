//! `tinladle diff`: two pictures, sample by sample.

use std::path::Path;

use super::{filter, load};
use crate::cli::farthest::FarthestMoves;
use crate::cli::progress::Progress;
use crate::cli::table::Counts;
use crate::cli::verbs::Answer;
use crate::cli::words::Words;
use crate::cli::work::{Outcome, alone, bad};
use crate::counted::counted;
use tinladle::{Plane, Settings, cut};

/// Settings, as far as they must agree for samples to be compared, in words.
fn shape(s: &Settings) -> String {
    let (luma, chroma) = (s.luma_depth, s.chroma_depth);
    format!("{} by {}, format {}, depths {luma} and {chroma}", s.width, s.height, s.chroma_format)
}

/// What follows where a sample is too far; nothing where none is. Filtering twice may move a sample twice as far.
fn not_filtered(too_far: &[Plane]) -> String {
    if too_far.is_empty() {
        return String::new();
    }
    let planes: Vec<String> = too_far.iter().map(Plane::to_string).collect();
    let why = "filtering cannot have moved a sample that far, so neither is the other filtered once";
    format!("  too far in {}: {why}\n", planes.join(", "))
}

fn compared(a: &Path, b: &Path, progress: &Progress) -> Outcome {
    let (one, other) = (load(a, progress)?, load(b, progress)?);
    for (path, stored) in [(a, &one), (b, &other)] {
        filter(path, stored, progress)?;
    }
    let (p, q) = (one.picture.picture(), other.picture.picture());
    if shape(&p.settings) != shape(&q.settings) {
        let why = format!("{}, and {} is {}", shape(&p.settings), b.display(), shape(&q.settings));
        return Err(bad(a, format_args!("not to be compared: {why}")));
    }
    let tiles = cut::tiles(&p);
    if tiles != cut::tiles(&q) {
        return Err(bad(a, format_args!("not to be compared: {} has other tiles", b.display())));
    }
    let counts = Counts::of(&p.settings, &tiles, p.samples(), q.samples());
    let both = format!("{} and {}", a.display(), b.display());
    if counts.total() == 0 {
        return Ok((format!("{both}: no sample differs\n"), 0));
    }
    let head = format!("{both}: {}\n", counted(counts.total(), "sample differs", "samples differ"));
    let moves = FarthestMoves::of(&p.settings, p.samples(), q.samples());
    let text = head + &counts.text("samples that differ") + &moves.text();
    Ok((text + &not_filtered(&moves.too_far()), 1))
}

pub fn run(words: &Words) -> Answer {
    let [a, b] = words.files();
    Ok(alone(|progress| compared(a, b, progress)))
}
