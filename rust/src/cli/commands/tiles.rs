//! `tinladle tiles`: each tile beside the same tile filtered alone.

use std::fmt::Write;
use std::path::Path;

use super::{accepted, filter, load};
use crate::cli::progress::Progress;
use crate::cli::table::name;
use crate::cli::verbs::Answer;
use crate::cli::words::Words;
use crate::cli::work::{Failure, Outcome, bad, each};
use tinladle::cut::{self, CutError, Tile};

fn failure(input: &Path, tile: &Tile, error: CutError) -> Failure {
    match error {
        CutError::Refused(refusal) => {
            Failure::Refused(format!("{}: {} cut out: {refusal}", input.display(), name(tile)))
        }
        error => bad(input, format_args!("{} cannot be filtered alone: {error}", name(tile))),
    }
}

fn apart(input: &Path, progress: &Progress) -> Outcome {
    let stored = load(input, progress)?;
    let finished = filter(input, &stored, progress)?;
    let picture = stored.picture.picture();
    let mut text = accepted(input, &stored);
    let mut sum = 0;
    let tiles = cut::tiles(&picture);
    for (number, tile) in tiles.iter().enumerate() {
        progress.doing(format!("tile {} of {} of {}", number + 1, tiles.len(), input.display()));
        let count = cut::apart(&picture, &finished, tile).map_err(|error| failure(input, tile, error))?;
        let size = format!("{} by {} at {}, {}", tile.width, tile.height, tile.x, tile.y);
        // Writing to a string cannot fail.
        let _ = writeln!(text, "  {:<24}{size:<28}{count:>10}", name(tile));
        sum += count;
    }
    let _ = writeln!(text, "  samples that differ from the tile filtered alone: {sum}");
    Ok((text, u8::from(sum > 0)))
}

pub fn run(words: &Words) -> Answer {
    Ok(each(words, apart))
}
