//! `tinladle check`: the verdict on each picture.

use super::{accepted, filter, load};
use crate::cli::verbs::Answer;
use crate::cli::words::Words;
use crate::cli::work::each;

pub fn run(words: &Words) -> Answer {
    Ok(each(words, |input, progress| {
        let stored = load(input, progress)?;
        filter(input, &stored, progress)?;
        Ok((accepted(input, &stored), 0))
    }))
}
