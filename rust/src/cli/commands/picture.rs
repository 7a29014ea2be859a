//! `tinladle picture`: before, after and the moved samples, for people.

use std::os::unix::ffi::OsStrExt;
use std::path::Path;

use super::{accepted, filter, load, unwritten};
use crate::cli::output;
use crate::cli::progress::Progress;
use crate::cli::verbs::Answer;
use crate::cli::words::Words;
use crate::cli::work::{Outcome, alone};
use tinladle::image;

fn drawn(input: &Path, output: &Path, progress: &Progress) -> Outcome {
    let stored = load(input, progress)?;
    let finished = filter(input, &stored, progress)?;
    progress.doing(format!("writing {}", output.display()));
    output::write_whole(output, |sink| image::write_ppm(&stored.picture.picture(), &finished, sink))
        .map_err(|error| unwritten(output, error))?;
    let palette = if stored.picture.picture().palette_cells() > 0 { "; palette cells green" } else { "" };
    let what = format!("{}: before, after, and the moved samples", output.display());
    let marks = format!("luma red, chroma blue, both magenta; the farther, the brighter{palette}");
    Ok((format!("{}  picture: {what}\n  ({marks})\n", accepted(input, &stored)), 0))
}

pub fn run(words: &Words) -> Answer {
    let [input, output] = words.files();
    output::clash(&[input], &[output])?;
    // Another name would promise another kind of file.
    if !output.as_os_str().as_bytes().to_ascii_lowercase().ends_with(b".ppm") {
        return Err(format!(
            "{}: the output is a PPM, and its name must end in .ppm; nothing was done",
            output.display()
        ));
    }
    Ok(alone(|progress| drawn(input, output, progress)))
}
