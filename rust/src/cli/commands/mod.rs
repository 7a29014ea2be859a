//! What each verb does: a file for each, and here what several do.

pub mod check;
pub mod checksum;
pub mod convert;
pub mod deblock;
pub mod diff;
pub mod picture;
pub mod pixel;
pub mod tiles;

use std::fs::{self, File};
use std::io;
use std::path::{Path, PathBuf};

use tinladle::container::{BadFile, StoredPicture};
use tinladle::{Cause, Cell, PlanesBuf, Refusal};

use super::output;
use super::progress::Progress;
use super::verbs::Answer;
use super::words::Words;
use super::work::{Failure, Outcome, bad, side_by_side};

fn open(path: &Path) -> Result<StoredPicture, BadFile> {
    // Looked at before it is opened: opening a pipe would wait for its writer.
    if !fs::metadata(path)?.is_file() {
        return Err(BadFile::Io(io::Error::other("it is not a regular file")));
    }
    let mut file = File::open(path)?;
    let size = file.metadata()?.len();
    StoredPicture::read(&mut file, size)
}

fn load(path: &Path, progress: &Progress) -> Result<StoredPicture, Failure> {
    progress.doing(format!("reading {}", path.display()));
    open(path).map_err(|error| bad(path, error))
}

/// A refusal of a verb whose standard output is for results alone, so that a program can read it.
fn refused_aside(path: &Path, refusal: Refusal) -> Failure {
    Failure::RefusedAside(format!("{}: {refusal}", path.display()))
}

/// What helps, where the conversion would change the cell that a refusal names.
fn remedy(stored: &StoredPicture, refusal: &Refusal) -> &'static str {
    let cell = usize::try_from(refusal.place()).ok().and_then(|n| stored.picture.cells.chunks(Cell::BYTES).nth(n));
    match (refusal.cause(), cell) {
        (Cause::Cell, Some(cell)) if tinladle::convert_cells(cell).is_ok_and(|converted| converted != cell) => {
            " (tinladle convert sets such a bS to 0)"
        }
        _ => "",
    }
}

/// The finished planes of an accepted picture.
fn filter(path: &Path, stored: &StoredPicture, progress: &Progress) -> Result<PlanesBuf, Failure> {
    progress.doing(format!("filtering {}", path.display()));
    let mut out = PlanesBuf::try_filled(stored.output_lengths, 0)
        .map_err(|error| bad(path, format_args!("cannot be filtered: {error}")))?;
    match tinladle::deblock(&stored.picture.picture(), &mut out.planes()) {
        Ok(()) => Ok(out),
        Err(refusal) => Err(Failure::Refused(format!("{}: {refusal}{}", path.display(), remedy(stored, &refusal)))),
    }
}

/// The verdict; what an empty slice list stands for, since nothing in the file shows it; and how many palette cells
/// there are.
fn accepted(path: &Path, stored: &StoredPicture) -> String {
    let mut verdict = format!("{}: accepted\n", path.display());
    if stored.picture.slices.is_empty() {
        verdict += "  no slice record: one slice with tc offset div2 -1\n";
    }
    let palette = stored.picture.picture().palette_cells();
    if palette > 0 {
        let cells = stored.picture.cells.len() / Cell::BYTES;
        verdict += &format!("  palette cells, which keep their samples: {palette} of {cells}\n");
    }
    verdict
}

fn unwritten(output: &Path, error: io::Error) -> Failure {
    bad(output, format_args!("cannot be written: {error}"))
}

/// Writes a picture to an output, and says so.
fn write(output: &Path, stored: &StoredPicture, progress: &Progress) -> Result<String, Failure> {
    progress.doing(format!("writing {}", output.display()));
    output::write_whole(output, |sink| stored.write(sink)).map_err(|error| unwritten(output, error))?;
    Ok(format!("  written: {}", output.display()))
}

/// Each input with its output.
fn pairs(words: &Words) -> Result<Vec<(&Path, PathBuf)>, String> {
    let Some(folder) = &words.folder else {
        let [input, output] = words.files();
        return Ok(vec![(input, output.into())]);
    };
    let pair = |input| match Path::file_name(input) {
        Some(name) => Ok((input, folder.join(name))),
        None => Err(format!("{}: it has no file name", input.display())),
    };
    words.all_files().into_iter().map(pair).collect()
}

/// The same piece of work for each input with its output.
fn each_to_its_output(words: &Words, work: impl Fn(&Path, &Path, &Progress) -> Outcome + Sync) -> Answer {
    let pairs = pairs(words)?;
    let inputs: Vec<&Path> = pairs.iter().map(|pair| pair.0).collect();
    let outputs: Vec<&Path> = pairs.iter().map(|pair| pair.1.as_path()).collect();
    output::clash(&inputs, &outputs)?;
    // The folder is made last, so that a clash leaves nothing behind.
    if let Some(folder) = &words.folder {
        fs::create_dir_all(folder).map_err(|error| format!("{}: cannot be made: {error}", folder.display()))?;
    }
    Ok(side_by_side(&pairs, words.jobs.unwrap_or(1), |(input, output), progress| work(input, output, progress)))
}
