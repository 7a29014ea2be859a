//! The tool run as a process, and files for it.

use std::ffi::OsStr;
use std::fs;
use std::path::{Path, PathBuf};
use std::process::{Command, Output};

use super::planes::with_odd_rest;
use super::{edges, flat, samples, small};
use tinladle::container::StoredPicture;
use tinladle::{ChromaFormat, PictureBuf, PlanesBuf, Settings};

/// An empty folder for one test.
pub fn folder(name: &str) -> PathBuf {
    let path = Path::new(env!("CARGO_TARGET_TMPDIR")).join(name);
    if path.exists() {
        fs::remove_dir_all(&path).unwrap();
    }
    fs::create_dir_all(&path).unwrap();
    path
}

fn write(path: &Path, stored: &StoredPicture) {
    let mut bytes = Vec::new();
    stored.write(&mut bytes).unwrap();
    fs::write(path, bytes).unwrap();
}

pub fn store(path: &Path, picture: PictureBuf) {
    write(path, &StoredPicture::new(picture));
}

/// A file in which all is odd but size, format, depths and planes.
pub fn store_with_odd_rest(path: &Path, picture: PictureBuf) {
    write(path, &StoredPicture { output_lengths: [7, 0, 1], ..StoredPicture::new(with_odd_rest(picture)) });
}

pub fn load(path: &Path) -> PictureBuf {
    let bytes = fs::read(path).unwrap();
    StoredPicture::read(&mut &bytes[..], bytes.len() as u64).unwrap().picture
}

/// What a run answered: status, standard output, standard error.
pub struct Ran {
    pub status: i32,
    pub out: String,
    pub err: String,
}

impl From<Output> for Ran {
    fn from(done: Output) -> Self {
        let text = |bytes| String::from_utf8(bytes).unwrap();
        Ran { status: done.status.code().unwrap(), out: text(done.stdout), err: text(done.stderr) }
    }
}

/// The tool in a folder, not yet started.
pub fn command<S: AsRef<OsStr>>(folder: &Path, words: &[S]) -> Command {
    let mut command = Command::new(env!("CARGO_BIN_EXE_tinladle"));
    command.current_dir(folder).args(words);
    command
}

/// Runs the tool in a folder.
pub fn tinladle<S: AsRef<OsStr>>(folder: &Path, words: &[S]) -> Ran {
    command(folder, words).output().unwrap().into()
}

/// Runs the tool through a shell's script, in which it stands as `"$@"`.
pub fn through_shell(folder: &Path, script: &str, words: &[&str]) -> Ran {
    let mut shell = Command::new("sh");
    shell.current_dir(folder).args(["-c", script, "sh", env!("CARGO_BIN_EXE_tinladle")]).args(words);
    shell.output().unwrap().into()
}

/// 32 by 16 in two tiles of 16 by 16: S1's step of document 01 at column 8, in the first tile alone, and K1's nowhere.
pub fn s1() -> PictureBuf {
    let mut picture = flat(Settings::new(32, 16, ChromaFormat::Yuv420), edges(37));
    picture.planes.y = samples(32, 16, |x, _| if x < 8 { 100 } else { 104 });
    picture.tile_columns = vec![0, 1];
    picture
}

/// What the stage leaves of it: S1 moves 100 100 100 and 104 104 on each of the 16 rows, columns 5, 6, 7 and 8, 9.
pub fn s1_filtered() -> PictureBuf {
    let line = [&[100; 5][..], &[101, 101, 102, 103, 103], &[104; 22]].concat();
    let mut picture = s1();
    picture.planes.y = samples(32, 16, |x, _| line[x]);
    picture
}

/// `s1` as it could be stored before a strength needed its edge flag: cells 7 and 26 have three strengths and no flag.
/// Refused 9 at cell 7.
pub fn old_style() -> PictureBuf {
    let mut picture = s1();
    for (number, strengths) in [(7, [2, 1]), (26, [2, 0])] {
        picture.cells[8 * number + 1] = 0;
        picture.cells[8 * number + 2..][..2].copy_from_slice(&strengths);
    }
    picture
}

/// What the stage left of its samples before the rule, and leaves of the converted picture's: on the last four rows the
/// step at column 8, the left side of cell 26, has no edge and stays.
pub fn old_style_filtered() -> PlanesBuf {
    let (before, mut after) = (s1().planes, s1_filtered().planes);
    after.y[12 * 32..].copy_from_slice(&before.y[12 * 32..]);
    after
}

/// Refused 9 at cell 2.
pub fn refused() -> PictureBuf {
    let mut picture = small();
    picture.cells[2 * 8] = 63;
    picture
}
