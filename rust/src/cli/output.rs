//! Outputs: written whole or not at all, never over an input, and not over what is write-protected.

use std::collections::BTreeMap;
use std::fs::{self, File, Permissions};
use std::io::{self, BufWriter, ErrorKind, Write};
use std::os::unix::fs::MetadataExt;
use std::path::{self, Component, Path, PathBuf};
use std::process;
use std::sync::atomic::{AtomicUsize, Ordering};

/// One name for a file, however it is written. Neither the file nor its folders need be there.
fn one_name(path: &Path) -> PathBuf {
    let mut name = PathBuf::new();
    for part in path::absolute(path).unwrap_or_else(|_| path.to_path_buf()).components() {
        match part {
            Component::ParentDir => drop(name.pop()),
            part => name.push(part),
        }
        // Links are followed as far as the path is there; what is not there can be no link.
        if let Ok(whole) = fs::canonicalize(&name) {
            name = whole;
        }
    }
    name
}

/// A link to a file that is not there. Nothing is written through it: its file may be another output by the time it
/// is written.
fn leads_nowhere(path: &Path) -> bool {
    path.is_symlink() && !path.exists()
}

/// What tells files apart.
#[derive(PartialEq, Eq, PartialOrd, Ord)]
enum Mark {
    Name(PathBuf),
    /// Device and inode, which hard links to one file share.
    File(u64, u64),
}

/// The marks of a file; a file that is not there yet has a name alone.
fn marks(path: &Path) -> impl Iterator<Item = Mark> {
    let there = fs::metadata(path).ok().map(|data| Mark::File(data.dev(), data.ino()));
    [Mark::Name(one_name(path))].into_iter().chain(there)
}

/// Says where an output would be written over an input or over another output, or through a link that leads nowhere.
pub fn clash(inputs: &[&Path], outputs: &[&Path]) -> Result<(), String> {
    let mut taken = BTreeMap::new();
    for input in inputs {
        taken.extend(marks(input).map(|mark| (mark, "also an input")));
    }
    for output in outputs {
        let mut other = leads_nowhere(output).then_some("a link that leads to no file");
        for mark in marks(output) {
            other = taken.insert(mark, "also another output").or(other);
        }
        if let Some(other) = other {
            return Err(format!("{}: the output is {other}; nothing was done", output.display()));
        }
    }
    Ok(())
}

/// The file that an output replaces, if there is one: of a link the file behind it.
fn replaced(output: &Path) -> io::Result<Option<(PathBuf, Permissions)>> {
    let data = match fs::metadata(output) {
        Ok(data) => data,
        Err(_) if leads_nowhere(output) => return Err(io::Error::other("it is a link that leads to no file")),
        // Whatever else is amiss, the new file finds it too.
        Err(_) => return Ok(None),
    };
    if !data.is_file() {
        return Err(io::Error::other("it is not a regular file"));
    }
    // The mode is looked at by itself, since the system lets root write whatever the mode.
    if data.permissions().readonly() {
        return Err(io::Error::other("it is write-protected"));
    }
    let whole = fs::canonicalize(output)?;
    // Renaming asks the folder alone. Opening asks the file, and changes nothing.
    File::options().write(true).open(&whole)?;
    Ok(Some((whole, data.permissions())))
}

/// A new file beside the output. Its name is short, since the output's own may be as long as a name can be.
fn beside(output: &Path) -> io::Result<(PathBuf, File)> {
    static COUNT: AtomicUsize = AtomicUsize::new(0);
    loop {
        let count = COUNT.fetch_add(1, Ordering::Relaxed);
        let path = output.with_file_name(format!(".tinladle-{}-{count}.tmp", process::id()));
        match File::create_new(&path) {
            // Left by a run of the same number that was killed.
            Err(error) if error.kind() == ErrorKind::AlreadyExists => {}
            made => return made.map(|file| (path, file)),
        }
    }
}

type Sink = BufWriter<File>;

fn fill(file: File, write: impl FnOnce(&mut Sink) -> io::Result<()>) -> io::Result<()> {
    let mut sink = BufWriter::with_capacity(1 << 16, file);
    write(&mut sink)?;
    sink.flush()?;
    // The samples reach the disk before the name does, so that a crash leaves the old file or the new one.
    sink.get_ref().sync_all()
}

/// Writes a file beside the output and gives it the output's name at the end. A link stays, and the file behind it is
/// replaced.
pub fn write_whole(output: &Path, write: impl FnOnce(&mut Sink) -> io::Result<()>) -> io::Result<()> {
    let old = replaced(output)?;
    let target = old.as_ref().map_or(output, |(path, _)| path);
    let (beside, file) = beside(target)?;
    let done = fill(file, write).and_then(|()| {
        if let Some((_, permissions)) = &old {
            fs::set_permissions(&beside, permissions.clone())?;
        }
        fs::rename(&beside, target)
    });
    if done.is_err() {
        // The failure that is told is the first one.
        let _ = fs::remove_file(&beside);
    }
    done
}

#[cfg(test)]
mod tests {
    use super::*;

    /// An empty folder for one test.
    fn folder(name: &str) -> PathBuf {
        let folder = std::env::temp_dir().join(format!("tinladle-{name}-{}", process::id()));
        // A run that was killed may have left one.
        let _ = fs::remove_dir_all(&folder);
        fs::create_dir(&folder).unwrap();
        folder
    }

    #[test]
    fn a_write_that_fails_leaves_nothing() {
        let folder = folder("output");
        let output = folder.join("out.pic");
        fs::write(&output, "old").unwrap();
        let half = |sink: &mut Sink| {
            sink.write_all(b"half")?;
            Err(io::Error::other("the disk is full"))
        };
        assert_eq!(write_whole(&output, half).unwrap_err().to_string(), "the disk is full");
        assert_eq!(fs::read_to_string(&output).unwrap(), "old");
        assert_eq!(fs::read_dir(&folder).unwrap().count(), 1, "the file beside it is gone");
        write_whole(&output, |sink| sink.write_all(b"new")).unwrap();
        assert_eq!(fs::read_to_string(&output).unwrap(), "new");
        assert_eq!(fs::read_dir(&folder).unwrap().count(), 1);
        fs::remove_dir_all(&folder).unwrap();
    }

    #[test]
    fn what_a_killed_run_left_is_in_nobodys_way() {
        let folder = folder("left");
        let output = folder.join("out.pic");
        for count in 0..50 {
            fs::write(folder.join(format!(".tinladle-{}-{count}.tmp", process::id())), "left").unwrap();
        }
        write_whole(&output, |sink| sink.write_all(b"new")).unwrap();
        assert_eq!(fs::read_to_string(&output).unwrap(), "new");
        assert_eq!(fs::read_dir(&folder).unwrap().count(), 51, "another's file is not taken");
        fs::remove_dir_all(&folder).unwrap();
    }

    #[test]
    fn a_name_is_one_name_before_its_folder_is_there() {
        let folder = folder("names");
        let there = one_name(&folder.join("a.pic"));
        for way in ["./a.pic", "none/../a.pic", "none/more/../../a.pic"] {
            assert_eq!(one_name(&folder.join(way)), there, "{way}");
        }
        assert_ne!(one_name(&folder.join("none/a.pic")), there);
        fs::remove_dir_all(&folder).unwrap();
    }
}
