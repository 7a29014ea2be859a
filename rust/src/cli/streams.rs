//! Standard output and standard error.

use std::fs::File;
use std::io::{self, ErrorKind, Write};
use std::os::fd::AsFd;
use std::sync::Once;

use super::closed;

/// The exit status where something could not be done.
pub const BAD: u8 = 2;

/// Writes to standard output. Rust's own handle takes a descriptor that cannot be written for one that was; a file
/// does not.
fn write(text: &str) -> io::Result<()> {
    if text.is_empty() {
        return Ok(());
    }
    if closed::at_start() {
        return Err(io::Error::other("it is closed"));
    }
    File::from(io::stdout().as_fd().try_clone_to_owned()?).write_all(text.as_bytes())
}

/// Prints to standard output. A failure is told once; where nobody reads it any more there is nothing to say, and the
/// status tells.
pub fn print(text: &str) -> u8 {
    static TOLD: Once = Once::new();
    match write(text) {
        Ok(()) => 0,
        Err(error) => {
            if error.kind() != ErrorKind::BrokenPipe {
                TOLD.call_once(|| complain(&format!("standard output: cannot be written: {error}")));
            }
            BAD
        }
    }
}

/// One line for standard error.
pub fn complain(line: &str) {
    // Standard error is the last place to say anything.
    let _ = writeln!(io::stderr().lock(), "tinladle: {line}");
}
