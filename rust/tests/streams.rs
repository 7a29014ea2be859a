//! Standard output that cannot be written: told once, and status 2.

mod common;

use std::fs::File;
use std::io;
use std::path::Path;

use common::tool::{Ran, command, folder, s1, store, through_shell};

#[cfg(target_os = "linux")]
#[test]
fn a_full_standard_output_is_told_once() {
    let at = folder("full");
    store(&at.join("a.pic"), s1());
    for words in [&["--help"][..], &["--version"], &["check", "a.pic"], &["check", "a.pic", "a.pic", "a.pic"]] {
        let full = File::options().write(true).open("/dev/full").unwrap();
        let ran = Ran::from(command(&at, words).stdout(full).output().unwrap());
        let why = "tinladle: standard output: cannot be written: No space left on device (os error 28)\n";
        assert_eq!((ran.status, ran.err.as_str()), (2, why), "{words:?}");
    }
}

/// The tool as a shell starts it, with standard streams sent elsewhere.
fn with_streams(at: &Path, streams: &str, words: &[&str]) -> Ran {
    through_shell(at, &format!("exec \"$@\" {streams}"), words)
}

const VERBS: [&[&str]; 10] = [
    &["--help"],
    &["--version"],
    &["check", "a.pic", "a.pic"],
    &["diff", "a.pic", "a.pic"],
    &["tiles", "a.pic"],
    &["deblock", "a.pic", "b.pic"],
    &["picture", "a.pic", "b.ppm"],
    &["convert", "a.pic", "c.pic"],
    &["checksum", "a.pic"],
    &["pixel", "a.pic", "0", "0"],
];

#[test]
fn a_closed_standard_output_is_told_once() {
    let at = folder("closed");
    store(&at.join("a.pic"), s1());
    let closed = "tinladle: standard output: cannot be written: it is closed\n";
    let unwritable = "tinladle: standard output: cannot be written: Bad file descriptor (os error 9)\n";
    for words in VERBS {
        for (streams, why) in [(">&-", closed), ("<&- >&-", closed), ("1</dev/null", unwritable)] {
            let ran = with_streams(&at, streams, words);
            assert_eq!((ran.status, ran.err.as_str()), (2, why), "{words:?} {streams}");
        }
        // With nowhere left to tell it, the status still does.
        assert_eq!(with_streams(&at, ">&- 2>&-", words).status, 2, "{words:?}");
    }
    // What is only complained about needs no standard output.
    let ran = with_streams(&at, ">&-", &["check", "none.pic"]);
    let why = "tinladle: none.pic: cannot be read: No such file or directory (os error 2)\n";
    assert_eq!((ran.status, ran.err.as_str()), (2, why));
}

#[test]
fn dev_null_is_no_closed_standard_output() {
    let at = folder("null");
    store(&at.join("a.pic"), s1());
    for words in VERBS {
        // Open for writing, as a shell does it, and for reading too, as services and Rust's own runtime do it.
        for streams in [">/dev/null", "1<>/dev/null", "<&- >/dev/null", "<&- 1<>/dev/null 2>&-"] {
            let ran = with_streams(&at, streams, words);
            assert_eq!((ran.status, ran.err.as_str()), (0, ""), "{words:?} {streams}");
        }
    }
}

#[test]
fn a_reader_that_has_gone_is_told_nothing() {
    let at = folder("gone");
    store(&at.join("a.pic"), s1());
    for words in [["check", "a.pic"], ["--help", "--help"]] {
        let (reader, writer) = io::pipe().unwrap();
        drop(reader);
        let ran = Ran::from(command(&at, &words).stdout(writer).output().unwrap());
        assert_eq!((ran.status, ran.err.as_str()), (2, ""), "{words:?}");
    }
}
