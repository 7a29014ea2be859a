//! The tool's words: commands and options.

mod common;

use std::ffi::{OsStr, OsString};
use std::fs;
use std::os::unix::ffi::OsStrExt;

use common::tool::{folder, load, s1, s1_filtered, store, tinladle};

#[test]
fn help_and_version() {
    let at = folder("help");
    let text = tinladle(&at, &["--help"]).out;
    for words in
        [&["-h"][..], &["help"], &["deblock", "--help"], &["check", "x", "-h"], &["-h", "--jobs", "2", "diff"]]
    {
        let ran = tinladle(&at, words);
        assert_eq!((ran.status, &ran.out, ran.err.as_str()), (0, &text, ""), "{words:?}");
    }
    for words in [&["--version"][..], &["check", "--version"]] {
        let ran = tinladle(&at, words);
        assert_eq!((ran.status, ran.out.as_str(), ran.err.as_str()), (0, "tinladle 0.1.0\n", ""));
    }
}

/// The verb and what its line in the help has after it.
fn line_of_help(line: &str) -> Option<(&str, Vec<&str>)> {
    let mut words = line.strip_prefix("  tinladle ")?.split("  ").next()?.split(' ');
    let verb = words.next().filter(|verb| !verb.starts_with('-'))?;
    Some((verb, words.collect()))
}

#[test]
fn each_line_of_the_help_is_what_the_verb_takes() {
    let at = folder("lines");
    let help = tinladle(&at, &["--help"]).out;
    let lines: Vec<_> = help.lines().filter_map(line_of_help).collect();
    assert_eq!(
        lines.iter().map(|line| line.0).collect::<Vec<_>>(),
        ["deblock", "deblock", "check", "diff", "picture", "tiles", "convert", "convert", "checksum", "pixel"]
    );
    // The forms with --to have an option and its value among the words; the others have files and numbers alone.
    for (verb, words) in lines.into_iter().filter(|line| line.1[0] != "--to") {
        let (count, more) = (words.len(), words.iter().any(|word| word.ends_with("...")));
        for given in 0..5 {
            let named = words.iter().map(|word| if ["COLUMN", "ROW"].contains(word) { "0" } else { "none.ppm" });
            let given_words: Vec<&str> = named.chain(["none.ppm"; 4]).take(given).collect();
            let ran = tinladle(&at, &[&[verb][..], &given_words].concat());
            let usage = ran.err.contains("--help lists the commands");
            assert_eq!(
                (ran.status, usage),
                (2, given < count || (given > count && !more)),
                "{verb} {given}: {}",
                ran.err
            );
        }
    }
}

const BAD: &[(&[&str], &str)] = &[
    (&[], "no command"),
    (&["smooth"], "unknown command smooth"),
    (&["--jobs", "2"], "no command"),
    (&["--jobs", "2", "smooth", "a"], "unknown command smooth"),
    (&[""], "unknown command "),
    (&["check"], "check takes IN..., and nothing was given"),
    (&["check", "--fast", "a"], "unknown option --fast"),
    (&["check", "--help=a"], "unknown option --help=a"),
    (&["check", "--=a"], "unknown option --=a"),
    (&["check", "a", "--jobs"], "--jobs needs a number"),
    (&["check", "a", "--jobs", "0"], "--jobs 0: not a number from 1 to 256"),
    (&["check", "a", "--jobs=257"], "--jobs 257: not a number from 1 to 256"),
    (&["check", "a", "--jobs="], "--jobs needs a number"),
    (&["--jobs", "check", "a"], "--jobs check: not a number from 1 to 256"),
    (&["check", "--jobs", "2", "a", "--jobs=2"], "--jobs is given twice"),
    (&["check", "a", "--to", "b"], "check takes no --to"),
    (&["diff", "a", "b", "--jobs", "2"], "diff takes no --jobs"),
    (&["--to", "b", "diff", "a", "b"], "diff takes no --to"),
    (&["deblock", "a"], "deblock takes IN OUT or --to DIR IN..., and 1 argument was given"),
    (&["deblock", "a", "b", "c"], "deblock takes IN OUT or --to DIR IN..., and 3 arguments were given"),
    (&["deblock", "--to", "a"], "deblock takes IN OUT or --to DIR IN..., and nothing was given"),
    (&["diff", "a", "b", "c"], "diff takes A B, and 3 arguments were given"),
    (&["convert"], "convert takes IN OUT or --to DIR IN..., and nothing was given"),
    (&["convert", "a"], "convert takes IN OUT or --to DIR IN..., and 1 argument was given"),
    (&["convert", "a", "b", "c"], "convert takes IN OUT or --to DIR IN..., and 3 arguments were given"),
    (&["convert", "--to", "a"], "convert takes IN OUT or --to DIR IN..., and nothing was given"),
    (&["convert", "a", "b", "--jobs", "none"], "--jobs none: not a number from 1 to 256"),
    (&["checksum"], "checksum takes IN..., and nothing was given"),
    (&["checksum", "a", "--to", "b"], "checksum takes no --to"),
    (&["checksums", "a"], "unknown command checksums"),
    (&["pixel"], "pixel takes IN COLUMN ROW, and nothing was given"),
    (&["pixel", "a", "1"], "pixel takes IN COLUMN ROW, and 2 arguments were given"),
    (&["pixel", "a", "1", "2", "3"], "pixel takes IN COLUMN ROW, and 4 arguments were given"),
    (&["pixel", "a", "x", "2"], "COLUMN x: not a number from 0 to 4294967295"),
    (&["pixel", "a", "1", "2x"], "ROW 2x: not a number from 0 to 4294967295"),
    (&["pixel", "a", "x", "y"], "COLUMN x: not a number from 0 to 4294967295"),
    (&["pixel", "1", "2", "a"], "ROW a: not a number from 0 to 4294967295"),
    (&["pixel", "a", "", "2"], "COLUMN : not a number from 0 to 4294967295"),
    (&["pixel", "a", "1", " 2"], "ROW  2: not a number from 0 to 4294967295"),
    (&["pixel", "a", "+1", "2"], "COLUMN +1: not a number from 0 to 4294967295"),
    (&["pixel", "a", "1.0", "2"], "COLUMN 1.0: not a number from 0 to 4294967295"),
    (&["pixel", "a", "0x1", "2"], "COLUMN 0x1: not a number from 0 to 4294967295"),
    (&["pixel", "a", "\u{661}", "2"], "COLUMN \u{661}: not a number from 0 to 4294967295"),
    (&["pixel", "a", "1", "4294967296"], "ROW 4294967296: not a number from 0 to 4294967295"),
    (&["pixel", "a", "-1", "2"], "unknown option -1"),
    (&["pixel", "a", "1", "--", "-2"], "ROW -2: not a number from 0 to 4294967295"),
    (&["pixel", "a", "1", "2", "--jobs", "2"], "pixel takes no --jobs"),
    (&["pixel", "a", "1", "2", "--to", "b"], "pixel takes no --to"),
    (&["deblock", "--to"], "--to needs a folder"),
    (&["deblock", "--to=", "a"], "--to needs a folder"),
    (&["deblock", "--to", "b", "--to", "c", "a"], "--to is given twice"),
];

#[test]
fn bad_usage_gets_one_line() {
    let at = folder("usage");
    for &(words, why) in BAD {
        let ran = tinladle(&at, words);
        assert_eq!((ran.status, ran.out.as_str()), (2, ""), "{words:?}");
        assert_eq!(ran.err, format!("tinladle: {why} (tinladle --help lists the commands)\n"));
    }
    assert_eq!(fs::read_dir(&at).unwrap().count(), 0, "no folder is made");
}

#[test]
fn a_value_may_stand_behind_an_equals_sign() {
    let at = folder("equals");
    store(&at.join("a.pic"), s1());
    store(&at.join("b=c.pic"), s1());
    let ran = tinladle(&at, &["deblock", "--jobs=2", "--to=out=1", "a.pic", "b=c.pic"]);
    assert_eq!((ran.status, ran.err.as_str()), (0, ""));
    for name in ["a.pic", "b=c.pic"] {
        assert_eq!(load(&at.join("out=1").join(name)), s1_filtered());
    }
    // A folder's name need not be UTF-8.
    let (option, name) = (OsStr::from_bytes(b"--to=\xff"), OsStr::from_bytes(b"\xff"));
    let words = [OsString::from("deblock"), option.into(), "a.pic".into()];
    assert_eq!(tinladle(&at, &words[..]).status, 0);
    assert_eq!(load(&at.join(name).join("a.pic")), s1_filtered());
}

#[test]
fn after_two_dashes_nothing_is_an_option() {
    let at = folder("dashes");
    for name in ["-a.pic", "--jobs=2"] {
        store(&at.join(name), s1());
    }
    for words in [&["check", "--", "-a.pic", "--jobs=2"][..], &["--jobs", "2", "--", "check", "-a.pic", "--jobs=2"]] {
        let ran = tinladle(&at, words);
        assert_eq!((ran.status, ran.out.as_str()), (0, "-a.pic: accepted\n--jobs=2: accepted\n"), "{words:?}");
    }
}

#[test]
fn options_stand_anywhere() {
    let at = folder("anywhere");
    store(&at.join("a.pic"), s1());
    for words in [
        ["--jobs", "2", "deblock", "--to", "out", "a.pic"],
        ["--to", "out", "deblock", "a.pic", "--jobs", "2"],
        ["--jobs", "2", "--to", "out", "deblock", "a.pic"],
        ["deblock", "--jobs", "2", "a.pic", "--to", "out"],
    ] {
        let ran = tinladle(&at, &words);
        assert_eq!((ran.status, ran.err.as_str()), (0, ""), "{words:?}");
        assert_eq!(load(&at.join("out/a.pic")), s1_filtered());
        fs::remove_dir_all(at.join("out")).unwrap();
    }
}
