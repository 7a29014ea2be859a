//! The help, written from the tables of verbs and options.

use std::fmt::Write;

use super::options::{OPTIONS, Opt};
use super::verbs::VERBS;

const HEAD: &str = "tinladle: the HEVC deblocking filter on whole pictures\n";

const TAIL: &str = "\
Options stand anywhere. A value may also stand behind its option's equals sign: --jobs=N.

A file holds one picture: settings, planes, cells, slices and tile starts (rust/README.md has the
layout). One without slices is filtered as one slice with tc offset div2 -1. OUT is written whole or
not at all, and never over an IN, a write-protected file or what is no regular file. Work of more
than two seconds tells on standard error how far it is.

Exit status, the worst of all files: 0 accepted, and no difference, or converted; 1 refused, or a
difference; 2 a bad file or bad usage, not enough memory, or something that could not be written.
";

/// Rows of two columns, the second aligned and, where it has several lines, hanging.
fn columns(rows: &[(String, String)]) -> String {
    let width = rows.iter().map(|row| row.0.len()).max().unwrap_or(0) + 2;
    let mut text = String::new();
    for (left, right) in rows {
        for (i, line) in right.lines().enumerate() {
            // Writing to a string cannot fail.
            let _ = writeln!(text, "  {:<width$}{line}", if i == 0 { left } else { "" });
        }
    }
    text
}

/// The verbs that may have the option.
fn verbs_with(option: &Opt) -> String {
    let mut names: Vec<&str> = VERBS.iter().filter(|verb| verb.has(option)).map(|verb| verb.name).collect();
    names.dedup();
    names.join(", ")
}

pub fn text() -> String {
    let verb = |verb: &super::verbs::Verb| (format!("tinladle {} {}", verb.name, verb.form()), verb.help.into());
    let mut verbs: Vec<(String, String)> = VERBS.iter().map(verb).collect();
    verbs.push(("tinladle --help".into(), "this text".into()));
    verbs.push(("tinladle --version".into(), "the version".into()));
    let option = |o: &&Opt| (format!("{} {}", o.name, o.value), format!("{}\n(with {})", o.help, verbs_with(o)));
    let mut options: Vec<(String, String)> = OPTIONS.iter().map(option).collect();
    options.push(("--".into(), "what follows is no option, even where it begins with -".into()));
    [HEAD, &columns(&verbs), &columns(&options), TAIL].join("\n")
}
