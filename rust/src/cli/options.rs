//! The options: a row each, from which the words are read and the help is written.

use std::ffi::OsStr;

use super::words::Words;

/// An option with a value.
pub struct Opt {
    pub name: &'static str,
    /// What the help calls its value.
    pub value: &'static str,
    /// What it means, for the help.
    pub help: &'static str,
    /// Takes the value, which is empty where there is none, or says what is wrong with it.
    pub take: fn(&mut Words, &OsStr) -> Result<(), String>,
}

impl PartialEq for Opt {
    fn eq(&self, other: &Opt) -> bool {
        self.name == other.name
    }
}

pub static TO: Opt =
    Opt { name: "--to", value: "DIR", help: "the folder to write to, made where it is missing", take: folder };

pub static JOBS: Opt = Opt {
    name: "--jobs",
    value: "N",
    help: "up to N pictures side by side, at most one to a processor; default 1",
    take: jobs,
};

/// All of them, as the help lists them.
pub static OPTIONS: &[&Opt] = &[&TO, &JOBS];

const MOST_JOBS: usize = 256;

fn folder(words: &mut Words, value: &OsStr) -> Result<(), String> {
    if value.is_empty() {
        return Err("--to needs a folder".into());
    }
    words.folder = Some(value.into());
    Ok(())
}

fn jobs(words: &mut Words, value: &OsStr) -> Result<(), String> {
    if value.is_empty() {
        return Err("--jobs needs a number".into());
    }
    match value.to_str().and_then(|text| text.parse().ok()) {
        Some(number @ 1..=MOST_JOBS) => {
            words.jobs = Some(number);
            Ok(())
        }
        _ => Err(format!("--jobs {}: not a number from 1 to {MOST_JOBS}", value.display())),
    }
}
