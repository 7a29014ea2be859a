//! The tool: its words, its verbs, and how they are run.

mod allocator;
mod closed;
mod commands;
mod farthest;
mod help;
mod options;
mod output;
mod progress;
mod streams;
mod table;
mod verbs;
mod words;
mod work;

use std::ffi::OsString;
use std::process::ExitCode;

use streams::{BAD, complain, print};
use words::Words;

const VERSION: &str = concat!("tinladle ", env!("CARGO_PKG_VERSION"), "\n");

fn bad_usage(line: &str) -> u8 {
    complain(&format!("{line} (tinladle --help lists the commands)"));
    BAD
}

fn perform(words: &Words) -> u8 {
    if words.help || words.verb.as_deref().is_some_and(|verb| verb == "help") {
        return print(&help::text());
    }
    if words.version {
        return print(VERSION);
    }
    match verbs::meant_by(words) {
        Err(line) => bad_usage(&line),
        Ok(verb) => (verb.run)(words).unwrap_or_else(|line| {
            complain(&line);
            BAD
        }),
    }
}

/// Does what the words say, and answers with the exit status.
pub fn run(words: Vec<OsString>) -> ExitCode {
    let status = match Words::sorted(words) {
        Ok(words) => perform(&words),
        Err(line) => bad_usage(&line),
    };
    ExitCode::from(status)
}
