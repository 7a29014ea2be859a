//! The caller's words, sorted: the verb, its arguments, the options wherever they stand.

use std::ffi::{OsStr, OsString};
use std::os::unix::ffi::OsStrExt;
use std::path::{Path, PathBuf};

use super::options::{OPTIONS, Opt};

#[derive(Default)]
pub struct Words {
    /// The first word that is no option.
    pub verb: Option<OsString>,
    /// The other words that are no options.
    pub arguments: Vec<OsString>,
    /// The options that were given.
    pub given: Vec<&'static Opt>,
    /// The value of `--jobs`.
    pub jobs: Option<usize>,
    /// The value of `--to`.
    pub folder: Option<PathBuf>,
    pub help: bool,
    pub version: bool,
}

/// An option's name and what stands behind its `=`, which need not be UTF-8.
fn split(word: &OsStr) -> (&OsStr, Option<&OsStr>) {
    let bytes = word.as_bytes();
    match bytes.iter().position(|&byte| byte == b'=') {
        Some(at) => (OsStr::from_bytes(&bytes[..at]), Some(OsStr::from_bytes(&bytes[at + 1..]))),
        None => (word, None),
    }
}

impl Words {
    fn plain(&mut self, word: OsString) {
        if self.verb.is_none() {
            self.verb = Some(word);
        } else {
            self.arguments.push(word);
        }
    }

    /// An option with its value; of two values one would be lost without a word.
    fn option(&mut self, option: &'static Opt, value: Option<OsString>) -> Result<(), String> {
        if self.given.contains(&option) {
            return Err(format!("{} is given twice", option.name));
        }
        self.given.push(option);
        (option.take)(self, &value.unwrap_or_default())
    }

    /// The words, or one line that says what is wrong with them.
    pub fn sorted(words: Vec<OsString>) -> Result<Self, String> {
        let mut found = Words::default();
        let mut words = words.into_iter();
        while let Some(word) = words.next() {
            if !word.as_bytes().starts_with(b"-") {
                found.plain(word);
                continue;
            }
            let (name, behind) = split(&word);
            match (name.to_str(), behind) {
                (Some("--help" | "-h"), None) => found.help = true,
                (Some("--version"), None) => found.version = true,
                (Some("--"), None) => words.by_ref().for_each(|word| found.plain(word)),
                (name, _) => match OPTIONS.iter().find(|option| Some(option.name) == name) {
                    Some(option) => found.option(option, behind.map(OsString::from).or_else(|| words.next()))?,
                    None => return Err(format!("unknown option {}", word.display())),
                },
            }
        }
        Ok(found)
    }

    /// The arguments as files, as many as the verb's row in the table has.
    pub fn files<const N: usize>(&self) -> [&Path; N] {
        std::array::from_fn(|i| Path::new(&self.arguments[i]))
    }

    /// The argument at a place as a number, or words that say that it is none.
    pub fn number(&self, at: usize) -> Result<u32, String> {
        let word = self.arguments[at].as_os_str();
        // Parsing alone would take a sign.
        let digits = word.to_str().filter(|text| text.bytes().all(|byte| byte.is_ascii_digit()));
        let number = digits.and_then(|digits| digits.parse().ok());
        number.ok_or_else(|| format!("{}: not a number from 0 to {}", word.display(), u32::MAX))
    }

    /// All arguments as files.
    pub fn all_files(&self) -> Vec<&Path> {
        self.arguments.iter().map(Path::new).collect()
    }
}
