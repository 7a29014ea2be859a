//! The verbs: a row for each form of each. The help, the check of the arguments and the call come from these rows, so
//! that a new verb is a row here and a function in commands/.

use super::commands::{check, checksum, convert, deblock, diff, picture, pixel, tiles};
use super::options::{JOBS, Opt, TO};
use super::words::Words;
use crate::counted::counted;

/// What a verb answers: the exit status, or a line that says why nothing was done.
pub type Answer = Result<u8, String>;

/// A verb in one of its forms.
pub struct Verb {
    pub name: &'static str,
    /// The option that makes it this form.
    pub needs: Option<&'static Opt>,
    /// Its arguments, a word each; where the last ends in `...`, one or more of it. Those of `NUMBERS` are numbers, the
    /// others files.
    pub arguments: &'static str,
    /// The options that it may have besides.
    pub takes: &'static [&'static Opt],
    /// What it does, for the help.
    pub help: &'static str,
    pub run: fn(&Words) -> Answer,
}

pub static VERBS: &[Verb] = &[
    Verb {
        name: "deblock",
        needs: None,
        arguments: "IN OUT",
        takes: &[&JOBS],
        help: "filter the picture in IN and write it to OUT",
        run: deblock::run,
    },
    Verb {
        name: "deblock",
        needs: Some(&TO),
        arguments: "IN...",
        takes: &[&JOBS],
        help: "the same for several, each to its own name in DIR",
        run: deblock::run,
    },
    Verb {
        name: "check",
        needs: None,
        arguments: "IN...",
        takes: &[&JOBS],
        help: "the verdict on each picture, in words; nothing is written",
        run: check::run,
    },
    Verb {
        name: "diff",
        needs: None,
        arguments: "A B",
        takes: &[],
        help: "the samples that differ between two pictures, by tile and plane,\n\
               and the farthest move in each plane, beside the bound",
        run: diff::run,
    },
    Verb {
        name: "picture",
        needs: None,
        arguments: "IN OUT.ppm",
        takes: &[],
        help: "before, after and the moved samples marked, side by side;\n\
               the farther a sample moved, the brighter its mark",
        run: picture::run,
    },
    Verb {
        name: "tiles",
        needs: None,
        arguments: "IN...",
        takes: &[&JOBS],
        help: "each tile beside the same tile filtered alone: the samples\nthat differ, which are always 0",
        run: tiles::run,
    },
    Verb {
        name: "convert",
        needs: None,
        arguments: "IN OUT",
        takes: &[&JOBS],
        help: "copy IN to OUT with each bS set to 0 that has no edge flag",
        run: convert::run,
    },
    Verb {
        name: "convert",
        needs: Some(&TO),
        arguments: "IN...",
        takes: &[&JOBS],
        help: "the same for several, each to its own name in DIR",
        run: convert::run,
    },
    Verb {
        name: "checksum",
        needs: None,
        arguments: "IN...",
        takes: &[&JOBS],
        help: "the checksums of H.265, Annex D, of the planes as they stand:\n\
               one line a plane, eight hex digits, with several IN followed\n\
               by plane and file",
        run: checksum::run,
    },
    Verb {
        name: "pixel",
        needs: None,
        arguments: "IN COLUMN ROW",
        takes: &[],
        help: "a pixel of the planes as they stand, as 32-bit floats: one line\n\
               for each of luma, cb and cr, or for luma alone, with a fraction\n\
               over 2^depth, the float and its bits, eight hex digits",
        run: pixel::run,
    },
];

/// The arguments that are numbers.
const NUMBERS: [&str; 2] = ["COLUMN", "ROW"];

impl Verb {
    /// What follows the verb, as the help shows it.
    pub fn form(&self) -> String {
        match self.needs {
            Some(option) => format!("{} {} {}", option.name, option.value, self.arguments),
            None => self.arguments.into(),
        }
    }

    /// Whether it may have the option.
    pub fn has(&self, option: &Opt) -> bool {
        self.needs == Some(option) || self.takes.contains(&option)
    }

    fn is_meant_by(&self, words: &Words) -> bool {
        self.needs.is_none_or(|option| words.given.contains(&option)) && words.given.iter().all(|&o| self.has(o))
    }

    fn allows(&self, count: usize) -> bool {
        let named = self.arguments.split(' ').count();
        if self.arguments.ends_with("...") { count >= named } else { count == named }
    }

    /// Itself, where each argument that is to be a number is one.
    fn with_numbers(&self, words: &Words) -> Result<&Self, String> {
        for (at, name) in self.arguments.split(' ').enumerate().filter(|(_, name)| NUMBERS.contains(name)) {
            words.number(at).map_err(|why| format!("{name} {why}"))?;
        }
        Ok(self)
    }
}

/// The form of a verb that the words mean, or one line that says what is wrong with them.
pub fn meant_by(words: &Words) -> Result<&'static Verb, String> {
    let Some(name) = &words.verb else { return Err("no command".into()) };
    let forms: Vec<&Verb> = VERBS.iter().filter(|verb| name == verb.name).collect();
    let Some(first) = forms.first() else { return Err(format!("unknown command {}", name.display())) };
    if let Some(option) = words.given.iter().find(|&&option| !forms.iter().any(|form| form.has(option))) {
        return Err(format!("{} takes no {}", first.name, option.name));
    }
    match forms.iter().find(|form| form.is_meant_by(words) && form.allows(words.arguments.len())) {
        Some(form) => form.with_numbers(words),
        None => {
            let known: Vec<String> = forms.iter().map(|form| form.form()).collect();
            let given = match words.arguments.len() {
                0 => "nothing was".into(),
                count => counted(count as u64, "argument was", "arguments were"),
            };
            Err(format!("{} takes {}, and {given} given", first.name, known.join(" or ")))
        }
    }
}
