//! A refusal: its number, its place, and words for both.

use std::error::Error;
use std::fmt;

/// The causes with their numbers and, from the same rows, the list of them all. A new cause is a row here; the
/// compiler then asks for its words.
macro_rules! causes {
    ($($(#[$note:meta])* $name:ident = $number:literal,)*) => {
        /// The causes of a refusal, each with its own number; they are looked for in the order of the numbers.
        /// [`deblock`](crate::deblock) looks for 1 to 10, [`checksum`](crate::checksum) for 1, 2, 3, 6 and 10,
        /// [`pixel`](crate::pixel) for these and then 14, [`sample`](crate::sample) for 3 and then 15.
        #[derive(Clone, Copy, Debug, PartialEq, Eq, Hash, PartialOrd, Ord)]
        #[repr(u32)]
        #[non_exhaustive]
        pub enum Cause {
            $($(#[$note])* $name = $number,)*
        }

        impl Cause {
            const ALL: &[Cause] = &[$(Cause::$name,)*];
        }
    };
}

causes! {
    /// 1: width or height not allowed.
    Size = 1,
    /// 2: the chroma format is above 3.
    ChromaFormat = 2,
    /// 3: a depth outside 8 to 16.
    Depth = 3,
    /// 4: log2 of the CTB size outside 4 to 6.
    CtbSize = 4,
    /// 5: a chroma offset outside -12 to 12.
    ChromaOffset = 5,
    /// 6: a plane or list not of its length.
    Length = 6,
    /// 7: a slice out of range; the place is the first such slice.
    Slice = 7,
    /// 8: a tile start out of rule; the place is the first such entry, the rows numbered on after the columns.
    TileStart = 8,
    /// 9: a cell out of range, with a bS above 0 that lacks its edge flag, or with a slice not in the list; the place
    /// is the first such cell.
    Cell = 9,
    /// 10: a given sample above its largest; the place is the first such, counted through Y, Cb, Cr.
    Sample = 10,
    /// 14: the pixel lies outside the picture.
    Pixel = 14,
    /// 15: a float that no sample gives.
    Float = 15,
}

impl Cause {
    /// The refusal's number.
    pub const fn number(self) -> u32 {
        self as u32
    }

    /// The cause of a number; `None` where there is no such refusal.
    pub fn of_number(number: u32) -> Option<Cause> {
        Cause::ALL.iter().copied().find(|cause| cause.number() == number)
    }
}

/// Why a picture was not filtered, its planes have no checksums, a pixel no parts or a float no sample. No output
/// sample was written.
///
/// Number and place are the library's own answer. The detail is read off what was given, at that place, for people.
#[derive(Clone, Debug, PartialEq, Eq)]
pub struct Refusal {
    cause: Cause,
    place: u64,
    detail: String,
}

impl Refusal {
    /// A C function's answer, number and place: 0 is acceptance. Of a refusal the words are asked for.
    pub(crate) fn or_accepted(answer: (u32, u64), words: impl FnOnce(Cause, u64) -> String) -> Result<(), Self> {
        let (number, place) = answer;
        if number == 0 {
            return Ok(());
        }
        let cause = Cause::of_number(number).expect("the library answers 0 or a cause's number: its contract");
        Err(Refusal { cause, place, detail: words(cause, place) })
    }

    /// The cause's number; of [`deblock`](crate::deblock) 1 to 10, of [`checksum`](crate::checksum) one of 1, 2, 3, 6
    /// and 10, of [`pixel`](crate::pixel) one of these and 14, of [`sample`](crate::sample) 3 or 15.
    pub fn number(&self) -> u32 {
        self.cause.number()
    }

    /// Where: a slice, a tile start, a cell or a sample; 0 for refusals 1 to 6, 14 and 15.
    pub fn place(&self) -> u64 {
        self.place
    }

    /// What is wrong.
    pub fn cause(&self) -> Cause {
        self.cause
    }

    /// What stands at the place, in words.
    pub fn detail(&self) -> &str {
        &self.detail
    }
}

impl fmt::Display for Refusal {
    fn fmt(&self, f: &mut fmt::Formatter<'_>) -> fmt::Result {
        write!(f, "refused {}: ", self.number())?;
        match self.cause {
            Cause::Size => f.write_str("width or height is not allowed"),
            Cause::ChromaFormat => f.write_str("the chroma format is above 3"),
            Cause::Depth => f.write_str("a depth is outside 8 to 16"),
            Cause::CtbSize => f.write_str("log2 of the CTB size is outside 4 to 6"),
            Cause::ChromaOffset => f.write_str("a chroma offset is outside -12 to 12"),
            Cause::Length => f.write_str("a plane or list is not of its length"),
            Cause::Slice => write!(f, "slice {} is out of range", self.place),
            Cause::TileStart => write!(f, "tile start {} is out of rule", self.place),
            Cause::Cell => write!(f, "cell {} is out of rule", self.place),
            Cause::Sample => write!(f, "sample {} is above its largest", self.place),
            Cause::Pixel => f.write_str("the pixel lies outside the picture"),
            Cause::Float => f.write_str("no sample gives the float"),
        }?;
        if self.detail.is_empty() { Ok(()) } else { write!(f, ": {}", self.detail) }
    }
}

impl Error for Refusal {}
