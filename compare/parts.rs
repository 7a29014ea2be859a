//! The parts of a run, in the order in which they are looked at.

use crate::floats;
use crate::options::Options;

/// Each part's numbers have a stream of the generator of their own, by this number; others are taken elsewhere.
#[derive(Clone, Copy)]
pub enum Part {
    /// Accepted pictures and then damaged ones.
    Pictures = 0,
    Lists = 2,
    Far = 4,
    Planes = 5,
    /// Samples that go there and back, the same in every run.
    Blocks = 6,
    Floats = 7,
}

impl Part {
    /// The part that a number of the run falls in, and its number there; that of a list counts the pictures too.
    pub fn of(options: &Options, number: u64) -> Option<(Part, u64)> {
        let pictures = options.accepted + options.damaged;
        let counts = [
            (Part::Pictures, pictures),
            (Part::Lists, options.accepted),
            (Part::Far, options.far),
            (Part::Planes, options.planes),
            (Part::Blocks, floats::BLOCKS),
            (Part::Floats, options.floats.div_ceil(floats::BATCH)),
        ];
        let mut own = number;
        for (part, count) in counts {
            if own < count {
                return Some((part, if let Part::Lists = part { number } else { own }));
            }
            own -= count;
        }
        None
    }
}
