//! How far a sample went, of how far it may go: document 02, C-23.

use std::cmp::Ordering;
use std::fmt;

#[derive(Clone, Copy, Default)]
pub struct Share {
    pub moved: u32,
    pub bound: u32,
}

impl Share {
    /// The larger of two shares. Of equal ones it is that whose bound `equal` picks, the smaller or the larger, so that it does not matter
    /// which was seen first. Where the bound is 0 nothing may move, and there is no share.
    pub fn larger(self, other: Share, equal: fn(u32, u32) -> u32) -> Share {
        let part = |a: Share, b: Share| u64::from(a.moved) * u64::from(b.bound);
        match part(self, other).cmp(&part(other, self)) {
            _ if self.bound == 0 => other,
            _ if other.bound == 0 => self,
            Ordering::Less => other,
            Ordering::Equal if equal(self.bound, other.bound) == other.bound => other,
            _ => self,
        }
    }

    /// Whether the sample went as far as it may.
    pub fn is_whole(self) -> bool {
        self.bound > 0 && self.moved == self.bound
    }
}

/// In per cent too, rounded down: only a whole share is 100.0 %.
impl fmt::Display for Share {
    fn fmt(&self, f: &mut fmt::Formatter) -> fmt::Result {
        if self.bound == 0 {
            return write!(f, "none");
        }
        let tenths = 1000 * u64::from(self.moved) / u64::from(self.bound);
        write!(f, "{} of {} ({}.{} %)", self.moved, self.bound, tenths / 10, tenths % 10)
    }
}
