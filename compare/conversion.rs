//! Stored cell lists converted, so that no strength stands without its edge: document 02, C-14. Written from it alone; it shares nothing
//! with the library, and the ledger has the rule in words of its own.

use crate::picture::{CELL_BYTES, HORIZONTAL, Picture, VERTICAL};

/// A strength that may stay, which it may with its edge flag.
fn kept(flags: u8, edge: u8, strength: u8) -> u8 {
    if flags & edge == edge { strength } else { 0 }
}

/// The list with the other strengths 0. All else is copied, a last record that is not whole too.
pub fn list(cells: &[u8]) -> Vec<u8> {
    let mut made = Vec::with_capacity(cells.len());
    for record in cells.chunks(CELL_BYTES) {
        match *record {
            [qp, flags, vertical, horizontal, a, b, c, d] => {
                made.extend([qp, flags, kept(flags, VERTICAL, vertical), kept(flags, HORIZONTAL, horizontal), a, b, c, d])
            }
            _ => made.extend(record),
        }
    }
    made
}

pub fn picture(p: Picture) -> Picture {
    Picture { cells: list(&p.cells), ..p }
}

/// How many strengths a conversion zeroed.
pub fn zeroed(before: &[u8], after: &[u8]) -> u64 {
    before.iter().zip(after).filter(|(a, b)| a != b).count() as u64
}
