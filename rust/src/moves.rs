//! How far samples moved: the farthest of a plane, and where it is. How far the filter moves one at the most is
//! [`Settings::move_bound`].

use crate::settings::{Plane, Settings};

/// The farthest move of a plane.
#[derive(Clone, Copy, Debug, PartialEq, Eq)]
pub struct Farthest {
    /// How far, up or down: above 0.
    pub distance: u32,
    /// The column of the sample that moved so far, in its plane's own samples, from 0.
    pub column: u32,
    /// Its row, likewise.
    pub row: u32,
}

/// The farthest move between two planes of one picture's size, at the first sample, row by row, that is so far from
/// the other; `None` where no sample differs.
///
/// Lists of any lengths are allowed. Compared are the samples that both lists hold and the picture's plane has: none
/// where the format has no such plane.
///
/// ```
/// use tinladle::moves::{Farthest, farthest};
/// use tinladle::{ChromaFormat, Plane, Settings};
///
/// let settings = Settings::new(8, 8, ChromaFormat::Monochrome);
/// let before = vec![100; 64];
/// let mut after = before.clone();
/// (after[3], after[10], after[20]) = (101, 95, 105); // 5 down in column 2, row 1; 5 up in column 4, row 2
/// let found = farthest(&settings, Plane::Y, &before, &after);
/// assert_eq!(found, Some(Farthest { distance: 5, column: 2, row: 1 }));
/// assert_eq!(farthest(&settings, Plane::Y, &before, &before), None);
/// ```
pub fn farthest(settings: &Settings, plane: Plane, before: &[u16], after: &[u16]) -> Option<Farthest> {
    let (columns, rows) = settings.plane_size(plane);
    if columns == 0 {
        return None;
    }
    let pairs = before.chunks(columns as usize).zip(after.chunks(columns as usize));
    let mut found: Option<Farthest> = None;
    for (row, (one, other)) in (0..rows).zip(pairs) {
        let distances = || one.iter().zip(other).map(|(p, q)| u32::from(p.abs_diff(*q)));
        // Of most rows nothing but this is asked: that it is no farther than what was found above it.
        let distance = distances().max().unwrap_or(0);
        if distance > found.map_or(0, |above| above.distance) {
            let column = distances().take_while(|&nearer| nearer < distance).count() as u32;
            found = Some(Farthest { distance, column, row });
        }
    }
    found
}
