//! The farthest move in each plane, beside its bound, as text.

use super::table::line;
use tinladle::moves::{Farthest, farthest};
use tinladle::{Plane, Settings};

/// Between two pictures of one size.
pub struct FarthestMoves {
    /// The farthest in each plane; `None` where nothing differs.
    found: [Option<Farthest>; 3],
    /// The bound, the farthest that filtering moves a sample; `None` where there is no such plane.
    bounds: [Option<u32>; 3],
}

fn or_dash(number: Option<u32>) -> String {
    number.map_or("-".into(), |number| number.to_string())
}

impl FarthestMoves {
    pub fn of(settings: &Settings, a: [&[u16]; 3], b: [&[u16]; 3]) -> Self {
        let found = |plane| farthest(settings, plane, a[plane as usize], b[plane as usize]);
        let bound = |plane| settings.scale(plane).map(|_| settings.move_bound(plane));
        FarthestMoves { found: Plane::ALL.map(found), bounds: Plane::ALL.map(bound) }
    }

    /// The lines below a table of counts. Column and row have a line each: together they would fill the table's column
    /// in a large picture.
    pub fn text(&self) -> String {
        let each = |number: fn(Farthest) -> u32| self.found.map(|found| or_dash(found.map(number)));
        let lines = [
            line("farthest move", each(|found| found.distance)),
            line("  at column", each(|found| found.column)),
            line("  at row", each(|found| found.row)),
            line("filtering moves at most", self.bounds.map(or_dash)),
        ];
        lines.concat()
    }

    /// The planes in which a sample is farther than filtering moves one.
    pub fn too_far(&self) -> Vec<Plane> {
        let distance = |plane: Plane| self.found[plane as usize].map(|found| found.distance);
        Plane::ALL.into_iter().filter(|&plane| distance(plane) > self.bounds[plane as usize]).collect()
    }
}
