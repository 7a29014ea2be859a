//! Which edges are filtered: the rules that nothing is refused for, as the crate's page and include/tinladle.h have
//! them.

mod common;

use common::{FORMATS, flat, run, samples};
use tinladle::{Bs, Cell, Cells, ChromaFormat, PictureBuf, Plane, Settings};

const SIDE: u32 = 48;
/// Before and after a step in luma, and what S1 of document 01 makes of it; K1's in chroma.
const LUMA: (u16, u16, &[u16]) = (100, 104, &[100, 101, 101, 102, 103, 103, 104, 104]);
const CHROMA: (u16, u16, &[u16]) = (50, 60, &[54, 56]);

/// Columns are rows, and rows columns, where an edge is horizontal.
fn turn(horizontal: bool, x: usize, y: usize) -> (usize, usize) {
    if horizontal { (y, x) } else { (x, y) }
}

/// By what luma positions are divided across an edge in a plane, and along it.
fn scales(picture: &PictureBuf, plane: Plane, horizontal: bool) -> (usize, usize) {
    let (columns, rows) = picture.settings.scale(plane).unwrap();
    turn(horizontal, columns as usize, rows as usize)
}

/// A picture with a step in every plane where a luma column (row) of cells begins, at QP 37.
fn stepped(format: ChromaFormat, horizontal: bool, column: usize) -> PictureBuf {
    let mut picture = flat(Settings::new(SIDE, SIDE, format), Cell::new(37).unwrap());
    let [y, cb, cr] = Plane::ALL.map(|plane| plane_of(&picture, plane, horizontal, column, |_| false));
    picture.planes = tinladle::PlanesBuf { y, cb, cr };
    picture
}

/// A plane with that step, filtered on the lines along it that `filtered` names.
fn plane_of(
    picture: &PictureBuf,
    plane: Plane,
    horizontal: bool,
    column: usize,
    filtered: impl Fn(usize) -> bool,
) -> Vec<u16> {
    let (width, height) = picture.settings.plane_size(plane);
    if width == 0 {
        return Vec::new();
    }
    let (low, high, moved) = if plane == Plane::Y { LUMA } else { CHROMA };
    let at = 4 * column / scales(picture, plane, horizontal).0;
    samples(width as usize, height as usize, |x, y| {
        let (across, along) = turn(horizontal, x, y);
        let within = (across + moved.len() / 2).checked_sub(at).and_then(|i| moved.get(i));
        match within {
            Some(&sample) if filtered(along) => sample,
            _ if across < at => low,
            _ => high,
        }
    })
}

/// Sets the edge of the cells in a column, from the first row to the end; of a row of cells where the edge is
/// horizontal.
fn set_edge(picture: &mut PictureBuf, horizontal: bool, column: usize, rows: std::ops::Range<usize>, bs: Bs) {
    let mut cells = Cells::filled(&picture.settings, Cell::new(37).unwrap());
    let plain = Cell::new(37).unwrap();
    let cell = if horizontal { plain.top_edge(bs) } else { plain.left_edge(bs) };
    for row in rows {
        let (x, y) = turn(horizontal, column, row);
        cells.set(x, y, cell);
    }
    picture.cells = cells.as_bytes().to_vec();
}

/// Each plane is filtered on the lines that are named, and nowhere else.
fn expect(picture: &PictureBuf, horizontal: bool, column: usize, filtered: impl Fn(Plane, usize) -> bool, what: &str) {
    let out = run(picture).unwrap();
    for plane in Plane::ALL {
        let wanted = plane_of(picture, plane, horizontal, column, |along| filtered(plane, along));
        assert_eq!(out.plane(plane), wanted, "{plane}: {what}");
    }
}

#[test]
fn edges_lie_on_the_multiples_of_8_of_each_plane_and_chroma_wants_bs_2() {
    for (format, horizontal) in FORMATS.into_iter().flat_map(|format| [(format, false), (format, true)]) {
        for (column, bs) in (0..12).flat_map(|column| [Bs::Zero, Bs::One, Bs::Two].map(|bs| (column, bs))) {
            let mut picture = stepped(format, horizontal, column);
            set_edge(&mut picture, horizontal, column, 0..12, bs);
            let filtered = |plane, _| {
                let at = 4 * column / scales(&picture, plane, horizontal).0;
                at > 0 && at.is_multiple_of(8) && bs as u8 >= if plane == Plane::Y { 1 } else { 2 }
            };
            let what = format!("{format:?}, {bs:?}, cell {column}, horizontal {horizontal}");
            expect(&picture, horizontal, column, filtered, &what);
        }
    }
}

#[test]
fn the_border_is_no_edge() {
    // A step in the middle, without an edge there: were column 0 filtered against the end of the row before, or row 0
    // against the last row, samples would move.
    for (format, horizontal) in FORMATS.into_iter().flat_map(|format| [(format, false), (format, true)]) {
        let mut picture = stepped(format, horizontal, 6);
        set_edge(&mut picture, horizontal, 0, 0..12, Bs::Two);
        assert_eq!(run(&picture).unwrap(), picture.planes, "{format:?}, horizontal {horizontal}");
    }
}

#[test]
fn the_first_of_two_cells_counts_in_chroma() {
    for (format, horizontal) in FORMATS.into_iter().flat_map(|format| [(format, false), (format, true)]) {
        // The edge at luma 16 on one of twelve cells along it.
        for row in 0..12 {
            let mut picture = stepped(format, horizontal, 4);
            set_edge(&mut picture, horizontal, 4, row..row + 1, Bs::Two);
            let filtered = |plane, along| {
                // Four samples, along / 4 of the plane, by the cell in which they begin.
                let first = along / 4 * 4 * scales(&picture, plane, horizontal).1;
                first / 4 == row
            };
            let what = format!("{format:?}, cell {row} along, horizontal {horizontal}");
            expect(&picture, horizontal, 4, filtered, &what);
        }
    }
}

#[test]
fn a_stream_that_filters_across_its_tiles_is_passed_as_one_tile() {
    for (format, horizontal) in FORMATS.into_iter().flat_map(|format| [(format, false), (format, true)]) {
        let mut picture = stepped(format, horizontal, 4);
        set_edge(&mut picture, horizontal, 4, 0..12, Bs::Two);
        expect(&picture, horizontal, 4, |_, _| true, "one tile");
        let starts = if horizontal { &mut picture.tile_rows } else { &mut picture.tile_columns };
        *starts = vec![0, 1];
        expect(&picture, horizontal, 4, |_, _| false, "a tile border at luma 16");
    }
}
