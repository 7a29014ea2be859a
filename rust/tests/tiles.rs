//! Tiles and the cut of document 01, and term 3.

mod common;

use common::{FORMATS, colour, edges, flat, run, samples};
use tinladle::cut::{CutError, Tile, apart, cut, differing, tiles};
use tinladle::{Cells, ChromaFormat, PictureBuf, Settings};

/// 40 by 24, CTB 16, columns 0, 1, 2 and rows 0, 1: the last tiles are half a CTB. Every sample is another than its
/// neighbours.
fn tiled(format: ChromaFormat) -> PictureBuf {
    let mut picture = flat(Settings::new(40, 24, format), edges(43));
    let noise = |x: usize, y: usize| 100 + ((x * 7 + y * 13 + (x / 8) * 5 + (y / 8) * 3) % 11) as u16;
    let sizes = tinladle::Plane::ALL.map(|plane| picture.settings.plane_size(plane));
    let [y, cb, cr] = sizes.map(|(columns, rows)| samples(columns as usize, rows as usize, noise));
    picture.planes = tinladle::PlanesBuf { y, cb, cr };
    let mut cells = Cells::filled(&picture.settings, edges(43));
    // Lossless just left of a tile border and just right of one.
    cells.set(3, 1, edges(30).lossless());
    cells.set(8, 2, edges(30).lossless());
    picture.cells = cells.as_bytes().to_vec();
    picture.tile_columns = vec![0, 1, 2];
    picture.tile_rows = vec![0, 1];
    picture
}

#[test]
fn tiles_cover_the_picture() {
    let found = tiles(&tiled(ChromaFormat::Yuv420).picture());
    let places: Vec<_> = found.iter().map(|t| (t.column, t.row, t.x, t.y, t.width, t.height)).collect();
    let wanted = [
        (0, 0, 0, 0, 16, 16),
        (1, 0, 16, 0, 16, 16),
        (2, 0, 32, 0, 8, 16),
        (0, 1, 0, 16, 16, 8),
        (1, 1, 16, 16, 16, 8),
        (2, 1, 32, 16, 8, 8),
    ];
    assert_eq!(places, wanted);
}

#[test]
fn the_cut_keeps_samples_and_cells() {
    let picture = tiled(ChromaFormat::Yuv420);
    let tile = tiles(&picture.picture())[5];
    let alone = cut(&picture.picture(), &tile).unwrap();
    assert_eq!(alone.settings, Settings { width: 8, height: 8, ..picture.settings });
    assert_eq!(alone.planes.y, samples(8, 8, |x, y| picture.planes.y[(y + 16) * 40 + x + 32]));
    assert_eq!(alone.planes.cb, samples(4, 4, |x, y| picture.planes.cb[(y + 8) * 20 + x + 16]));
    assert_eq!(alone.planes.cr, samples(4, 4, |x, y| picture.planes.cr[(y + 8) * 20 + x + 16]));
    let cell = |column: usize, row: usize| &picture.cells[8 * (row * 10 + column)..][..8];
    assert_eq!(alone.cells, [cell(8, 4), cell(9, 4), cell(8, 5), cell(9, 5)].concat());
    assert_eq!((&alone.slices, &alone.tile_columns, &alone.tile_rows), (&picture.slices, &vec![0], &vec![0]));
}

#[test]
fn term_3_is_0_in_every_format() {
    for format in FORMATS {
        let picture = tiled(format);
        let finished = run(&picture).unwrap();
        assert_ne!(finished, picture.planes, "{format:?}: the filter moves something");
        for tile in tiles(&picture.picture()) {
            assert_eq!(apart(&picture.picture(), &finished, &tile), Ok(0), "{format:?} {tile:?}");
        }
    }
}

#[test]
fn term_3_counts_what_differs() {
    let picture = tiled(ChromaFormat::Yuv420);
    let mut finished = run(&picture).unwrap();
    finished.y[0] ^= 1;
    finished.cb[1] ^= 1;
    let tiles = tiles(&picture.picture());
    assert_eq!(apart(&picture.picture(), &finished, &tiles[0]), Ok(2));
    assert_eq!(apart(&picture.picture(), &finished, &tiles[1]), Ok(0));
}

#[test]
fn samples_are_counted_in_their_tile_and_plane() {
    let picture = tiled(ChromaFormat::Yuv422);
    let mut other = picture.planes.clone();
    // Luma column 16, row 15: tile 1. Cb column 7, row 16: luma column 14, so tile 3. Cr's last sample: tile 5.
    other.y[15 * 40 + 16] += 1;
    other.cb[16 * 20 + 7] += 1;
    *other.cr.last_mut().unwrap() += 1;
    let count = |tile: &Tile| differing(&picture.settings, tile, picture.planes.samples(), other.samples());
    let counts: Vec<_> = tiles(&picture.picture()).iter().map(count).collect();
    assert_eq!(counts, [[0; 3], [1, 0, 0], [0; 3], [0, 1, 0], [0; 3], [0, 0, 1]]);
}

#[test]
fn a_tile_outside_the_picture_is_no_cut() {
    let tile = Tile { column: 0, row: 0, x: 8, y: 8, width: 16, height: 16 };
    let picture = colour();
    assert_eq!(cut(&picture.picture(), &tile), Err(CutError::NoTile));
    assert_eq!(apart(&picture.picture(), &picture.planes, &tile), Err(CutError::NoTile));
    // Numbers at the ends of their types, where a careless sum or product would wrap.
    let far = Tile { x: u32::MAX, y: u32::MAX, width: u32::MAX, height: u32::MAX, ..tile };
    let mut wide = colour();
    (wide.settings.width, wide.settings.height) = (u32::MAX, u32::MAX);
    for picture in [colour(), wide] {
        assert_eq!(cut(&picture.picture(), &far), Err(CutError::NoTile));
    }
}

#[test]
fn a_cut_may_be_refused() {
    // Four columns are no picture. The tiles of an accepted picture are never so.
    let tile = Tile { column: 0, row: 0, x: 0, y: 0, width: 4, height: 8 };
    let picture = colour();
    let error = apart(&picture.picture(), &picture.planes, &tile).unwrap_err();
    assert_eq!(error.to_string(), "refused 1: width or height is not allowed: width 4");
}
