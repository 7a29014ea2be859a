//! How far samples move, by document 02's C-23: the bound, the farthest of a plane, a picture that goes as far as the
//! bound, and the stored pictures within it.

mod common;

use std::collections::BTreeSet;

use common::stored::records;
use common::{FORMATS, edges, flat, run, run_into, samples};
use tinladle::moves::{Farthest, farthest};
use tinladle::{ChromaFormat, PictureBuf, Plane, PlanesBuf, Settings, Slice};

/// Depth, and how far luma and chroma move at the most. The last six depths are no picture's.
const BOUNDS: [(u32, u32, u32); 15] = [
    (8, 96, 48),
    (9, 192, 96),
    (10, 384, 192),
    (11, 768, 384),
    (12, 1536, 768),
    (13, 3072, 1536),
    (14, 6144, 3072),
    (15, 12288, 6144),
    (16, 24576, 12288),
    (0, 96, 48),
    (7, 96, 48),
    (17, 24576, 12288),
    (32, 24576, 12288),
    (40, 24576, 12288),
    (u32::MAX, 24576, 12288),
];

#[test]
fn the_bound_is_96_and_48_at_depth_8_and_doubles() {
    for (luma_depth, luma, _) in BOUNDS {
        for (chroma_depth, _, chroma) in BOUNDS {
            for format in FORMATS {
                let settings = Settings { luma_depth, chroma_depth, ..Settings::new(8, 8, format) };
                let bounds = Plane::ALL.map(|plane| settings.move_bound(plane));
                assert_eq!(bounds, [luma, chroma, chroma], "{format:?}, depths {luma_depth} and {chroma_depth}");
            }
        }
    }
}

/// The farthest in luma of 8 by 8 samples of 100 with some of them, each by its number, another.
fn of_flat(others: &[(usize, u16)]) -> Option<Farthest> {
    let settings = Settings::new(8, 8, ChromaFormat::Monochrome);
    let before = vec![100; 64];
    let mut after = before.clone();
    for &(number, sample) in others {
        after[number] = sample;
    }
    let found = farthest(&settings, Plane::Y, &before, &after);
    assert_eq!(farthest(&settings, Plane::Y, &after, &before), found, "the other way round");
    found
}

fn at(distance: u32, column: u32, row: u32) -> Option<Farthest> {
    Some(Farthest { distance, column, row })
}

#[test]
fn the_farthest_is_found_where_it_is() {
    assert_eq!(of_flat(&[]), None);
    assert_eq!(of_flat(&[(0, 101)]), at(1, 0, 0));
    assert_eq!(of_flat(&[(63, 99)]), at(1, 7, 7), "the last sample");
    assert_eq!(of_flat(&[(7, 98), (8, 103)]), at(3, 0, 1), "farther up than down");
    assert_eq!(of_flat(&[(7, 97), (8, 102)]), at(3, 7, 0), "farther down than up");
    assert_eq!(of_flat(&[(0, 0), (63, 65535)]), at(65435, 7, 7));
    assert_eq!(of_flat(&[(27, 65535), (28, 0)]), at(65435, 3, 3));
}

#[test]
fn of_equally_far_ones_it_is_the_first() {
    assert_eq!(of_flat(&[(17, 105), (18, 95)]), at(5, 1, 2), "in one row");
    assert_eq!(of_flat(&[(23, 95), (24, 105)]), at(5, 7, 2), "in two rows");
    // Row 5 is before row 6, though its column is behind.
    assert_eq!(of_flat(&[(2, 104), (46, 95), (48, 105), (63, 95)]), at(5, 6, 5));
}

#[test]
fn each_plane_has_its_own_columns_and_rows() {
    // Sample 100 of a plane that is 32, 16, 16 or 32 columns wide; none without the plane.
    let chroma = [None, at(7, 4, 6), at(7, 4, 6), at(7, 4, 3)];
    for (format, wanted) in FORMATS.into_iter().zip(chroma) {
        let settings = Settings::new(32, 16, format);
        let before = vec![0; 512];
        let mut after = before.clone();
        after[100] = 7;
        for (plane, wanted) in [(Plane::Y, at(7, 4, 3)), (Plane::Cb, wanted), (Plane::Cr, wanted)] {
            assert_eq!(farthest(&settings, plane, &before, &after), wanted, "{format:?}, {plane}");
        }
    }
}

#[test]
fn only_what_both_lists_and_the_plane_hold_is_compared() {
    let settings = Settings::new(8, 8, ChromaFormat::Monochrome);
    // Sample i is i + 1 from 0, so that the last that is compared is the farthest.
    let rising: Vec<u16> = (1..=100).collect();
    let zeros = vec![0; 100];
    let cases =
        [(0, None), (1, at(1, 0, 0)), (8, at(8, 7, 0)), (12, at(12, 3, 1)), (64, at(64, 7, 7)), (65, at(64, 7, 7))];
    for (length, wanted) in cases {
        for (one, other) in [(&rising[..length], &zeros[..]), (&zeros[..length], &rising[..])] {
            assert_eq!(farthest(&settings, Plane::Y, one, other), wanted, "{length} samples before");
            assert_eq!(farthest(&settings, Plane::Y, other, one), wanted, "{length} samples after");
        }
    }
    assert_eq!(farthest(&settings, Plane::Y, &rising, &zeros), at(64, 7, 7), "and no more than the plane has");
}

#[test]
fn settings_that_are_no_picture_are_answered() {
    let sizes = [(0, 8, None), (8, 0, None), (0, 0, None), (5, 1, at(5, 4, 0)), (u32::MAX, u32::MAX, at(9, 8, 0))];
    for (width, height, wanted) in sizes {
        let settings = Settings::new(width, height, ChromaFormat::Monochrome);
        let found = farthest(&settings, Plane::Y, &[1, 2, 3, 4, 5, 6, 7, 8, 9], &[0; 9]);
        assert_eq!(found, wanted, "{width} by {height}");
    }
    // A chroma plane of half a column, and one of a format that there is not.
    let settings = Settings::new(1, 8, ChromaFormat::Yuv420);
    assert_eq!(farthest(&settings, Plane::Cb, &[1; 8], &[0; 8]), None);
    let settings = Settings { chroma_format: 4, ..Settings::new(8, 8, ChromaFormat::Yuv420) };
    assert_eq!(farthest(&settings, Plane::Cb, &[1; 8], &[0; 8]), None);
}

/// A sample as at depth 8, by what it was: as it is, or 255 less it, in which every move goes the other way.
type Way = fn(u16) -> u16;
const UP: Way = |sample| sample;
const DOWN: Way = |sample| 255 - sample;

/// 32 by 32, every edge at bS 2 and QP 51 with offsets 6, so that tc is 24 and beta 64 at depth 8. Luma row 10 is 200
/// 200 255 200 | 200 255 0 200 across column 8, and chroma has a 0 next to both of its edges. At another depth all of
/// these are 2^(depth - 8) times as large.
fn farthest_picture(format: ChromaFormat, depth: u32, way: Way) -> PictureBuf {
    let settings = Settings { luma_depth: depth, chroma_depth: depth, ..Settings::new(32, 32, format) };
    let mut picture = flat(settings, edges(51));
    let sample = |sample| way(sample) << (depth - 8);
    picture.planes.y = samples(32, 32, |x, y| match (x, y) {
        (6 | 9, 10) => sample(255),
        (10, 10) => sample(0),
        _ => sample(200),
    });
    let (columns, rows) = settings.plane_size(Plane::Cb);
    picture.planes.cb =
        samples(columns as usize, rows as usize, |x, y| if (x, y) == (7, 7) { sample(0) } else { sample(200) });
    picture.planes.cr = picture.planes.cb.clone();
    picture.slices = Slice::new().beta_offset_div2(6).unwrap().tc_offset_div2(6).unwrap().to_bytes().to_vec();
    assert_eq!(picture.slices, [0, 12, 12, 1]);
    picture
}

/// The segment of row 10 is decided on by rows 8 and 11, which are flat: strong. The vertical pass makes the row, from
/// column 4, 200 207 214 221 | 196 207 48 200: the 0 would become 132 and is clipped to 2 * 24. The horizontal pass is
/// strong on columns 8 to 11, where column 8 is off by 4 in one sample; it would make the 48 a 143 and clips it to 96.
/// On columns 4 to 7 it is weak, since column 7 is off by 21, and moves nothing.
const LUMA: [(usize, usize, u16); 11] = [
    (9, 8, 201),
    (10, 8, 181),
    (8, 9, 199),
    (9, 9, 202),
    (10, 9, 162),
    (5, 10, 207),
    (6, 10, 214),
    (7, 10, 221),
    (8, 10, 199),
    (9, 10, 203),
    (10, 10, 96),
];

/// The vertical pass makes 0 | 200 in row 7 a 24 | 176. In the horizontal pass column 7 has a 24 above 200, which
/// becomes 48 above 176, and column 8 a 176, which goes half the way: 188 above 188.
const CHROMA: [(usize, usize, u16); 4] = [(7, 7, 48), (8, 7, 188), (7, 8, 176), (8, 8, 188)];

/// A plane of 200 but for these samples.
fn but_for(others: &[(usize, usize, u16)], (columns, rows): (u32, u32)) -> Vec<u16> {
    let other = |x, y| others.iter().find(|other| (other.0, other.1) == (x, y));
    samples(columns as usize, rows as usize, |x, y| other(x, y).map_or(200, |other| other.2))
}

#[test]
fn a_picture_that_goes_as_far_as_it_can_sample_by_sample() {
    for format in FORMATS {
        let picture = farthest_picture(format, 8, UP);
        let out = run(&picture).unwrap();
        let size = |plane| picture.settings.plane_size(plane);
        assert_eq!(out.y, but_for(&LUMA, size(Plane::Y)), "{format:?}");
        for plane in [Plane::Cb, Plane::Cr] {
            assert_eq!(out.plane(plane), but_for(&CHROMA, size(plane)), "{format:?}, {plane}");
        }
    }
}

#[test]
fn the_bound_is_met_at_every_depth_in_every_format_up_and_down() {
    for (depth, luma, chroma) in &BOUNDS[..9] {
        for (format, way) in FORMATS.into_iter().flat_map(|format| [(format, UP), (format, DOWN)]) {
            let picture = farthest_picture(format, *depth, way);
            let out = run(&picture).unwrap();
            let found = Plane::ALL
                .map(|plane| farthest(&picture.settings, plane, picture.planes.plane(plane), out.plane(plane)));
            let in_chroma = if format == ChromaFormat::Monochrome { None } else { at(*chroma, 7, 7) };
            assert_eq!(found, [at(*luma, 10, 10), in_chroma, in_chroma], "{format:?}, depth {depth}");
            // From 0 it goes up, from the largest that the picture has down.
            let moves_up = out.y[10 * 32 + 10] > picture.planes.y[10 * 32 + 10];
            assert_eq!(moves_up, way(0) == 0, "{format:?}, depth {depth}");
        }
    }
}

/// Whether any sample of an accepted picture moved; each must be in its range and no farther than the bound.
fn moves_within_the_bound(picture: &PictureBuf, finished: &PlanesBuf, name: &str) -> bool {
    let mut moved = false;
    for plane in Plane::ALL {
        let settings = &picture.settings;
        let (before, after) = (picture.planes.plane(plane), finished.plane(plane));
        let depth = settings.depth(plane);
        let most = if plane == Plane::Y { 96 } else { 48 } * 2u32.pow(depth - 8);
        for (number, (p, q)) in before.iter().zip(after).enumerate() {
            assert!(u32::from(*q) < 2u32.pow(depth), "{name}, {plane} sample {number}: {q}");
            assert!(u32::from(p.abs_diff(*q)) <= most, "{name}, {plane} sample {number}: {p} to {q}");
        }
        let found = farthest(settings, plane, before, after);
        assert_eq!(found.is_some(), before != after, "{name}, {plane}");
        moved |= found.is_some();
    }
    moved
}

#[test]
fn the_stored_pictures_stay_within_the_bound() {
    let (mut formats, mut depths) = (BTreeSet::new(), BTreeSet::new());
    for program in ["picture_cases", "real_pictures", "tile_cases", "far_pictures"] {
        let mut moving = 0;
        for (number, stored) in records(program).0.iter().enumerate() {
            let Ok(finished) = run_into(&stored.picture, stored.output_lengths) else { continue };
            if moves_within_the_bound(&stored.picture, &finished, &format!("{program}, record {}", number + 1)) {
                formats.insert(stored.picture.settings.chroma_format);
                depths.insert(stored.picture.settings.luma_depth);
                moving += 1;
            }
        }
        assert!(moving > 0, "{program}: samples move");
    }
    assert!(formats.into_iter().eq(0..4) && depths.into_iter().eq(8..=16), "in every format and at every depth");
}
