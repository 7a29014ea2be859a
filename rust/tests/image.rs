//! The marks of moved samples: their colours, the farther the brighter.
//!
//! A mark's shade is 112 and 143 times the square root of the distance's share of the bound, in whole numbers, and its
//! colour is as many 255ths of the whole colour. A move by 1 in luma at depth 8, where the bound is 96, adds the root
//! of 143 * 143 / 96 = 213, which is 14, to the 112: the shade is 126, and red 255, 64, 64 becomes 126, 31, 31.

mod common;

use common::{edges, flat};
use tinladle::image::{GAP, write_ppm};
use tinladle::{ChromaFormat, PlanesBuf, Settings};

/// A flat picture of 100, whose samples at column 0, row 0 end so far from it, up or down.
fn moved(settings: Settings, moves: [i32; 3]) -> [u8; 3] {
    let picture = flat(settings, edges(37));
    let mut finished = picture.planes.clone();
    let PlanesBuf { y, cb, cr } = &mut finished;
    for (plane, by) in [y, cb, cr].into_iter().zip(moves) {
        if let Some(first) = plane.first_mut() {
            *first = u16::try_from(i32::from(*first) + by).unwrap();
        }
    }
    let mut bytes = Vec::new();
    write_ppm(&picture.picture(), &finished, &mut bytes).unwrap();
    let columns = 3 * settings.width as usize + 2 * GAP;
    let third = bytes.len() - 3 * columns * settings.height as usize + 3 * 2 * (settings.width as usize + GAP);
    bytes[third..][..3].try_into().unwrap()
}

fn at_depth(depth: u32) -> Settings {
    Settings { luma_depth: depth, chroma_depth: depth, ..Settings::new(8, 8, ChromaFormat::Yuv444) }
}

#[test]
fn luma_is_red() {
    // Distance, root, shade: 1, of 213, 14, 126; 2, of 426, 20, 132; 24, a quarter of the bound, of 5112, 71, 183; 95,
    // of 20235, 142, 254; 96 the whole. Beyond the bound there is no brighter one.
    let cases = [
        (1, [126, 31, 31]),
        (2, [132, 33, 33]),
        (24, [183, 45, 45]),
        (95, [254, 63, 63]),
        (96, [255, 64, 64]),
        (97, [255, 64, 64]),
        (100, [255, 64, 64]),
    ];
    for (distance, colour) in cases {
        for by in [distance, -distance] {
            assert_eq!(moved(at_depth(8), [by, 0, 0]), colour, "by {by}");
        }
    }
    // 100 / 3, as where nothing moves.
    assert_eq!(moved(at_depth(8), [0, 0, 0]), [33; 3]);
}

#[test]
fn chroma_is_blue() {
    // 1, of 426, 20, 132; 12, a quarter of 48, of 5112, 71, 183; 47, of 20022, 141, 253; 48 the whole.
    let cases = [(1, [41, 62, 132]), (12, [57, 86, 183]), (47, [79, 119, 253]), (48, [80, 120, 255])];
    for (by, colour) in cases {
        for moves in [[0, by, 0], [0, 0, by], [0, -by, by], [0, by, 1], [0, 1, -by]] {
            assert_eq!(moved(at_depth(8), moves), colour, "{moves:?}");
        }
    }
}

#[test]
fn both_are_magenta_in_the_brighter_shade() {
    let cases = [
        // 1 of 96 and 1 of 48.
        ([1, 1, 0], [132, 33, 132]),
        // A quarter of either bound beside a move by 1 in the other.
        ([24, 1, 1], [183, 45, 183]),
        ([1, 0, 12], [183, 45, 183]),
        ([96, 1, 0], [255, 64, 255]),
        ([-1, 0, -48], [255, 64, 255]),
    ];
    for (moves, colour) in cases {
        assert_eq!(moved(at_depth(8), moves), colour, "{moves:?}");
    }
}

#[test]
fn the_shade_goes_by_the_bound_of_the_depth() {
    // At depth 16 the bounds are 24576 and 12288. 1 of the first, of 0, has the darkest shade, 112, and 64 * 112 / 255
    // is 28; 1 of the second, of 1, has 113, and 80 * 113 / 255 is 35 and 120 * 113 / 255 is 53.
    let cases = [
        (16, [1, 0, 0], [112, 28, 28]),
        (16, [0, 1, 0], [35, 53, 113]),
        (16, [6144, 0, 0], [183, 45, 45]),
        (16, [24576, 0, 0], [255, 64, 64]),
        (16, [0, 0, 3072], [57, 86, 183]),
        (16, [0, 0, 12288], [80, 120, 255]),
        (10, [96, 0, 0], [183, 45, 45]),
        (10, [384, 0, 0], [255, 64, 64]),
        (10, [0, 192, 0], [80, 120, 255]),
    ];
    for (depth, moves, colour) in cases {
        assert_eq!(moved(at_depth(depth), moves), colour, "depth {depth}, {moves:?}");
    }
    // Each plane by its own depth: a quarter of luma's 384 and the whole of chroma's 48.
    let settings = Settings { chroma_depth: 8, ..at_depth(10) };
    assert_eq!(moved(settings, [96, 0, 0]), [183, 45, 45]);
    assert_eq!(moved(settings, [0, 48, 0]), [80, 120, 255]);
    assert_eq!(moved(settings, [96, 48, 0]), [255, 64, 255]);
}

#[test]
fn the_nearest_moves_are_brighter_than_the_ground_in_their_own_part() {
    // The ground is grey, up to 255 / 3. Whatever depth and plane, the darkest marks stand out in red or in blue.
    for depth in 8..=16 {
        let [red, green, blue] = moved(at_depth(depth), [1, 0, 0]);
        assert!(red > 85 + 20 && green < 40 && blue < 40, "depth {depth}");
        let [red, green, blue] = moved(at_depth(depth), [0, 1, 0]);
        assert!(blue > 85 + 20 && red < 50 && green < 70, "depth {depth}");
    }
}

#[test]
fn planes_that_are_too_short_are_drawn() {
    let picture = flat(at_depth(8), edges(37));
    for length in [0, 1, 63] {
        let finished = PlanesBuf::filled([length; 3], 100);
        let mut bytes = Vec::new();
        write_ppm(&picture.picture(), &finished, &mut bytes).unwrap();
        assert_eq!(bytes.len(), "P6\n32 8\n255\n".len() + 3 * 32 * 8, "{length} samples");
        // A sample that lacks counts as 0, which is beyond every bound from 100.
        assert_eq!(bytes[bytes.len() - 3..], [255, 64, 255], "{length} samples");
    }
}
