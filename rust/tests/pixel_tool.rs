//! `tinladle pixel`: a pixel of planes as they stand, a line a part.

mod common;

use std::fs;
use std::path::Path;

use common::planes::{bad_lengths, bad_samples, bad_settings};
use common::tool::{folder, old_style, s1, store, store_with_odd_rest, tinladle};
use common::{FORMATS, colour, flat, of_depths, small};
use tinladle::{Cell, ChromaFormat, PictureBuf, PlanesBuf, Settings};

/// 8 by 8 in 4:2:0 of these depths, with these samples at column 3, row 2 of luma and at column 1, row 1 of chroma.
fn with_samples(depths: (u32, u32), [y, cb, cr]: [u16; 3]) -> PictureBuf {
    let settings = of_depths(Settings::new(8, 8, ChromaFormat::Yuv420), depths.0, depths.1);
    let mut planes = PlanesBuf::filled([64, 16, 16], 100);
    (planes.y[2 * 8 + 3], planes.cb[4 + 1], planes.cr[4 + 1]) = (y, cb, cr);
    PictureBuf { planes, ..flat(settings, Cell::new(37).unwrap()) }
}

/// What the tool prints of a pixel in the file in.pic.
fn lines_at(at: &Path, column: &str, row: &str) -> String {
    let ran = tinladle(at, &["pixel", "in.pic", column, row]);
    assert_eq!((ran.status, ran.err.as_str()), (0, ""));
    ran.out
}

/// What it prints of the pixel in column 3, row 2 of a picture.
fn lines_of(at: &Path, picture: PictureBuf) -> String {
    store(&at.join("in.pic"), picture);
    lines_at(at, "3", "2")
}

#[test]
fn one_line_a_part() {
    let at = folder("pixel");
    let wanted = [
        "luma       200/256          0.78125  3f480000\n",
        "cb         -16/256          -0.0625  bd800000\n",
        "cr           5/256       0.01953125  3ca00000\n",
    ];
    assert_eq!(lines_of(&at, with_samples((8, 8), [200, 112, 133])), wanted.concat());
    assert_eq!(lines_of(&at, small()), "luma       100/256         0.390625  3ec80000\n");
    let files: Vec<_> = fs::read_dir(&at).unwrap().map(|entry| entry.unwrap().file_name()).collect();
    assert_eq!(files, ["in.pic"], "nothing is written");
}

#[test]
fn each_plane_has_its_own_depth() {
    let at = folder("pixel_depths");
    let wanted = [
        "luma   65535/65536       0.99998474  3f7fff00\n",
        "cb       -512/1024             -0.5  bf000000\n",
        "cr          0/1024                0  00000000\n",
    ];
    assert_eq!(lines_of(&at, with_samples((16, 10), [65_535, 0, 512])), wanted.concat());
    let wanted = [
        "luma         0/512                0  00000000\n",
        "cb        -1/65536  -0.000015258789  b7800000\n",
        "cr    -32768/65536             -0.5  bf000000\n",
    ];
    assert_eq!(lines_of(&at, with_samples((9, 16), [0, 32_767, 0])), wanted.concat());
}

#[test]
fn the_pixel_that_is_asked_for() {
    let at = folder("pixel_places");
    store(&at.join("in.pic"), with_samples((8, 8), [200, 112, 133]));
    let numerators = |column, row| {
        let text = lines_at(&at, column, row);
        let numerator = |line: &str| line.split_whitespace().nth(1)?.split_once('/').map(|(n, _)| n.to_string());
        text.lines().map(|line| numerator(line).unwrap()).collect::<Vec<_>>().join(" ")
    };
    assert_eq!(numerators("3", "2"), "200 -16 5");
    // The other three pixels over the same chroma samples, and some beside them.
    for (column, row) in [("2", "2"), ("2", "3"), ("3", "3")] {
        assert_eq!(numerators(column, row), "100 -16 5", "{column}, {row}");
    }
    for (column, row) in [("1", "2"), ("4", "2"), ("3", "1"), ("3", "4"), ("0", "0"), ("7", "7")] {
        assert_eq!(numerators(column, row), "100 -28 -28", "{column}, {row}");
    }
    assert_eq!(numerators("0003", "02"), "200 -16 5", "zeros before a number");
}

#[test]
fn each_format() {
    let at = folder("pixel_formats");
    let luma = "luma       100/256         0.390625  3ec80000\n";
    let chroma =
        ["cb         -28/256        -0.109375  bde00000\n", "cr         -28/256        -0.109375  bde00000\n"];
    for format in FORMATS {
        let wanted =
            if format == ChromaFormat::Monochrome { luma.into() } else { luma.to_string() + &chroma.concat() };
        assert_eq!(lines_of(&at, flat(Settings::new(8, 16, format), Cell::new(37).unwrap())), wanted, "{format:?}");
    }
}

#[test]
fn the_planes_are_taken_as_they_stand() {
    let at = folder("pixel_as_is");
    store(&at.join("a.pic"), s1());
    assert_eq!(tinladle(&at, &["deblock", "a.pic", "b.pic"]).status, 0);
    // S1 of document 01 makes 100 at column 7 a 102.
    for (file, wanted) in [("a.pic", "100/256"), ("b.pic", "102/256")] {
        let ran = tinladle(&at, &["pixel", file, "7", "3"]);
        assert_eq!(ran.out.split_whitespace().nth(1), Some(wanted), "{file}");
    }
}

#[test]
fn what_else_a_file_has_plays_no_part() {
    let at = folder("pixel_alone");
    let picture = with_samples((8, 8), [200, 112, 133]);
    let wanted = lines_of(&at, picture.clone());
    store_with_odd_rest(&at.join("in.pic"), picture);
    assert_eq!(lines_at(&at, "3", "2"), wanted);
    assert_eq!(tinladle(&at, &["check", "in.pic"]).status, 1, "the stage refuses it");
    // So does a strength without its edge.
    store(&at.join("in.pic"), old_style());
    assert_eq!(tinladle(&at, &["check", "in.pic"]).status, 1);
    assert_eq!(lines_at(&at, "0", "0").lines().count(), 3);
}

/// The tool refuses the pixel of a picture: a line on standard error, and nothing for programs to read.
fn is_refused(at: &Path, picture: PictureBuf, pixel: [&str; 2], why: &str) {
    store(&at.join("a.pic"), picture);
    let ran = tinladle(at, &["pixel", "a.pic", pixel[0], pixel[1]]);
    assert_eq!((ran.status, ran.out, ran.err), (1, String::new(), format!("tinladle: a.pic: refused {why}\n")));
}

#[test]
fn a_refusal_has_no_part() {
    let at = folder("pixel_refused");
    for (picture, number, _, sentence) in [bad_settings(), bad_lengths(), bad_samples()].concat() {
        is_refused(&at, picture, ["99999", "0"], &format!("{number}: {sentence}"));
    }
    let outside = "14: the pixel lies outside the picture";
    let most = u32::MAX.to_string();
    is_refused(&at, colour(), ["16", "0"], &format!("{outside}: column 16 of 16"));
    is_refused(&at, colour(), ["15", "8"], &format!("{outside}: row 8 of 8"));
    is_refused(&at, small(), [&most, &most], &format!("{outside}: column {most} of 8, row {most} of 8"));
}
