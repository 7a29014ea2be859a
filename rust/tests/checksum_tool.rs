//! `tinladle checksum`: the checksums of planes as they stand, a line each.

mod common;

use std::fs;
use std::path::Path;

use common::tool::{folder, old_style, refused, store, store_with_odd_rest, tinladle};
use common::{FORMATS, annex_d, colour, flat, small, step, with};
use tinladle::{Cell, ChromaFormat, PictureBuf, Plane, PlanesBuf, Settings};

/// 8 by 8 zeros of depth 8 in 4:2:0, and what document 02 says of them.
fn zeros() -> PictureBuf {
    let picture = flat(Settings::new(8, 8, ChromaFormat::Yuv420), Cell::new(37).unwrap());
    PictureBuf { planes: PlanesBuf::filled([64, 16, 16], 0), ..picture }
}
const ZEROS: &str = "000000e0\n00000018\n00000018\n";

/// What the tool prints of the one file of a picture, which has checksums.
fn lines_of(at: &Path, picture: PictureBuf) -> String {
    store(&at.join("in.pic"), picture);
    let ran = tinladle(at, &["checksum", "in.pic"]);
    assert_eq!((ran.status, ran.err.as_str()), (0, ""));
    ran.out
}

#[test]
fn one_line_a_plane() {
    let at = folder("checksum");
    assert_eq!(lines_of(&at, zeros()), ZEROS);
    // Flat planes of 100, which is 12 times 8 and 4: in each row of eight samples the low three bits have every value.
    let row = 8 * 96 + 28;
    assert_eq!(lines_of(&at, small()), format!("{:08x}\n", 8 * row));
    let files: Vec<_> = fs::read_dir(&at).unwrap().map(|entry| entry.unwrap().file_name()).collect();
    assert_eq!(files, ["in.pic"], "nothing is written");
}

#[test]
fn the_sums_are_those_of_annex_d_in_every_format() {
    let at = folder("checksum_formats");
    for (format, luma_depth) in FORMATS.into_iter().zip([8, 10, 8, 16]) {
        let settings = Settings { luma_depth, chroma_depth: 9, ..Settings::new(520, 264, format) };
        let picture = with(flat(settings, Cell::new(37).unwrap()), |p| {
            for (i, sample) in p.planes.y.iter_mut().enumerate() {
                *sample = (i * 40_503 % (1 << luma_depth)) as u16;
            }
            p.planes.cr.fill(0x1A5);
        });
        let sums = annex_d(&settings, &picture.planes);
        let wanted = Plane::ALL.into_iter().filter_map(|plane| Some(format!("{:08x}\n", sums.plane(plane)?)));
        assert_eq!(lines_of(&at, picture), wanted.collect::<String>(), "{format:?}");
    }
}

#[test]
fn the_planes_are_taken_as_they_stand() {
    let at = folder("checksum_as_is");
    store(&at.join("a.pic"), step());
    assert_eq!(tinladle(&at, &["deblock", "a.pic", "b.pic"]).status, 0);
    // tests/checksum.rs works both out.
    for (file, wanted) in [("a.pic", "000031c0\n"), ("b.pic", "00003240\n")] {
        assert_eq!(tinladle(&at, &["checksum", file]).out, wanted, "{file}");
    }
}

#[test]
fn what_else_a_file_has_plays_no_part() {
    let at = folder("checksum_alone");
    store_with_odd_rest(&at.join("odd.pic"), zeros());
    let ran = tinladle(&at, &["checksum", "odd.pic"]);
    assert_eq!((ran.status, ran.out.as_str(), ran.err.as_str()), (0, ZEROS, ""));
    // What the stage refuses for its cells has the sums of its planes.
    for picture in [refused(), old_style()] {
        store(&at.join("cells.pic"), picture.clone());
        assert_eq!(tinladle(&at, &["check", "cells.pic"]).status, 1);
        let sums = annex_d(&picture.settings, &picture.planes);
        assert_eq!(lines_of(&at, picture).lines().next().unwrap(), format!("{:08x}", sums.plane(Plane::Y).unwrap()));
    }
}

#[test]
fn a_refusal_has_no_sum() {
    let at = folder("checksum_refused");
    let cases: [(PictureBuf, &str); 7] = [
        (with(zeros(), |p| p.settings.width = 12), "refused 1: width or height is not allowed: width 12"),
        (with(zeros(), |p| p.settings.chroma_format = 4), "refused 2: the chroma format is above 3: format 4"),
        (with(small(), |p| p.settings.chroma_depth = 17), "refused 3: a depth is outside 8 to 16: chroma depth 17"),
        (
            with(zeros(), |p| p.planes.cr.truncate(15)),
            "refused 6: a plane or list is not of its length: Cr has 15 samples, not 16",
        ),
        (
            with(colour(), |p| p.planes.cb[9] = 256),
            "refused 10: sample 137 is above its largest: Cb sample 9 is 256, the largest is 255",
        ),
        // Two at once, in the order of the numbers; what the stage would refuse between them plays no part.
        (
            with(old_style(), |p| (p.settings.luma_depth, p.planes.y) = (7, vec![])),
            "refused 3: a depth is outside 8 to 16: luma depth 7",
        ),
        (
            with(old_style(), |p| p.planes = PlanesBuf { y: vec![256; 512], cb: vec![0; 128], cr: vec![0; 1] }),
            "refused 6: a plane or list is not of its length: Cr has 1 sample, not 128",
        ),
    ];
    for (picture, why) in cases {
        store(&at.join("a.pic"), picture);
        let ran = tinladle(&at, &["checksum", "a.pic"]);
        assert_eq!((ran.status, ran.out, ran.err), (1, String::new(), format!("tinladle: a.pic: {why}\n")));
    }
}

#[test]
fn several_are_told_apart_in_their_order() {
    let at = folder("checksum_several");
    store(&at.join("long.pic"), flat(Settings::new(1024, 1024, ChromaFormat::Monochrome), Cell::new(37).unwrap()));
    store(&at.join("zeros.pic"), zeros());
    store(&at.join("refused.pic"), with(zeros(), |p| p.settings.width = 12));
    fs::write(at.join("bad.pic"), "").unwrap();
    // In each row the masks of 256 samples are 0 to 255, whatever the samples.
    let long = format!("{:08x}  Y   long.pic\n", 1024 * 1024 / 256 * (255 * 128));
    let sums = "000000e0  Y   zeros.pic\n00000018  Cb  zeros.pic\n00000018  Cr  zeros.pic\n";
    let ran = tinladle(&at, &["checksum", "--jobs", "2", "long.pic", "zeros.pic"]);
    assert_eq!((ran.status, ran.out, ran.err.as_str()), (0, format!("{long}{sums}"), ""));
    let ran = tinladle(&at, &["checksum", "refused.pic", "zeros.pic"]);
    let refusal = "tinladle: refused.pic: refused 1: width or height is not allowed: width 12\n";
    assert_eq!((ran.status, ran.out.as_str(), ran.err.as_str()), (1, sums, refusal));
    let ran = tinladle(&at, &["checksum", "bad.pic", "zeros.pic", "refused.pic", "zeros.pic"]);
    let bad = "tinladle: bad.pic: too short: 0 bytes, and the head has 80\n";
    assert_eq!((ran.status, ran.out, ran.err), (2, sums.repeat(2), format!("{bad}{refusal}")));
}
