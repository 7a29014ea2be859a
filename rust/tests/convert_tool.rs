//! `tinladle convert`: a picture's cell list converted, and nothing else changed.

mod common;

use std::fs;
use std::path::Path;

use common::tool::{folder, load, old_style, old_style_filtered, refused, s1, store, tinladle};
use common::{by_the_rule, small};
use tinladle::container::StoredPicture;
use tinladle::{PictureBuf, convert_cells};

const REFUSED: &str = "refused 9: cell 7 is out of rule: \
     vertical bS 2 without its edge flag, horizontal bS 1 without its edge flag \
     (tinladle convert sets such a bS to 0)\n";

/// Converts a picture's file, whatever it holds; the tool's text. All but the cells is the same, byte for byte.
fn convert(at: &Path, stored: &StoredPicture) -> String {
    let (mut before, mut wanted) = (Vec::new(), Vec::new());
    stored.write(&mut before).unwrap();
    fs::write(at.join("in.pic"), &before).unwrap();
    let ran = tinladle(at, &["convert", "in.pic", "out.pic"]);
    assert_eq!((ran.status, ran.err.as_str()), (0, ""));
    let cells = by_the_rule(&stored.picture.cells);
    StoredPicture { picture: PictureBuf { cells, ..stored.picture.clone() }, ..stored.clone() }
        .write(&mut wanted)
        .unwrap();
    assert_eq!(fs::read(at.join("out.pic")).unwrap(), wanted);
    assert_eq!(fs::read(at.join("in.pic")).unwrap(), before);
    assert_eq!(ran.out.contains("the same bytes"), before == wanted, "{}", ran.out);
    ran.out
}

/// The same for a picture of these cells.
fn with_cells(at: &Path, cells: &[u8]) -> String {
    convert(at, &StoredPicture::new(PictureBuf { cells: cells.to_vec(), ..small() }))
}

#[test]
fn what_was_refused_is_accepted() {
    let at = folder("convert");
    store(&at.join("old.pic"), old_style());
    let ran = tinladle(&at, &["convert", "old.pic", "new.pic"]);
    assert_eq!((ran.status, ran.err.as_str()), (0, ""));
    let says = "old.pic: set 3 strengths to 0 that had no edge flag, in 2 cells\n  written: new.pic\n";
    assert_eq!(ran.out, says);
    assert_eq!(tinladle(&at, &["check", "new.pic"]).out, "new.pic: accepted\n");
    assert_eq!(tinladle(&at, &["deblock", "new.pic", "filtered.pic"]).status, 0);
    assert_eq!(load(&at.join("filtered.pic")).planes, old_style_filtered());
    assert_eq!(load(&at.join("old.pic")), old_style());
    assert_eq!(fs::read_dir(&at).unwrap().count(), 3, "no other file is left");
}

#[test]
fn a_refusal_names_the_conversion_where_it_helps() {
    let at = folder("hint");
    store(&at.join("old.pic"), old_style());
    let verbs: [&[&str]; 5] = [
        &["check", "old.pic"],
        &["tiles", "old.pic"],
        &["deblock", "old.pic", "out.pic"],
        &["picture", "old.pic", "out.ppm"],
        &["diff", "old.pic", "old.pic"],
    ];
    for words in verbs {
        let ran = tinladle(&at, words);
        assert_eq!((ran.status, ran.out, ran.err), (1, format!("old.pic: {REFUSED}"), String::new()), "{words:?}");
    }
    // Not of a cell that is refused for something else, nor of a place that is no cell's.
    let mut sample = old_style();
    sample.cells = convert_cells(&sample.cells).unwrap();
    sample.planes.y[7] = 256;
    for (picture, why) in [
        (refused(), "refused 9: cell 2 is out of rule: QP byte 63\n"),
        (sample, "refused 10: sample 7 is above its largest: Y sample 7 is 256, the largest is 255\n"),
    ] {
        store(&at.join("other.pic"), picture);
        assert_eq!(tinladle(&at, &["check", "other.pic"]).out, format!("other.pic: {why}"));
    }
}

#[test]
fn it_says_how_many() {
    let at = folder("counts");
    let none = "in.pic: every strength above 0 has its edge flag already\n  written: out.pic, the same bytes\n";
    let (good, one, two) = ([101, 3, 2, 2, 0, 0, 0, 0], [101, 2, 1, 1, 0, 0, 0, 0], [101, 0, 1, 2, 0, 0, 0, 0]);
    let cases: [(&[[u8; 8]], &str); 5] = [
        (&[], ""),
        (&[good; 4], ""),
        (&[good, one, good, good], "set 1 strength to 0 that had no edge flag, in 1 cell"),
        (&[good, good, two, good], "set 2 strengths to 0 that had no edge flag, in 1 cell"),
        (&[one, two, one, one], "set 5 strengths to 0 that had no edge flag, in 4 cells"),
    ];
    for (cells, says) in cases {
        let wanted = if says.is_empty() { none.to_string() } else { format!("in.pic: {says}\n  written: out.pic\n") };
        assert_eq!(with_cells(&at, &cells.concat()), wanted);
    }
}

#[test]
fn a_partial_last_record_is_copied() {
    let at = folder("partial");
    let record = [101, 0, 2, 2, 0, 0, 0, 0];
    for part in 1..8 {
        assert!(with_cells(&at, &record[..part]).contains("the same bytes"), "{part}");
        let says = with_cells(&at, &[&record[..], &record[..part]].concat());
        assert!(says.starts_with("in.pic: set 2 strengths to 0 that had no edge flag, in 1 cell\n"), "{says}");
    }
}

#[test]
fn every_combination_among_bytes_that_no_check_would_accept() {
    let at = folder("combinations");
    let mut all = Vec::new();
    for flags in 0..=255 {
        for (vertical, horizontal) in (0..4).flat_map(|vertical| (0..4).map(move |horizontal| (vertical, horizontal)))
        {
            all.extend([flags, flags, vertical, horizontal, 255 - flags, 255, flags, 255]);
        }
    }
    // A strength is above 0 in 12 of 16 pairs, one of the two in 15. Half the flags have no bit 0, half no bit 1, a
    // quarter neither.
    let (strengths, cells) = (128 * 12 + 128 * 12, 64 * 15 + 64 * 12 + 64 * 12);
    let says = format!("in.pic: set {strengths} strengths to 0 that had no edge flag, in {cells} cells\n");
    assert_eq!(with_cells(&at, &all), says + "  written: out.pic\n");
}

#[test]
fn no_picture_is_refused() {
    let at = folder("any");
    let mut odd = StoredPicture::new(old_style());
    odd.picture.settings.width = u32::MAX;
    odd.picture.settings.cb_qp_offset = i32::MIN;
    odd.picture.planes.cb.clear();
    odd.picture.slices = vec![9; 7];
    odd.picture.tile_columns = vec![65535; 30];
    odd.output_lengths = [7, 0, 1];
    assert!(convert(&at, &odd).starts_with("in.pic: set 3 strengths to 0 "));
}

#[test]
fn converting_twice_is_converting_once() {
    let at = folder("twice");
    store(&at.join("a.pic"), old_style());
    assert_eq!(tinladle(&at, &["convert", "a.pic", "b.pic"]).status, 0);
    let ran = tinladle(&at, &["convert", "b.pic", "c.pic"]);
    let says = "b.pic: every strength above 0 has its edge flag already\n  written: c.pic, the same bytes\n";
    assert_eq!((ran.status, ran.out.as_str()), (0, says));
    assert_eq!(fs::read(at.join("b.pic")).unwrap(), fs::read(at.join("c.pic")).unwrap());
}

#[test]
fn several_at_once() {
    let at = folder("convert_several");
    store(&at.join("old.pic"), old_style());
    store(&at.join("new.pic"), s1());
    fs::write(at.join("bad.pic"), "").unwrap();
    let ran = tinladle(&at, &["convert", "--jobs", "2", "--to", "out", "old.pic", "bad.pic", "new.pic"]);
    assert_eq!((ran.status, ran.err.as_str()), (2, "tinladle: bad.pic: too short: 0 bytes, and the head has 80\n"));
    let says = [
        "old.pic: set 3 strengths to 0 that had no edge flag, in 2 cells",
        "  written: out/old.pic",
        "new.pic: every strength above 0 has its edge flag already",
        "  written: out/new.pic, the same bytes",
        "",
    ];
    assert_eq!(ran.out, says.join("\n"));
    assert_eq!(fs::read_dir(at.join("out")).unwrap().count(), 2);
    assert_eq!(load(&at.join("out/new.pic")), s1());
}
