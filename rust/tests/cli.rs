//! The tool, run as a process.

mod common;

use std::fs;

use common::tool::{folder, load, refused, s1, s1_filtered, store, tinladle};
use common::{FORMATS, edges, flat, samples};
use tinladle::{Cell, ChromaFormat, PictureBuf, Settings, Slice};

/// Five samples on each of the 16 rows.
const S1_TABLE: [&str; 4] = [
    "  samples moved                    Y        Cb        Cr",
    "  tile column 0, row 0            80         0         0",
    "  tile column 1, row 0             0         0         0",
    "  whole picture                   80         0         0",
];

#[test]
fn deblock_writes_the_filtered_picture() {
    let at = folder("deblock");
    store(&at.join("a.pic"), s1());
    let ran = tinladle(&at, &["deblock", "a.pic", "b.pic"]);
    assert_eq!((ran.status, ran.err.as_str()), (0, ""));
    assert_eq!(ran.out, format!("a.pic: accepted\n{}\n  written: b.pic\n", S1_TABLE.join("\n")));
    assert_eq!(load(&at.join("b.pic")), s1_filtered(), "all but the moved samples is as it was");
    assert_eq!(load(&at.join("a.pic")), s1());
    assert_eq!(fs::read_dir(&at).unwrap().count(), 2, "no other file is left");
}

#[test]
fn a_picture_without_slices_is_told_what_they_stand_for() {
    let at = folder("no_slices");
    let without = PictureBuf { slices: vec![], ..s1() };
    let listed = PictureBuf { slices: Slice::of_empty_list().to_bytes().to_vec(), ..s1() };
    let verdict = "a.pic: accepted\n  no slice record: one slice with tc offset div2 -1\n";
    store(&at.join("a.pic"), without.clone());
    store(&at.join("b.pic"), listed);
    let verbs: [&[&str]; 4] =
        [&["check", "a.pic"], &["tiles", "a.pic"], &["deblock", "a.pic", "a2.pic"], &["picture", "a.pic", "a.ppm"]];
    for words in verbs {
        let ran = tinladle(&at, words);
        assert_eq!((ran.status, ran.err.as_str()), (0, ""), "{words:?}");
        assert!(ran.out.starts_with(verdict), "{words:?}: {}", ran.out);
    }
    assert_eq!(tinladle(&at, &["check", "b.pic"]).out, "b.pic: accepted\n");
    assert_eq!(tinladle(&at, &["deblock", "b.pic", "b2.pic"]).status, 0);
    assert_eq!(tinladle(&at, &["diff", "a2.pic", "b2.pic"]).status, 0, "the same samples with the record outright");
    assert_eq!(load(&at.join("a2.pic")).slices, without.slices, "no slice is written into the file");
    let other = PictureBuf { cells: vec![], ..without };
    store(&at.join("c.pic"), other);
    let refused = tinladle(&at, &["check", "c.pic"]);
    assert_eq!(refused.status, 1);
    assert!(!refused.out.contains("no slice record"), "{}", refused.out);
}

#[test]
fn palette_cells_are_told_and_drawn() {
    let at = folder("palette");
    let mut picture = s1();
    // The P side of S1's step at column 8: two columns of cells.
    for number in (0..picture.cells.len() / Cell::BYTES).filter(|number| number % 8 < 2) {
        picture.cells[Cell::BYTES * number + 1] |= 16;
    }
    store(&at.join("a.pic"), picture.clone());
    let verdict = "a.pic: accepted\n  palette cells, which keep their samples: 8 of 32\n";
    let verbs: [(&[&str], &str); 4] = [
        (&["check", "a.pic"], "of 32\n"),
        (&["tiles", "a.pic"], "from the tile filtered alone: 0\n"),
        (&["deblock", "a.pic", "b.pic"], "written: b.pic\n"),
        (&["picture", "a.pic", "a.ppm"], "the farther, the brighter; palette cells green)\n"),
    ];
    for (words, end) in verbs {
        let ran = tinladle(&at, words);
        assert_eq!((ran.status, ran.err.as_str()), (0, ""), "{words:?}");
        assert!(ran.out.starts_with(verdict) && ran.out.ends_with(end), "{words:?}: {}", ran.out);
    }
    // The third part: column 7 is palette, does not move and is green; column 8 moves by 1 and is red, in the shade
    // that tests/image.rs works out; column 15 is grey.
    let bytes = fs::read(at.join("a.ppm")).unwrap();
    let third = bytes.len() - 3 * 104 * 16 + 3 * 72;
    let pixel = |x: usize| bytes[third + 3 * x..][..3].to_vec();
    assert_eq!((pixel(7), pixel(8), pixel(15)), (vec![33, 33 + 96, 33], vec![126, 31, 31], vec![34; 3]));
    picture.cells[1] |= 32;
    store(&at.join("c.pic"), picture);
    let refused = "c.pic: refused 9: cell 0 is out of rule: flags byte 51\n";
    assert_eq!(tinladle(&at, &["check", "c.pic"]).out, refused);
}

#[test]
fn bad_files_get_one_line() {
    let at = folder("bad");
    fs::write(at.join("empty.pic"), "").unwrap();
    fs::write(at.join("text.pic"), "no picture ".repeat(20)).unwrap();
    fs::create_dir(at.join("folder.pic")).unwrap();
    let cases = [
        ("empty.pic", "too short: 0 bytes, and the head has 80"),
        ("text.pic", "no picture: it begins with 0x70206f6e, not 0x53484c54"),
        ("folder.pic", "cannot be read: it is not a regular file"),
        ("missing.pic", "cannot be read: No such file or directory (os error 2)"),
    ];
    for (file, why) in cases {
        let verbs: [&[&str]; 7] = [
            &["check", file],
            &["tiles", file],
            &["deblock", file, "out"],
            &["picture", file, "out.ppm"],
            &["convert", file, "out"],
            &["checksum", file],
            &["pixel", file, "0", "0"],
        ];
        for words in verbs {
            let ran = tinladle(&at, words);
            assert_eq!((ran.status, ran.out.as_str()), (2, ""), "{words:?}");
            assert_eq!(ran.err, format!("tinladle: {file}: {why}\n"), "{words:?}");
        }
    }
    assert!(!at.join("out").exists() && !at.join("out.ppm").exists());
}

#[test]
fn several_files_side_by_side() {
    let at = folder("several");
    let names: Vec<String> = (0..7).map(|i| format!("p{i}.pic")).collect();
    for name in &names {
        store(&at.join(name), s1());
    }
    let words =
        [&["deblock", "--jobs", "2", "--to", "out/new"][..], &names.iter().map(String::as_str).collect::<Vec<_>>()];
    let ran = tinladle(&at, &words.concat());
    assert_eq!((ran.status, ran.err.as_str()), (0, ""));
    let heads: Vec<&str> = ran.out.lines().filter(|line| line.ends_with(": accepted")).collect();
    let wanted: Vec<String> = names.iter().map(|name| format!("{name}: accepted")).collect();
    assert_eq!(heads, wanted, "in the order in which they were given");
    let one = fs::read(at.join("out/new/p0.pic")).unwrap();
    for name in &names {
        assert_eq!(fs::read(at.join("out/new").join(name)).unwrap(), one);
    }
}

#[test]
fn a_long_picture_is_still_shown_first() {
    let at = folder("order");
    store(&at.join("long.pic"), flat(Settings::new(1024, 1024, ChromaFormat::Yuv444), edges(37)));
    store(&at.join("short.pic"), s1());
    let ran = tinladle(&at, &["check", "--jobs", "2", "long.pic", "short.pic"]);
    assert_eq!((ran.status, ran.out.as_str()), (0, "long.pic: accepted\nshort.pic: accepted\n"));
}

#[test]
fn the_worst_status_counts() {
    let at = folder("worst");
    store(&at.join("good.pic"), s1());
    store(&at.join("refused.pic"), refused());
    fs::write(at.join("bad.pic"), "").unwrap();
    let ran = tinladle(&at, &["check", "good.pic"]);
    assert_eq!((ran.status, ran.out.as_str()), (0, "good.pic: accepted\n"));
    let both = "refused.pic: refused 9: cell 2 is out of rule: QP byte 63\ngood.pic: accepted\n";
    let ran = tinladle(&at, &["check", "refused.pic", "good.pic", "--jobs", "2"]);
    assert_eq!((ran.status, ran.out.as_str(), ran.err.as_str()), (1, both, ""));
    let ran = tinladle(&at, &["check", "bad.pic", "refused.pic", "good.pic"]);
    assert_eq!((ran.status, ran.out.as_str()), (2, both));
    assert_eq!(ran.err, "tinladle: bad.pic: too short: 0 bytes, and the head has 80\n");
    let ran = tinladle(&at, &["deblock", "--to", "out", "bad.pic", "refused.pic", "good.pic"]);
    assert_eq!(ran.status, 2);
    assert_eq!(fs::read_dir(at.join("out")).unwrap().count(), 1, "the good one is written all the same");
}

#[test]
fn tiles_says_0_for_each() {
    let at = folder("tiles");
    store(&at.join("a.pic"), s1());
    let ran = tinladle(&at, &["tiles", "a.pic"]);
    let wanted = [
        "a.pic: accepted",
        "  tile column 0, row 0    16 by 16 at 0, 0                     0",
        "  tile column 1, row 0    16 by 16 at 16, 0                    0",
        "  samples that differ from the tile filtered alone: 0",
        "",
    ];
    assert_eq!((ran.status, ran.out), (0, wanted.join("\n")));
}

#[test]
fn picture_has_three_parts() {
    let at = folder("picture");
    for (number, format) in FORMATS.into_iter().enumerate() {
        let mut picture = flat(Settings::new(16, 8, format), edges(37));
        picture.planes.y = samples(16, 8, |x, _| if x < 8 { 100 } else { 104 });
        picture.planes.cb.fill(128);
        picture.planes.cr.fill(128);
        store(&at.join("a.pic"), picture);
        let name = format!("{number}.ppm");
        let ran = tinladle(&at, &["picture", "a.pic", &name]);
        assert_eq!(ran.status, 0, "{}", ran.err);
        let what = format!("  picture: {name}: before, after, and the moved samples\n");
        let marks = "  (luma red, chroma blue, both magenta; the farther, the brighter)\n";
        assert_eq!(ran.out, format!("a.pic: accepted\n{what}{marks}"));
        let bytes = fs::read(at.join(name)).unwrap();
        let head = b"P6\n56 8\n255\n";
        assert_eq!((&bytes[..head.len()], bytes.len()), (&head[..], head.len() + 3 * 56 * 8));
        // Neutral chroma is grey. Column 7 is 100 before and 102 after (S1), and marked red, in the shade of a move by
        // 2 that tests/image.rs works out; column 3 has not moved.
        let pixel = |x: usize| bytes[head.len() + 3 * x..][..3].to_vec();
        assert_eq!((pixel(7), pixel(20 + 7), pixel(40 + 7)), (vec![100; 3], vec![102; 3], vec![132, 33, 33]));
        assert_eq!((pixel(3), pixel(20 + 3), pixel(40 + 3)), (vec![100; 3], vec![100; 3], vec![33; 3]));
        assert_eq!(pixel(16), vec![255; 3], "white between");
    }
}

#[test]
fn the_largest_width_and_height() {
    let at = folder("largest");
    for (name, width, height) in [("wide.pic", 8192, 8), ("high.pic", 8, 8192)] {
        store(&at.join(name), flat(Settings::new(width, height, ChromaFormat::Yuv444), edges(51)));
        let ran = tinladle(&at, &["check", name]);
        assert_eq!((ran.status, ran.out), (0, format!("{name}: accepted\n")));
    }
}
