//! `tinladle diff`: counts by tile and plane, and the farthest move in each plane beside the bound.

mod common;

use common::tool::{folder, refused, s1, s1_filtered, store, tinladle};
use common::{edges, flat, small};
use tinladle::{ChromaFormat, PictureBuf, Settings};

#[test]
fn diff_counts_by_tile_and_plane() {
    let at = folder("diff");
    store(&at.join("a.pic"), s1());
    let mut other = s1();
    other.planes.y[0] += 1;
    other.planes.y[16] += 1;
    other.planes.cr[8] += 1;
    store(&at.join("b.pic"), other);
    let ran = tinladle(&at, &["diff", "a.pic", "a.pic"]);
    assert_eq!((ran.status, ran.out.as_str()), (0, "a.pic and a.pic: no sample differs\n"));
    let ran = tinladle(&at, &["diff", "a.pic", "b.pic"]);
    assert_eq!(ran.status, 1);
    let wanted = [
        "a.pic and b.pic: 3 samples differ",
        "  samples that differ              Y        Cb        Cr",
        "  tile column 0, row 0             1         0         0",
        "  tile column 1, row 0             1         0         1",
        "  whole picture                    2         0         1",
        "  farthest move                    1         -         1",
        "    at column                      0         -         8",
        "    at row                         0         -         0",
        "  filtering moves at most         96        48        48",
        "",
    ];
    assert_eq!(ran.out, wanted.join("\n"));
    let mut other = s1();
    other.planes.y[0] += 1;
    store(&at.join("b.pic"), other);
    let ran = tinladle(&at, &["diff", "a.pic", "b.pic"]);
    assert_eq!((ran.status, ran.out.lines().next()), (1, Some("a.pic and b.pic: 1 sample differs")));
}

#[test]
fn diff_of_what_cannot_be_compared() {
    let at = folder("shapes");
    store(&at.join("a.pic"), s1());
    store(&at.join("b.pic"), small());
    store(&at.join("c.pic"), PictureBuf { tile_columns: vec![0], ..s1() });
    store(&at.join("d.pic"), refused());
    let ran = tinladle(&at, &["diff", "a.pic", "b.pic"]);
    let shapes = "32 by 16, format 1, depths 8 and 8, and b.pic is 8 by 8, format 0, depths 8 and 8";
    assert_eq!((ran.status, ran.err), (2, format!("tinladle: a.pic: not to be compared: {shapes}\n")));
    let ran = tinladle(&at, &["diff", "a.pic", "c.pic"]);
    assert_eq!((ran.status, ran.err.as_str()), (2, "tinladle: a.pic: not to be compared: c.pic has other tiles\n"));
    let ran = tinladle(&at, &["diff", "a.pic", "d.pic"]);
    assert_eq!((ran.status, ran.out.starts_with("d.pic: refused 9: ")), (1, true));
}

/// What `diff` says of two pictures that differ.
fn said(name: &str, a: PictureBuf, b: PictureBuf) -> Vec<String> {
    let at = folder(name);
    store(&at.join("a.pic"), a);
    store(&at.join("b.pic"), b);
    let ran = tinladle(&at, &["diff", "a.pic", "b.pic"]);
    assert_eq!((ran.status, ran.err.as_str()), (1, ""));
    assert!(ran.out.ends_with('\n'));
    ran.out.lines().map(String::from).collect()
}

/// 32 by 16 in two tiles, 4:2:0, and flat at 100, with these samples of the planes others.
fn flat_but(others: &[(usize, usize, u16)]) -> PictureBuf {
    let mut picture = flat(Settings::new(32, 16, ChromaFormat::Yuv420), edges(37));
    picture.tile_columns = vec![0, 1];
    for &(plane, number, sample) in others {
        let planes = &mut picture.planes;
        [&mut planes.y, &mut planes.cb, &mut planes.cr][plane][number] = sample;
    }
    picture
}

#[test]
fn the_farthest_of_each_plane_stands_beside_the_bound() {
    // Luma at the bound twice, in both tiles, the first of them in row 3: 3 * 32 + 25. Cb one below it, in the last of
    // its 16 by 8 samples, and Cr one below it in column 4, row 2: 2 * 16 + 4.
    let b = flat_but(&[(0, 121, 196), (0, 5 * 32, 4), (0, 6, 101), (1, 127, 53), (1, 0, 101), (2, 36, 147)]);
    let wanted = [
        "a.pic and b.pic: 6 samples differ",
        "  samples that differ              Y        Cb        Cr",
        "  tile column 0, row 0             2         1         1",
        "  tile column 1, row 0             1         1         0",
        "  whole picture                    3         2         1",
        "  farthest move                   96        47        47",
        "    at column                     25        15         4",
        "    at row                         3         7         2",
        "  filtering moves at most         96        48        48",
    ];
    assert_eq!(said("at_the_bound", flat_but(&[]), b), wanted);
}

#[test]
fn what_filtering_cannot_have_moved_is_told() {
    let too_far = |planes| {
        let why = "filtering cannot have moved a sample that far, so neither is the other filtered once";
        format!("  too far in {planes}: {why}")
    };
    // Luma at the bound and both chroma planes one beyond it; luma alone; each one beyond it.
    let cases = [
        ([196, 149, 51], ["96", "49", "49"], Some("Cb, Cr")),
        ([197, 148, 52], ["97", "48", "48"], Some("Y")),
        ([3, 149, 149], ["97", "49", "49"], Some("Y, Cb, Cr")),
        ([4, 52, 148], ["96", "48", "48"], None),
    ];
    for ([y, cb, cr], [in_y, in_cb, in_cr], planes) in cases {
        let b = flat_but(&[(0, 0, y), (1, 0, cb), (2, 0, cr)]);
        let mut wanted = vec![
            "a.pic and b.pic: 3 samples differ".into(),
            "  samples that differ              Y        Cb        Cr".into(),
            "  tile column 0, row 0             1         1         1".into(),
            "  tile column 1, row 0             0         0         0".into(),
            "  whole picture                    1         1         1".into(),
            format!("  farthest move                   {in_y}        {in_cb}        {in_cr}"),
            "    at column                      0         0         0".into(),
            "    at row                         0         0         0".into(),
            "  filtering moves at most         96        48        48".into(),
        ];
        wanted.extend(planes.map(too_far));
        assert_eq!(said("beyond", flat_but(&[]), b), wanted);
    }
}

#[test]
fn a_format_without_chroma_has_a_dash_for_it() {
    let too_far =
        "  too far in Y: filtering cannot have moved a sample that far, so neither is the other filtered once";
    // Sample 10, column 2 of row 1, is 96 below the other. The last one is 95 below it, or 96 or 97.
    let cases = [(5, [96, 2, 1], None), (4, [96, 2, 1], None), (3, [97, 7, 7], Some(too_far))];
    for (last, [distance, column, row], more) in cases {
        let mut b = small();
        (b.planes.y[10], b.planes.y[63]) = (4, last);
        let mut wanted = vec![
            "a.pic and b.pic: 2 samples differ".into(),
            "  samples that differ              Y        Cb        Cr".into(),
            "  tile column 0, row 0             2         0         0".into(),
            "  whole picture                    2         0         0".into(),
            format!("  farthest move                   {distance}         -         -"),
            format!("    at column                      {column}         -         -"),
            format!("    at row                         {row}         -         -"),
            "  filtering moves at most         96         -         -".into(),
        ];
        wanted.extend(more.map(String::from));
        assert_eq!(said("no_chroma", small(), b), wanted);
    }
}

#[test]
fn the_largest_numbers_keep_their_columns() {
    let settings = Settings { luma_depth: 16, chroma_depth: 16, ..Settings::new(8192, 8, ChromaFormat::Yuv444) };
    let (a, mut b) = (flat(settings, edges(37)), flat(settings, edges(37)));
    let last = 8192 * 8 - 1;
    // 100 more than each plane's bound at depth 16, and the largest sample.
    (b.planes.y[last], b.planes.cb[last], b.planes.cr[last]) = (24676, 12388, 65535);
    let wanted = [
        "a.pic and b.pic: 3 samples differ",
        "  samples that differ              Y        Cb        Cr",
        "  tile column 0, row 0             1         1         1",
        "  whole picture                    1         1         1",
        "  farthest move                24576     12288     65435",
        "    at column                   8191      8191      8191",
        "    at row                         7         7         7",
        "  filtering moves at most      24576     12288     12288",
        "  too far in Cr: filtering cannot have moved a sample that far, so neither is the other filtered once",
    ];
    assert_eq!(said("wide", a, b), wanted);
}

#[test]
fn a_filtered_picture_is_within_the_bound() {
    // Columns 5, 6, 8 and 9 move by 1, column 7 by 2, on every row.
    let wanted = [
        "a.pic and b.pic: 80 samples differ",
        "  samples that differ              Y        Cb        Cr",
        "  tile column 0, row 0            80         0         0",
        "  tile column 1, row 0             0         0         0",
        "  whole picture                   80         0         0",
        "  farthest move                    2         -         -",
        "    at column                      7         -         -",
        "    at row                         0         -         -",
        "  filtering moves at most         96        48        48",
    ];
    assert_eq!(said("filtered", s1(), s1_filtered()), wanted);
}
