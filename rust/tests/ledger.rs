//! Document 01's refusal ledger: the small input of each row, and the sentences.

mod common;

use common::{colour, flat, run, run_into, small, with};
use tinladle::{Cause, Cell, ChromaFormat, PictureBuf, Settings, Slice, Slices};

/// The picture is refused with this number, place and sentence, and the output planes keep their junk.
fn refused(picture: &PictureBuf, number: u32, place: u64, sentence: &str) {
    let refusal = run(picture).expect_err(sentence);
    assert_eq!((refusal.number(), refusal.place()), (number, place), "{sentence}");
    assert_eq!(refusal.cause().number(), number);
    assert_eq!(refusal.to_string(), sentence);
}

/// 64 by 8 with CTBs of 16: four of them across, one down.
fn wide() -> PictureBuf {
    flat(Settings::new(64, 8, ChromaFormat::Monochrome), Cell::new(37).unwrap())
}

#[test]
fn what_is_right_is_accepted() {
    for picture in [small(), colour(), wide()] {
        assert_eq!(run(&picture).unwrap(), picture.planes, "no edge, so nothing moves");
    }
}

#[test]
fn each_cause_has_the_number_of_its_row() {
    let rows = [
        (1, Cause::Size),
        (2, Cause::ChromaFormat),
        (3, Cause::Depth),
        (4, Cause::CtbSize),
        (5, Cause::ChromaOffset),
        (6, Cause::Length),
        (7, Cause::Slice),
        (8, Cause::TileStart),
        (9, Cause::Cell),
        (10, Cause::Sample),
        // Of a pixel and of a float; no picture has them.
        (14, Cause::Pixel),
        (15, Cause::Float),
    ];
    for (number, cause) in rows {
        assert_eq!((cause.number(), Cause::of_number(number)), (number, Some(cause)));
    }
    for number in [0, 11, 12, 13, 16, u32::MAX] {
        assert_eq!(Cause::of_number(number), None, "{number}");
    }
}

#[test]
fn row_1_width_12() {
    let picture = with(small(), |p| p.settings.width = 12);
    refused(&picture, 1, 0, "refused 1: width or height is not allowed: width 12");
    let picture = with(small(), |p| (p.settings.width, p.settings.height) = (0, 8200));
    refused(&picture, 1, 0, "refused 1: width or height is not allowed: width 0, height 8200");
}

#[test]
fn row_2_format_4() {
    let picture = with(small(), |p| p.settings.chroma_format = 4);
    refused(&picture, 2, 0, "refused 2: the chroma format is above 3: format 4");
}

#[test]
fn row_3_luma_depth_7() {
    let picture = with(small(), |p| p.settings.luma_depth = 7);
    refused(&picture, 3, 0, "refused 3: a depth is outside 8 to 16: luma depth 7");
    let picture = with(small(), |p| p.settings.chroma_depth = 17);
    refused(&picture, 3, 0, "refused 3: a depth is outside 8 to 16: chroma depth 17");
}

#[test]
fn row_4_log2_ctb_3() {
    let picture = with(small(), |p| p.settings.log2_ctb = 3);
    refused(&picture, 4, 0, "refused 4: log2 of the CTB size is outside 4 to 6: 3");
}

#[test]
fn row_5_cb_offset_13() {
    let picture = with(small(), |p| p.settings.cb_qp_offset = 13);
    refused(&picture, 5, 0, "refused 5: a chroma offset is outside -12 to 12: Cb offset 13");
    let picture = with(small(), |p| p.settings.cr_qp_offset = -13);
    refused(&picture, 5, 0, "refused 5: a chroma offset is outside -12 to 12: Cr offset -13");
}

#[test]
fn row_6_63_luma_samples() {
    let picture = with(small(), |p| p.planes.y.truncate(63));
    refused(&picture, 6, 0, "refused 6: a plane or list is not of its length: Y has 63 samples, not 64");
}

#[test]
fn row_6_the_other_lists() {
    const SAYS: &str = "refused 6: a plane or list is not of its length";
    let cases: [(PictureBuf, &str); 10] = [
        (with(colour(), |p| p.planes.cb.truncate(1)), "Cb has 1 sample, not 32"),
        (with(colour(), |p| p.cells.truncate(1)), "the cells have 1 byte, not 64"),
        (with(colour(), |p| p.slices = vec![0]), "the slices have 1 byte, not a multiple of 4"),
        (with(colour(), |p| p.planes.cr.push(0)), "Cr has 33 samples, not 32"),
        (with(colour(), |p| p.cells.truncate(63)), "the cells have 63 bytes, not 64"),
        (with(colour(), |p| p.slices = vec![0; 6]), "the slices have 6 bytes, not a multiple of 4"),
        (with(colour(), |p| p.slices = vec![0; 2404]), "the slices have 2404 bytes, above 2400"),
        (with(colour(), |p| p.tile_columns.clear()), "0 tile column starts, not 1 to 20"),
        (with(colour(), |p| p.tile_columns = (0..21).collect()), "21 tile column starts, not 1 to 20"),
        (with(colour(), |p| p.tile_rows = (0..23).collect()), "23 tile row starts, not 1 to 22"),
    ];
    for (picture, detail) in cases {
        refused(&picture, 6, 0, &format!("{SAYS}: {detail}"));
    }
    let refusal = run_into(&colour(), [128, 32, 31]).unwrap_err();
    assert_eq!(refusal.to_string(), format!("{SAYS}: output Cr has 31 samples, not 32"));
    assert_eq!((refusal.number(), refusal.place(), refusal.cause()), (6, 0, Cause::Length));
}

#[test]
fn row_7_third_slice() {
    let picture = with(small(), |p| p.slices = [[0, 6, 6, 1], [0, 6, 6, 1], [0, 13, 6, 1]].concat());
    refused(&picture, 7, 2, "refused 7: slice 2 is out of range: beta offset byte 13");
    let picture = with(small(), |p| p.slices = vec![2, 6, 14, 3]);
    let all = "disabled byte 2, tc offset byte 14, filter-across byte 3";
    refused(&picture, 7, 0, &format!("refused 7: slice 0 is out of range: {all}"));
}

#[test]
fn row_8_columns_0_2_2() {
    let columns = |starts: &[u16]| with(wide(), |p| p.tile_columns = starts.to_vec());
    let says = |place: u64, detail: &str| format!("refused 8: tile start {place} is out of rule: {detail}");
    refused(&columns(&[0, 2, 2]), 8, 2, &says(2, "tile column 2 starts at CTB 2, not above 2"));
    refused(&columns(&[1]), 8, 0, &says(0, "tile column 0 starts at CTB 1, not 0"));
    refused(&columns(&[0, 4]), 8, 1, &says(1, "tile column 1 starts at CTB 4 of 4"));
    // Rows are numbered on after the columns.
    let picture = with(columns(&[0, 1, 3]), |p| p.tile_rows = vec![0, 1]);
    refused(&picture, 8, 4, &says(4, "tile row 1 starts at CTB 1 of 1"));
}

#[test]
fn row_9_cell_2_has_qp_byte_63() {
    let picture = with(small(), |p| p.cells[2 * Cell::BYTES] = 63);
    refused(&picture, 9, 2, "refused 9: cell 2 is out of rule: QP byte 63");
}

#[test]
fn row_9_the_other_bytes() {
    let bytes = [116, 32, 3, 255, 1, 1, 7, 9];
    let details = [
        "QP byte 116",
        "flags byte 32",
        "vertical bS 3 without its edge flag",
        "horizontal bS 255 without its edge flag",
        "slice 1 of 1",
        "slice 256 of 1",
        "byte 6 is 7",
        "byte 7 is 9",
    ];
    for (i, (byte, detail)) in bytes.into_iter().zip(details).enumerate() {
        let picture = with(colour(), |p| p.cells[5 * Cell::BYTES + i] = byte);
        refused(&picture, 9, 5, &format!("refused 9: cell 5 is out of rule: {detail}"));
    }
    // Only slice 0 is in an empty list.
    let picture = with(small(), |p| {
        p.slices.clear();
        p.cells[3 * Cell::BYTES + 4] = 1;
    });
    let why = "slice 1, and without slice records there is slice 0 alone";
    refused(&picture, 9, 3, &format!("refused 9: cell 3 is out of rule: {why}"));
    // What a cell alone cannot know: QP -1 is for depths above 8.
    let mut picture = flat(small().settings, Cell::new(-1).unwrap());
    refused(&picture, 9, 0, "refused 9: cell 0 is out of rule: QP byte 63");
    picture.settings.luma_depth = 9;
    assert!(run(&picture).is_ok());
}

/// Document 02's C-14: the flags, the vertical and the horizontal bS of a cell, and what is wrong with them.
const STRENGTHS: [([u8; 3], &str); 15] = [
    ([0, 0, 0], ""),
    ([1, 2, 0], ""),
    ([2, 0, 2], ""),
    ([3, 1, 2], ""),
    ([31, 2, 1], ""),
    ([0, 2, 0], "vertical bS 2 without its edge flag"),
    ([2, 1, 2], "vertical bS 1 without its edge flag"),
    ([30, 1, 0], "vertical bS 1 without its edge flag"),
    ([0, 0, 2], "horizontal bS 2 without its edge flag"),
    ([1, 1, 1], "horizontal bS 1 without its edge flag"),
    ([29, 0, 1], "horizontal bS 1 without its edge flag"),
    ([28, 2, 1], "vertical bS 2 without its edge flag, horizontal bS 1 without its edge flag"),
    // Out of range with their flags.
    ([3, 3, 0], "vertical bS 3"),
    ([3, 2, 255], "horizontal bS 255"),
    ([1, 3, 3], "vertical bS 3, horizontal bS 3 without its edge flag"),
];

#[test]
fn row_9_a_strength_needs_its_edge() {
    for (bytes, detail) in STRENGTHS {
        let picture = with(colour(), |p| p.cells[7 * Cell::BYTES + 1..][..3].copy_from_slice(&bytes));
        if detail.is_empty() {
            assert_eq!(run(&picture).unwrap(), picture.planes, "{bytes:?}: flat, so nothing moves");
        } else {
            refused(&picture, 9, 7, &format!("refused 9: cell 7 is out of rule: {detail}"));
        }
    }
}

#[test]
fn row_9_the_first_cell_for_whichever_reason() {
    let (qp, bs) = ("QP byte 63", "vertical bS 1 without its edge flag");
    for (qp_at, bs_at, place, detail) in
        [(2, 5, 2, qp.to_string()), (5, 2, 2, bs.to_string()), (3, 3, 3, format!("{qp}, {bs}"))]
    {
        let picture = with(colour(), |p| {
            p.cells[qp_at * Cell::BYTES] = 63;
            p.cells[bs_at * Cell::BYTES + 2] = 1;
        });
        refused(&picture, 9, place, &format!("refused 9: cell {place} is out of rule: {detail}"));
    }
}

#[test]
fn row_10_y_sample_5_is_256() {
    let picture = with(small(), |p| p.planes.y[5] = 256);
    refused(&picture, 10, 5, "refused 10: sample 5 is above its largest: Y sample 5 is 256, the largest is 255");
    // Counted through Y, Cb, Cr.
    let picture = with(colour(), |p| p.planes.cr[7] = 65535);
    refused(
        &picture,
        10,
        167,
        "refused 10: sample 167 is above its largest: Cr sample 7 is 65535, the largest is 255",
    );
}

/// A change that makes a picture refused, and the place of the refusal.
type Fault = (fn(&mut PictureBuf), u64);

/// Each cause once, on 16 by 8, format 1, with two slices.
const FAULTS: [Fault; 10] = [
    (|p| p.settings.width = 12, 0),
    (|p| p.settings.chroma_format = 4, 0),
    (|p| p.settings.luma_depth = 17, 0),
    (|p| p.settings.log2_ctb = 7, 0),
    (|p| p.settings.cr_qp_offset = -13, 0),
    (|p| p.planes.cr.truncate(31), 0),
    (|p| p.slices[5] = 13, 1),
    (|p| p.tile_rows[0] = 1, 1),
    (|p| p.cells[8 * 6] = 0, 6),
    (|p| p.planes.cb[9] = 256, 137),
];

#[test]
fn the_first_cause_counts() {
    let mut slices = Slices::new();
    slices.push(Slice::new()).unwrap();
    slices.push(Slice::new()).unwrap();
    for (first, &(_, place)) in FAULTS.iter().enumerate() {
        let mut picture = PictureBuf { slices: slices.as_bytes().to_vec(), ..colour() };
        for (fault, _) in &FAULTS[first..] {
            fault(&mut picture);
        }
        let refusal = run(&picture).unwrap_err();
        assert_eq!((refusal.number(), refusal.place()), (first as u32 + 1, place));
        assert_eq!(Cause::of_number(refusal.number()), Some(refusal.cause()));
        assert!(!refusal.detail().is_empty());
    }
}

#[test]
fn any_settings_are_answered() {
    // Numbers at both ends of their types, where a careless product or shift would panic.
    for n in [0, 1, 1 << 31, u32::MAX] {
        let picture = with(small(), |p| {
            p.settings = Settings {
                width: n,
                height: n,
                chroma_format: n,
                luma_depth: n,
                chroma_depth: n,
                log2_ctb: n,
                cb_qp_offset: i32::MIN,
                cr_qp_offset: i32::MAX,
                pcm_loop_filter_disabled: true,
            };
        });
        assert_eq!(run(&picture).unwrap_err().number(), 1);
        tinladle::cut::tiles(&picture.picture());
    }
}
