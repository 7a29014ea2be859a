//! Document 01's figures, as pictures.

mod common;

use common::{edges, flat, run, samples};
use tinladle::{Cell, Cells, ChromaFormat, PictureBuf, Settings, Slice};

/// Name, QP, the Q side's value, the eight samples across the edge. The P side is 100.
const SEGMENTS: [(&str, i32, u16, [u16; 8]); 6] = [
    ("S1", 37, 104, [100, 101, 101, 102, 103, 103, 104, 104]),
    ("S2", 37, 112, [100, 102, 103, 105, 108, 109, 111, 112]),
    ("S3", 37, 113, [100, 100, 102, 105, 108, 111, 113, 113]),
    ("S4", 37, 231, [100, 100, 102, 105, 226, 229, 231, 231]),
    ("S5", 37, 232, [100, 100, 100, 100, 232, 232, 232, 232]),
    ("S6", 15, 104, [100, 100, 100, 100, 104, 104, 104, 104]),
];

/// A picture of one luma plane, every edge set.
fn luma(width: u32, height: u32, qp: i32, sample: impl Fn(usize, usize) -> u16) -> PictureBuf {
    let mut picture = flat(Settings::new(width, height, ChromaFormat::Monochrome), edges(qp));
    picture.planes.y = samples(width as usize, height as usize, sample);
    picture
}

#[test]
fn segments_on_a_vertical_edge() {
    for (name, qp, q, gives) in SEGMENTS {
        let picture = luma(16, 8, qp, |x, _| if x < 8 { 100 } else { q });
        let line = [&[100; 4][..], &gives, &[q; 4]].concat();
        assert_eq!(run(&picture).unwrap().y, samples(16, 8, |x, _| line[x]), "{name}");
    }
}

#[test]
fn segments_on_a_horizontal_edge() {
    for (name, qp, q, gives) in SEGMENTS {
        let picture = luma(8, 16, qp, |_, y| if y < 8 { 100 } else { q });
        let line = [&[100; 4][..], &gives, &[q; 4]].concat();
        assert_eq!(run(&picture).unwrap().y, samples(8, 16, |_, y| line[y]), "{name}");
    }
}

#[test]
fn chroma_segments() {
    for (name, qp, p, q) in [("K1", 37, 54, 56), ("K2", 30, 53, 57)] {
        let mut picture = flat(Settings::new(32, 16, ChromaFormat::Yuv420), edges(qp));
        picture.planes.cb = samples(16, 8, |x, _| if x < 8 { 50 } else { 60 });
        picture.planes.cr = picture.planes.cb.clone();
        let line = [&[50; 7][..], &[p, q], &[60; 7]].concat();
        let out = run(&picture).unwrap();
        assert_eq!(out.cb, samples(16, 8, |x, _| line[x]), "{name}");
        assert_eq!((&out.cr, &out.y), (&out.cb, &picture.planes.y), "{name}");
    }
}

/// QP and chroma tc at offset 12 and tc div2 -6, by document 02's C-17: the indices 57, 58 and 63 are lowered by 6 and
/// not clipped, and read tc rows 41, 42 and 47.
const HIGHEST: [(i32, u16); 3] = [(45, 6), (46, 7), (51, 13)];

#[test]
fn the_highest_chroma_indices_of_420_are_not_clipped() {
    for (qp, tc) in HIGHEST {
        let mut picture = flat(Settings::new(32, 16, ChromaFormat::Yuv420), edges(qp));
        (picture.settings.cb_qp_offset, picture.settings.cr_qp_offset) = (12, 12);
        picture.slices = Slice::new().tc_offset_div2(-6).unwrap().to_bytes().to_vec();
        picture.planes.cb = samples(16, 8, |x, _| if x < 8 { 100 } else { 150 });
        picture.planes.cr = picture.planes.cb.clone();
        let line = [&[100; 7][..], &[100 + tc, 150 - tc], &[150; 7]].concat();
        let out = run(&picture).unwrap();
        assert_eq!(out.cb, samples(16, 8, |x, _| line[x]), "QP {qp}");
        assert_eq!(out.cr, out.cb, "QP {qp}");
    }
}

/// 32 by 16, CTB 16, a step of 8 at column 16.
fn t1(columns: &[u16]) -> PictureBuf {
    let mut picture = luma(32, 16, 37, |x, _| if x < 16 { 100 } else { 108 });
    picture.tile_columns = columns.to_vec();
    picture
}

#[test]
fn t1_nothing_crosses_a_tile_border() {
    let closed = t1(&[0, 1]);
    assert_eq!(run(&closed).unwrap(), closed.planes);
    let open = t1(&[0]);
    assert_ne!(run(&open).unwrap(), open.planes, "with columns 0 it may");
}

#[test]
fn a_suppressed_cell_keeps_its_samples_and_closes_no_edge() {
    // S1's step at column 8; the P side is suppressed, so only the Q side moves.
    let step = |x: usize, _| if x < 8 { 100 } else { 104 };
    let [.., q0, q1, q2, q3] = SEGMENTS[0].3;
    let line = [&[100; 8][..], &[q0, q1, q2, q3], &[104; 4]].concat();
    let lossless_or_palette = [edges(37).lossless(), edges(37).palette()].map(|cell| [(cell, false), (cell, true)]);
    for (cell, switch) in lossless_or_palette.into_iter().flatten().chain([(edges(37).pcm(), true)]) {
        let mut picture = luma(16, 8, 37, step);
        picture.settings.pcm_loop_filter_disabled = switch;
        let mut cells = Cells::filled(&picture.settings, edges(37));
        for (column, row) in [(0, 0), (1, 0), (0, 1), (1, 1)] {
            cells.set(column, row, cell);
        }
        picture.cells = cells.as_bytes().to_vec();
        assert_eq!(run(&picture).unwrap().y, samples(16, 8, |x, _| line[x]));
    }
    // PCM with the switch off suppresses nothing.
    let mut picture = luma(16, 8, 37, step);
    picture.cells = Cells::filled(&picture.settings, edges(37).pcm()).as_bytes().to_vec();
    let line = [&[100; 4][..], &SEGMENTS[0].3, &[104; 4]].concat();
    assert_eq!(run(&picture).unwrap().y, samples(16, 8, |x, _| line[x]));
}

/// K1's step by document 02's C-19: the samples of palette cells stay in chroma too, at either setting of the switch.
#[test]
fn a_palette_cell_keeps_its_chroma() {
    for switch in [false, true] {
        let mut picture = flat(Settings::new(32, 16, ChromaFormat::Yuv420), edges(37));
        picture.settings.pcm_loop_filter_disabled = switch;
        picture.planes.cb = samples(16, 8, |x, _| if x < 8 { 50 } else { 60 });
        picture.planes.cr = samples(16, 8, |x, _| if x < 8 { 60 } else { 50 });
        let mut cells = Cells::filled(&picture.settings, edges(37));
        (0..4).for_each(|row| (4..8).for_each(|column| cells.set(column, row, edges(37).palette())));
        picture.cells = cells.as_bytes().to_vec();
        assert_eq!(picture.picture().palette_cells(), 16);
        let out = run(&picture).unwrap();
        assert_eq!(out.cb, samples(16, 8, |x, _| [50, 54, 60][usize::from(x > 6) + usize::from(x > 7)]), "{switch}");
        assert_eq!(out.cr, samples(16, 8, |x, _| [60, 56, 50][usize::from(x > 6) + usize::from(x > 7)]), "{switch}");
    }
}

/// S3's samples by document 02's C-13: without slice records tc is that of row 37, 4, and not of row 39, 5.
#[test]
fn no_slices_stand_for_one_with_tc_offset_div2_minus_1() {
    let mut picture = luma(16, 8, 37, |x, _| if x < 8 { 100 } else { 113 });
    let mut line_by = |slices: &[u8]| {
        picture.slices = slices.to_vec();
        run(&picture).unwrap().y[4..12].to_vec()
    };
    let empty = line_by(&[]);
    assert_eq!(empty, [100, 100, 102, 104, 109, 111, 113, 113]);
    assert_eq!(line_by(&Slice::of_empty_list().to_bytes()), empty);
    assert_eq!(line_by(&Slice::new().to_bytes()), SEGMENTS[2].3);
    assert_eq!(Slice::of_empty_list(), Slice::new().tc_offset_div2(-1).unwrap());
}

#[test]
fn a_disabled_slice_keeps_its_samples() {
    let mut picture = luma(16, 8, 37, |x, _| if x < 8 { 100 } else { 104 });
    picture.slices = Slice::new().disabled().to_bytes().to_vec();
    assert_eq!(run(&picture).unwrap(), picture.planes);
}

#[test]
fn no_edge_flag_no_filter() {
    let mut picture = luma(16, 8, 37, |x, _| if x < 8 { 100 } else { 104 });
    picture.cells = Cells::filled(&picture.settings, Cell::new(37).unwrap()).as_bytes().to_vec();
    assert_eq!(run(&picture).unwrap(), picture.planes);
}
