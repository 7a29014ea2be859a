//! For functions that take planes alone: planes of mixed samples, and planes that are refused.

use std::fmt::Debug;

use super::{colour, flat, samples, small, with};
use tinladle::{Cause, Cell, PictureBuf, Plane, PlanesBuf, Refusal, Settings};

/// Samples of every bit of their depth, another in each plane.
pub fn mixed(settings: Settings) -> PictureBuf {
    let plane = |plane: Plane| {
        let ((columns, rows), depth) = (settings.plane_size(plane), settings.depth(plane));
        let sample = |x: usize, y: usize| {
            let mixed = (x * 40_503) ^ (y * 30_011) ^ (x * y * 7919) ^ (plane as usize * 52_711);
            (mixed % (1 << depth)) as u16
        };
        samples(columns as usize, rows as usize, sample)
    };
    let [y, cb, cr] = Plane::ALL.map(plane);
    PictureBuf { planes: PlanesBuf { y, cb, cr }, ..flat(settings, Cell::new(37).unwrap()) }
}

/// Planes that are refused, with number, place and sentence.
pub type Refused = (PictureBuf, u32, u64, String);

/// The answer is this refusal.
pub fn is_refused<T: Debug>(answer: Result<T, Refusal>, number: u32, place: u64, sentence: &str) {
    let refusal = answer.expect_err(sentence);
    assert_eq!((refusal.number(), refusal.place(), refusal.cause().number()), (number, place, number), "{sentence}");
    assert_eq!(refusal.to_string(), format!("refused {number}: {sentence}"));
}

/// Each has its refusal for an answer.
pub fn hold<T: Debug>(cases: Vec<Refused>, answer: impl Fn(&PictureBuf) -> Result<T, Refusal>) {
    assert!(!cases.is_empty());
    for (picture, number, place, sentence) in cases {
        is_refused(answer(&picture), number, place, &sentence);
    }
}

pub fn bad_settings() -> Vec<Refused> {
    type Case = (fn(&mut Settings), u32, &'static str);
    let cases: [Case; 11] = [
        (|s| s.width = 12, 1, "width or height is not allowed: width 12"),
        (|s| s.width = 0, 1, "width or height is not allowed: width 0"),
        (|s| s.height = 8200, 1, "width or height is not allowed: height 8200"),
        (|s| (s.width, s.height) = (8193, 4), 1, "width or height is not allowed: width 8193, height 4"),
        (|s| s.chroma_format = 4, 2, "the chroma format is above 3: format 4"),
        (|s| s.chroma_format = u32::MAX, 2, "the chroma format is above 3: format 4294967295"),
        (|s| s.luma_depth = 7, 3, "a depth is outside 8 to 16: luma depth 7"),
        (|s| s.luma_depth = 17, 3, "a depth is outside 8 to 16: luma depth 17"),
        (|s| s.chroma_depth = 7, 3, "a depth is outside 8 to 16: chroma depth 7"),
        (|s| s.chroma_depth = 17, 3, "a depth is outside 8 to 16: chroma depth 17"),
        (|s| (s.luma_depth, s.chroma_depth) = (0, 99), 3, "a depth is outside 8 to 16: luma depth 0, chroma depth 99"),
    ];
    let changed = |(change, number, sentence): Case| {
        // Both depths are checked in a monochrome picture too.
        [small(), colour()].map(|picture| (with(picture, |p| change(&mut p.settings)), number, 0, sentence.into()))
    };
    cases.into_iter().flat_map(changed).collect()
}

pub fn bad_lengths() -> Vec<Refused> {
    let cases: [(PictureBuf, &str); 9] = [
        (with(small(), |p| p.planes.y.truncate(63)), "Y has 63 samples, not 64"),
        (with(small(), |p| p.planes.y.push(0)), "Y has 65 samples, not 64"),
        (with(small(), |p| p.planes.cb.push(0)), "Cb has 1 sample, not 0"),
        (with(small(), |p| p.planes.cr = vec![0; 16]), "Cr has 16 samples, not 0"),
        (with(colour(), |p| p.planes.y.clear()), "Y has 0 samples, not 128"),
        (with(colour(), |p| p.planes.cb.truncate(31)), "Cb has 31 samples, not 32"),
        (with(colour(), |p| p.planes.cr.push(0)), "Cr has 33 samples, not 32"),
        (with(colour(), |p| p.settings.chroma_format = 2), "Cb has 32 samples, not 64"),
        (with(colour(), |p| p.settings.chroma_format = 0), "Cb has 32 samples, not 0"),
    ];
    let says = |detail| format!("a plane or list is not of its length: {detail}");
    cases.into_iter().map(|(picture, detail)| (picture, 6, 0, says(detail))).collect()
}

fn too_large(picture: PictureBuf, place: u64, detail: &str) -> Refused {
    (picture, 10, place, format!("sample {place} is above its largest: {detail}"))
}

/// A picture of depth 8 in luma with a first sample that is too large.
pub fn one_too_large(picture: PictureBuf) -> Refused {
    too_large(with(picture, |p| p.planes.y[0] = 999), 0, "Y sample 0 is 999, the largest is 255")
}

pub fn bad_samples() -> Vec<Refused> {
    let deep = || with(colour(), |p| p.settings.chroma_depth = 10);
    let two = with(deep(), |p| (p.planes.cr[0], p.planes.cb[9]) = (1024, 1024));
    vec![
        too_large(with(small(), |p| p.planes.y[5] = 256), 5, "Y sample 5 is 256, the largest is 255"),
        too_large(with(colour(), |p| p.planes.cb[0] = 256), 128, "Cb sample 0 is 256, the largest is 255"),
        too_large(with(colour(), |p| p.planes.cr[31] = 65535), 191, "Cr sample 31 is 65535, the largest is 255"),
        too_large(with(deep(), |p| p.planes.cr[7] = 1024), 167, "Cr sample 7 is 1024, the largest is 1023"),
        too_large(with(deep(), |p| p.planes.y[127] = 256), 127, "Y sample 127 is 256, the largest is 255"),
        // The first of several.
        too_large(two, 137, "Cb sample 9 is 1024, the largest is 1023"),
    ]
}

/// A change that makes planes refused, and the answer.
pub type Fault = (fn(&mut PictureBuf), u32, u64);

/// Each cause once, on 16 by 8, format 1.
pub const FAULTS: [Fault; 5] = [
    (|p| p.settings.height = 12, 1, 0),
    (|p| p.settings.chroma_format = 4, 2, 0),
    (|p| p.settings.chroma_depth = 17, 3, 0),
    (|p| p.planes.cr.truncate(31), 6, 0),
    (|p| p.planes.cb[9] = 256, 10, 137),
];

/// Of two causes, and of all, the first is answered.
pub fn first_counts<T: Debug>(answer: impl Fn(&PictureBuf) -> Result<T, Refusal>) {
    for (i, &(first, number, place)) in FAULTS.iter().enumerate() {
        for &(second, ..) in &FAULTS[i..] {
            let refusal = answer(&with(colour(), |p| (first(p), second(p)).0)).unwrap_err();
            assert_eq!((refusal.number(), refusal.place()), (number, place));
            assert!(!refusal.detail().is_empty());
        }
    }
    let all = with(colour(), |p| FAULTS.iter().for_each(|fault| fault.0(p)));
    assert_eq!(answer(&all).unwrap_err().cause(), Cause::Size);
}

/// A picture whose settings and lists are none but for size, format, depths and planes.
pub fn with_odd_rest(picture: PictureBuf) -> PictureBuf {
    with(picture, |p| {
        p.settings.log2_ctb = 99;
        (p.settings.cb_qp_offset, p.settings.cr_qp_offset) = (i32::MIN, 13);
        p.settings.pcm_loop_filter_disabled = true;
        (p.cells, p.slices) = (vec![255; 3], vec![9; 7]);
        (p.tile_columns, p.tile_rows) = (vec![], vec![7; 40]);
    })
}

/// Numbers at both ends of their types, where a careless product or shift would panic, are refused for the size.
pub fn any_settings<T: Debug>(answer: impl Fn(&Settings) -> Result<T, Refusal>) {
    let ends = [0, 1, 1 << 31, u32::MAX];
    for (n, m) in ends.into_iter().flat_map(|n| ends.map(|m| (n, m))) {
        let settings =
            Settings { width: n, height: m, chroma_format: m, luma_depth: n, chroma_depth: m, ..small().settings };
        let refusal = answer(&settings).unwrap_err();
        assert_eq!((refusal.number(), refusal.place()), (1, 0), "{settings:?}");
    }
}
