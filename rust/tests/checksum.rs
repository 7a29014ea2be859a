//! The picture checksums of document 02's C-11: sums worked out by hand, sums beside H.265, Annex D, and refusals.

mod common;

use common::planes::{self, mixed};
use common::{FORMATS, annex_d, colour, flat, of_depths, run, small, step, with};
use tinladle::{Cell, Checksums, ChromaFormat, PictureBuf, Plane, PlanesBuf, Refusal, Settings, checksum};

/// The checksums of a picture's planes as they stand, which must not be written.
fn sums(picture: &PictureBuf) -> Result<Checksums, Refusal> {
    let before = picture.clone();
    let answer = checksum(&picture.settings, picture.planes.samples());
    assert_eq!(*picture, before, "an input was written");
    answer
}

/// Planes of one value throughout.
fn filled(settings: Settings, value: u16) -> PictureBuf {
    let lengths = Plane::ALL.map(|plane| settings.plane_len(plane) as usize);
    PictureBuf { planes: PlanesBuf::filled(lengths, value), ..flat(settings, Cell::new(37).unwrap()) }
}

fn three(y: u32, cb: u32, cr: u32) -> Checksums {
    Checksums::Three { y, cb, cr }
}

#[test]
fn zeros_in_each_format() {
    // The masks of 8 by 8 samples are 0 to 7 in each row, of 4 by 4 samples 0 to 3. In 4 columns and 8 rows they are
    // 0 to 3 in four rows and 4 to 7 in four. The sums of 4:2:0 are document 02's.
    let wanted =
        [Checksums::One(8 * 28), three(0xe0, 0x18, 0x18), three(8 * 28, 4 * 6 + 4 * 22, 112), three(224, 224, 224)];
    for (format, wanted) in FORMATS.into_iter().zip(wanted) {
        assert_eq!(sums(&filled(Settings::new(8, 8, format), 0)).unwrap(), wanted, "{format:?}");
    }
}

#[test]
fn one_value_throughout() {
    // A byte of 255 gives 255 less the mask, one of 1 or 3 the masks of its row in another order.
    let cases = [
        (8, 255, 64 * 255 - 224),
        (8, 1, 224),
        (9, 255, 64 * 255),
        (9, 256, 2 * 224),
        (9, 511, 64 * 255),
        (10, 1023, 64 * 255),
        (16, 255, 64 * 255),
        (16, 0xFF00, 64 * 255),
        (16, 0xFFFF, 2 * (64 * 255 - 224)),
    ];
    for (depth, value, wanted) in cases {
        let settings = of_depths(Settings::new(8, 8, ChromaFormat::Monochrome), depth, 8);
        assert_eq!(sums(&filled(settings, value)).unwrap(), Checksums::One(wanted), "{value} at depth {depth}");
    }
}

#[test]
fn a_planes_own_depth_decides_whether_high_parts_join() {
    let settings = Settings::new(8, 8, ChromaFormat::Yuv420);
    let times = |depth| if depth > 8 { 2 } else { 1 };
    for (luma, chroma) in (8..=16).flat_map(|luma| (8..=16).map(move |chroma| (luma, chroma))) {
        let picture = filled(of_depths(settings, luma, chroma), 0);
        let (y, c) = (0xe0 * times(luma), 0x18 * times(chroma));
        assert_eq!(sums(&picture).unwrap(), three(y, c, c), "depths {luma} and {chroma}");
        let grey = PictureBuf { settings: Settings { chroma_format: 0, ..picture.settings }, ..picture };
        let grey = with(grey, |p| (p.planes.cb, p.planes.cr) = (vec![], vec![]));
        assert_eq!(sums(&grey).unwrap(), Checksums::One(y), "depths {luma} and {chroma}, monochrome");
    }
}

/// By how much a sample changes the sum of a plane of zeros, at depth 16, of this size.
fn change((width, height): (u32, u32), (x, y): (u32, u32), sample: u16) -> i64 {
    let settings = of_depths(Settings::new(width, height, ChromaFormat::Monochrome), 16, 8);
    let sum = |picture: &PictureBuf| i64::from(sums(picture).unwrap().plane(Plane::Y).unwrap());
    let zeros = filled(settings, 0);
    let other = with(zeros.clone(), |p| p.planes.y[(y * width + x) as usize] = sample);
    sum(&other) - sum(&zeros)
}

#[test]
fn both_bytes_of_a_sample_join() {
    // At column 0 and row 0 the mask is 0.
    let cases = [(0x0001, 1), (0x0100, 1), (0x0101, 2), (0xFF00, 255), (0x00FF, 255), (0xA5C3, 0xA5 + 0xC3)];
    for (sample, wanted) in cases {
        assert_eq!(change((8, 8), (0, 0), sample), wanted, "{sample:#x}");
    }
}

#[test]
fn the_mask_has_both_bytes_of_column_and_row() {
    let (wide, high, large) = ((8192, 8), (8, 8192), (512, 512));
    let cases = [
        (large, (1, 0), 1, -1),
        (large, (0, 1), 1, -1),
        (large, (1, 1), 1, 1),
        (large, (255, 0), 0xF0, -0xF0),
        (large, (256, 0), 1, -1),
        (large, (257, 0), 1, 1),
        (large, (0, 256), 1, -1),
        (large, (0, 257), 1, 1),
        (large, (256, 256), 1, 1),
        (large, (511, 1), 0xFF, -255),
        (wide, (4096, 0), 16, -16),
        (wide, (4112, 0), 16, 16),
        // 255 xor 31 is 224, and 255 xor 224 is 31. The high part sees the same mask.
        (wide, (8191, 0), 0x00FF, 31 - 224),
        (wide, (8191, 0), 0xFF00, 31 - 224),
        (high, (0, 4096), 16, -16),
        (high, (0, 8191), 0x00FF, 31 - 224),
        (high, (0, 8191), 0xFFFF, 2 * (31 - 224)),
    ];
    for (size, place, sample, wanted) in cases {
        assert_eq!(change(size, place, sample), wanted, "{sample} at {place:?} of {size:?}");
    }
}

#[test]
fn any_size_and_depth_beside_annex_d() {
    let sizes = [
        (8, 8),
        (40, 24),
        (248, 8),
        (256, 16),
        (264, 8),
        (8, 264),
        (272, 520),
        (4096, 8),
        (4104, 16),
        (16, 4104),
        (8192, 16),
        (16, 8192),
    ];
    for (width, height) in sizes {
        for (format, depths) in FORMATS.into_iter().zip([(9, 8), (8, 10), (16, 8), (10, 12)]) {
            let settings = of_depths(Settings::new(width, height, format), depths.0, depths.1);
            let picture = mixed(settings);
            assert_eq!(sums(&picture).unwrap(), annex_d(&settings, &picture.planes), "{settings:?}");
        }
    }
    for depths in (8..=16).zip((8..=16).rev()) {
        let settings = of_depths(Settings::new(264, 272, ChromaFormat::Yuv420), depths.0, depths.1);
        let picture = mixed(settings);
        assert_eq!(sums(&picture).unwrap(), annex_d(&settings, &picture.planes), "{settings:?}");
    }
}

#[test]
fn a_sum_that_passes_32_bits_is_kept_modulo_2_to_the_32() {
    let settings = of_depths(Settings::new(8192, 4096, ChromaFormat::Monochrome), 16, 8);
    let y = vec![0xFFFF; 8192 * 4096];
    // Of each 256 samples of a row 255 xor the mask is 0 to 255 once, for the low bytes as for the high ones.
    let exact = 2 * (255 * 128) * (32 * 4096_u64);
    assert_eq!(exact, 0x1_FE00_0000);
    assert_eq!(checksum(&settings, [&y, &[], &[]]).unwrap(), Checksums::One(0xFE00_0000));
}

#[test]
fn the_finished_planes_have_sums_of_their_own() {
    // In each column the masks of the eight rows give every value of the low three bits once, and what is left is 12
    // times 8: of 100, and of 104 with column 8's bit. Filtering makes 104 a 103 in columns 8 and 9, where 13 times 8
    // is left; what it moves besides changes the low three bits alone.
    let picture = step();
    let column = |left: u32| 8 * 8 * left + 28;
    assert_eq!(sums(&picture).unwrap(), Checksums::One(16 * column(12)));
    let finished = run(&picture).unwrap();
    let wanted = Checksums::One(14 * column(12) + 2 * column(13));
    assert_eq!(checksum(&picture.settings, finished.samples()).unwrap(), wanted);
}

#[test]
fn each_plane_that_there_is_has_its_sum() {
    assert_eq!(Plane::ALL.map(|plane| three(1, 2, 3).plane(plane)), [Some(1), Some(2), Some(3)]);
    assert_eq!(Plane::ALL.map(|plane| Checksums::One(4).plane(plane)), [Some(4), None, None]);
}

#[test]
fn refused_settings() {
    planes::hold(planes::bad_settings(), sums);
}

#[test]
fn refused_lengths() {
    planes::hold(planes::bad_lengths(), sums);
}

#[test]
fn refused_samples() {
    planes::hold(planes::bad_samples(), sums);
    for (depth, largest) in [(8, 255), (10, 1023)] {
        let picture = with(colour(), |p| {
            p.settings.chroma_depth = depth;
            p.planes.cr.fill(largest);
        });
        assert_eq!(sums(&picture).unwrap(), annex_d(&picture.settings, &picture.planes), "{largest} is in range");
    }
}

#[test]
fn of_two_causes_the_first_counts() {
    planes::first_counts(sums);
}

#[test]
fn what_else_a_picture_has_plays_no_part() {
    let wanted = sums(&colour()).unwrap();
    assert_eq!(wanted, annex_d(&colour().settings, &colour().planes));
    let picture = planes::with_odd_rest(colour());
    assert_eq!(run(&picture).unwrap_err().number(), 4, "the stage refuses it");
    assert_eq!(sums(&picture).unwrap(), wanted);
    // Nor do they stand in the way of a refusal.
    planes::hold(vec![planes::one_too_large(picture)], sums);
}

#[test]
fn any_settings_are_answered() {
    planes::any_settings(|settings| checksum(settings, small().planes.samples()));
}
