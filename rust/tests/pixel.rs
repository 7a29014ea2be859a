//! A pixel as 32-bit floats, document 02's C-22: parts worked out by hand, every sample of every depth there and back,
//! the sample under the pixel, and refusals.

mod common;

use common::planes::{self, FAULTS, is_refused, mixed};
use common::{FORMATS, colour, every_sample, of_depths, part_bits, run, small, step, with};
use tinladle::{ChromaFormat, Colour, PictureBuf, Pixel, Plane, Refusal, Settings, pixel, sample};

/// A pixel of a picture's planes as they stand, which must not be written.
fn at(picture: &PictureBuf, column: u32, row: u32) -> Result<Pixel, Refusal> {
    let before = picture.clone();
    let answer = pixel(&picture.settings, picture.planes.samples(), column, row);
    assert_eq!(*picture, before, "an input was written");
    answer
}

/// The bits of a pixel's parts, plane by plane.
fn bits(pixel: Pixel) -> [Option<u32>; 3] {
    Plane::ALL.map(|plane| pixel.plane(plane).map(f32::to_bits))
}

/// What the planes' samples at these places give.
fn wanted(picture: &PictureBuf, luma: usize, chroma: usize) -> [Option<u32>; 3] {
    let (s, planes) = (&picture.settings, &picture.planes);
    let of_chroma = |samples: &[u16]| Some(part_bits(s.chroma_depth, true, *samples.get(chroma)?));
    [Some(part_bits(s.luma_depth, false, planes.y[luma])), of_chroma(&planes.cb), of_chroma(&planes.cr)]
}

#[test]
fn parts_worked_out_by_hand() {
    // Depth, sample, the float that it gives in luma and in chroma.
    let cases = [
        (8, 0, 0.0, -0.5),
        (8, 1, 0.003_906_25, -0.496_093_75),
        (8, 100, 0.390_625, -0.109_375),
        (8, 112, 0.4375, -0.0625),
        (8, 128, 0.5, 0.0),
        (8, 133, 0.519_531_25, 0.019_531_25),
        (8, 200, 0.781_25, 0.281_25),
        (8, 255, 0.996_093_75, 0.496_093_75),
        (9, 1, 0.001_953_125, -0.498_046_875),
        (10, 512, 0.5, 0.0),
        (10, 1023, 0.999_023_437_5, 0.499_023_437_5),
        (12, 4095, 0.999_755_859_375, 0.499_755_859_375),
        (16, 1, 0.000_015_258_789_062_5, -0.499_984_741_210_937_5),
        (16, 32_767, 0.499_984_741_210_937_5, -0.000_015_258_789_062_5),
        (16, 32_768, 0.5, 0.0),
        (16, 65_535, 0.999_984_741_210_937_5, 0.499_984_741_210_937_5),
    ];
    let settings = Settings::new(8, 8, ChromaFormat::Yuv444);
    for (depth, given, luma, chroma) in cases {
        let picture = with(mixed(of_depths(settings, depth, depth)), |p| {
            (p.planes.y[9], p.planes.cb[9], p.planes.cr[9]) = (given, given, given);
        });
        let found = at(&picture, 1, 1).unwrap();
        // Each decimal is exact in 64 bits, so that no rounding hides a part that is not.
        let parts = Plane::ALL.map(|plane| f64::from(found.plane(plane).unwrap()));
        assert_eq!(parts.map(f64::to_bits), [luma, chroma, chroma].map(f64::to_bits), "{given} at depth {depth}");
    }
}

#[test]
fn the_bits_of_some_parts() {
    let picture = with(small(), |p| (p.planes.y[0], p.planes.y[1], p.planes.y[2]) = (200, 0, 255));
    for (column, bits) in [(0, 0x3F48_0000), (1, 0), (2, 0x3F7F_0000), (3, 0x3EC8_0000)] {
        let Pixel::Grey(luma) = at(&picture, column, 0).unwrap() else { panic!("a monochrome picture is grey") };
        assert_eq!(luma.to_bits(), bits, "column {column}");
    }
    let picture = with(colour(), |p| (p.planes.cb[0], p.planes.cr[0]) = (112, 128));
    let Pixel::Colour(Colour { luma, cb, cr }) = at(&picture, 0, 0).unwrap() else { panic!("it has chroma") };
    assert_eq!([luma, cb, cr].map(f32::to_bits), [0x3EC8_0000, 0xBD80_0000, 0]);
}

/// 8 by 8 in 4:4:4, of one depth: 64 samples from this one on in luma and Cb, and as many from the largest down in Cr.
fn sixty_four(depth: u32, first: u16) -> PictureBuf {
    let largest = ((1_u32 << depth) - 1) as u16;
    with(mixed(of_depths(Settings::new(8, 8, ChromaFormat::Yuv444), depth, depth)), |p| {
        p.planes.y = (0..64).map(|i| first + i).collect();
        p.planes.cb = p.planes.y.clone();
        p.planes.cr = p.planes.y.iter().map(|sample| largest - sample).collect();
    })
}

#[test]
fn every_sample_of_every_depth_there_and_back() {
    for depth in 8..=16 {
        let mut count = 0;
        for first in every_sample(depth).step_by(64) {
            let picture = sixty_four(depth, first);
            for i in 0..64 {
                let found = at(&picture, i % 8, i / 8).unwrap();
                assert_eq!(bits(found), wanted(&picture, i as usize, i as usize), "depth {depth}, from {first}, {i}");
                for plane in Plane::ALL {
                    let back = sample(depth, plane != Plane::Y, found.plane(plane).unwrap()).unwrap();
                    assert_eq!(back, picture.planes.plane(plane)[i as usize], "depth {depth}, {plane}");
                }
                count += 1;
            }
        }
        assert_eq!(count, 1 << depth);
    }
}

/// Column and row of a pixel, and the places of its luma sample and of the chroma sample under it.
type Place = (u32, u32, usize, usize);

/// Of 16 by 8. The chroma planes are 8 by 4, 8 by 8 and 16 by 8.
const PLACES: [(ChromaFormat, &[Place]); 3] = [
    (
        ChromaFormat::Yuv420,
        &[
            (0, 0, 0, 0),
            (1, 0, 1, 0),
            (0, 1, 16, 0),
            (1, 1, 17, 0),
            (2, 0, 2, 1),
            (3, 1, 19, 1),
            (0, 2, 32, 8),
            (1, 3, 49, 8),
            (15, 0, 15, 7),
            (14, 1, 30, 7),
            (0, 7, 112, 24),
            (1, 6, 97, 24),
            (15, 7, 127, 31),
            (14, 6, 110, 31),
        ],
    ),
    (
        ChromaFormat::Yuv422,
        &[
            (0, 0, 0, 0),
            (1, 0, 1, 0),
            (0, 1, 16, 8),
            (1, 1, 17, 8),
            (2, 0, 2, 1),
            (15, 0, 15, 7),
            (14, 1, 30, 15),
            (0, 7, 112, 56),
            (1, 6, 97, 48),
            (15, 7, 127, 63),
        ],
    ),
    (
        ChromaFormat::Yuv444,
        &[(0, 0, 0, 0), (1, 0, 1, 1), (0, 1, 16, 16), (15, 0, 15, 15), (0, 7, 112, 112), (15, 7, 127, 127)],
    ),
];

#[test]
fn the_chroma_sample_under_the_pixel() {
    for (format, places) in PLACES {
        // Every sample of a plane is another.
        let picture = with(mixed(Settings::new(16, 8, format)), |p| {
            p.planes.y = (0..p.planes.y.len()).map(|i| 255 - i as u16).collect();
            p.planes.cb = (0..p.planes.cb.len()).map(|i| i as u16).collect();
            p.planes.cr = (0..p.planes.cr.len()).map(|i| 40 + i as u16).collect();
        });
        for &(column, row, luma, chroma) in places {
            let found = bits(at(&picture, column, row).unwrap());
            assert_eq!(found, wanted(&picture, luma, chroma), "{format:?}, column {column}, row {row}");
        }
    }
}

/// Where the samples of a pixel stand in the luma plane and in the chroma planes.
fn places(s: &Settings, column: u32, row: u32) -> (usize, usize) {
    let (across, down) = s.scale(Plane::Cb).unwrap_or((1, 1));
    let chroma = row / down * (s.width / across) + column / across;
    ((row * s.width + column) as usize, chroma as usize)
}

fn is_its_samples(picture: &PictureBuf, column: u32, row: u32) {
    let (luma, chroma) = places(&picture.settings, column, row);
    let found = bits(at(picture, column, row).unwrap());
    assert_eq!(found, wanted(picture, luma, chroma), "column {column}, row {row} of {:?}", picture.settings);
}

#[test]
fn every_pixel_of_each_format_and_pair_of_depths() {
    for (format, size) in FORMATS.into_iter().zip([(8, 8), (16, 8), (8, 16), (16, 16)]) {
        for (luma, chroma) in (8..=16).flat_map(|luma| (8..=16).map(move |chroma| (luma, chroma))) {
            let picture = mixed(of_depths(Settings::new(size.0, size.1, format), luma, chroma));
            for (column, row) in (0..size.1).flat_map(|row| (0..size.0).map(move |column| (column, row))) {
                is_its_samples(&picture, column, row);
            }
        }
    }
}

#[test]
fn the_last_pixels_of_the_largest_width_and_height() {
    for format in FORMATS {
        for (width, height) in [(8192, 8), (8, 8192), (8192, 16), (264, 4104)] {
            let picture = mixed(of_depths(Settings::new(width, height, format), 12, 10));
            for (column, row) in [(width - 1, height - 1), (width - 2, 0), (1, height - 1), (width / 2, height / 2)] {
                is_its_samples(&picture, column, row);
            }
        }
    }
}

#[test]
fn of_finished_planes_the_filtered_samples() {
    // S1 of document 01 makes 100 at column 7 a 102.
    let picture = step();
    assert_eq!(at(&picture, 7, 3).unwrap(), Pixel::Grey(100.0 / 256.0));
    let finished = PictureBuf { planes: run(&picture).unwrap(), ..picture };
    assert_eq!(at(&finished, 7, 3).unwrap(), Pixel::Grey(102.0 / 256.0));
}

#[test]
fn each_plane_that_there_is_has_its_part() {
    let colour = Pixel::Colour(Colour { luma: 0.25, cb: -0.5, cr: 0.125 });
    assert_eq!(Plane::ALL.map(|plane| colour.plane(plane)), [Some(0.25), Some(-0.5), Some(0.125)]);
    assert_eq!(Plane::ALL.map(|plane| Pixel::Grey(0.75).plane(plane)), [Some(0.75), None, None]);
}

#[test]
fn outside_by_one_and_by_as_much_as_can_be() {
    const MAX: u32 = u32::MAX;
    // 16 by 8 in colour, and the same luma plane alone.
    let grey = with(colour(), |p| {
        p.settings.chroma_format = 0;
        (p.planes.cb, p.planes.cr) = (vec![], vec![]);
    });
    let cases = [
        (16, 0, "column 16 of 16"),
        (16, 7, "column 16 of 16"),
        (17, 3, "column 17 of 16"),
        (0, 8, "row 8 of 8"),
        (15, 8, "row 8 of 8"),
        (16, 8, "column 16 of 16, row 8 of 8"),
        // The size of the other side, and places that a product of 32 bits would bring back inside.
        (8, 15, "row 15 of 8"),
        (127, 0, "column 127 of 16"),
        (0, 1 << 28, "row 268435456 of 8"),
        (1 << 31, 1 << 31, "column 2147483648 of 16, row 2147483648 of 8"),
        (MAX, 0, "column 4294967295 of 16"),
        (0, MAX, "row 4294967295 of 8"),
        (MAX, MAX, "column 4294967295 of 16, row 4294967295 of 8"),
    ];
    for picture in [colour(), grey] {
        for (column, row, detail) in cases {
            let sentence = format!("the pixel lies outside the picture: {detail}");
            is_refused(at(&picture, column, row), 14, 0, &sentence);
        }
        assert_eq!(at(&picture, 15, 7).unwrap().plane(Plane::Y), Some(100.0 / 256.0), "the last pixel is inside");
    }
}

#[test]
fn refused_planes() {
    for (column, row) in [(0, 0), (7, 7), (8, 0), (16, 8), (u32::MAX, u32::MAX)] {
        let ask = |picture: &PictureBuf| at(picture, column, row);
        planes::hold(planes::bad_settings(), ask);
        planes::hold(planes::bad_lengths(), ask);
        planes::hold(planes::bad_samples(), ask);
    }
}

#[test]
fn of_two_causes_the_first_counts() {
    planes::first_counts(|picture| at(picture, 0, 0));
    planes::first_counts(|picture| at(picture, 16, 8));
    let numbers = FAULTS.map(|(fault, ..)| at(&with(colour(), fault), 16, 0).unwrap_err().number());
    assert_eq!(numbers, [1, 2, 3, 6, 10], "each comes before 14");
    assert_eq!(at(&colour(), 16, 0).unwrap_err().number(), 14);
}

#[test]
fn what_else_a_picture_has_plays_no_part() {
    let picture = planes::with_odd_rest(colour());
    assert_eq!(run(&picture).unwrap_err().number(), 4, "the stage refuses it");
    is_its_samples(&picture, 15, 7);
    is_refused(at(&picture, 0, 8), 14, 0, "the pixel lies outside the picture: row 8 of 8");
    planes::hold(vec![planes::one_too_large(picture)], |picture| at(picture, 15, 7));
}

#[test]
fn any_settings_are_answered() {
    planes::any_settings(|settings| pixel(settings, small().planes.samples(), u32::MAX, 0));
}
