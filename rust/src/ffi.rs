//! The calls into the proved library, made safe by their signatures. The crate's unsafe code, without the tool's, is
//! the four calls here, two of them in macros, and, in library.rs, the declarations of what they call.

#![allow(unsafe_code)]

use crate::library;
use crate::picture::Picture;
use crate::settings::Settings;

/// Safe functions over C functions that take a picture. Its settings and lists stand here once; a row has what is a
/// function's own, in the order of the C arguments: the lists that it reads, the lists that it writes, the values
/// that it stores. The answer is the number and the place.
macro_rules! of_a_picture {
    ($(
        $(#[$note:meta])*
        fn $name:ident(
            reads($($read:ident: $r:ty),*) writes($($write:ident: $w:ty),*) stores($($store:ident: $s:ty),*)
        );
    )*) => {$(
        $(#[$note])*
        pub(crate) fn $name(
            picture: &Picture<'_>,
            $($read: &[$r],)*
            $($write: &mut [$w],)*
            $($store: &mut $s,)*
        ) -> (u32, u64) {
            let s = &picture.settings;
            let mut place = 0;
            // SAFETY: what the header says a caller owes.
            // - Each pointer is a slice's own and goes with that slice's length: as many elements, aligned, and
            //   nothing else changes them, since the slices are borrowed for the whole call. The library allocates
            //   nothing and keeps no pointer.
            // - No pointer is null: a slice's never is (an empty one's is dangling, with length 0), nor is a
            //   reference.
            // - What is written is a parameter that is `&mut`, or `place`, a local: none overlaps another or any
            //   input.
            // - The switch is a Rust bool: 0 or 1 in its byte.
            // Every value and every length is allowed; the library returns for all of them and never unwinds.
            let number = unsafe {
                library::$name(
                    s.width, s.height, s.chroma_format, s.luma_depth, s.chroma_depth,
                    s.log2_ctb, s.cb_qp_offset, s.cr_qp_offset, s.pcm_loop_filter_disabled,
                    picture.y.as_ptr(), picture.y.len(),
                    picture.cb.as_ptr(), picture.cb.len(),
                    picture.cr.as_ptr(), picture.cr.len(),
                    picture.cells.as_ptr(), picture.cells.len(),
                    picture.slices.as_ptr(), picture.slices.len(),
                    picture.tile_columns.as_ptr(), picture.tile_columns.len(),
                    picture.tile_rows.as_ptr(), picture.tile_rows.len(),
                    $($read.as_ptr(), $read.len(),)*
                    $($write.as_mut_ptr(), $write.len(),)*
                    $($store,)*
                    &mut place,
                )
            };
            (number, place)
        }
    )*};
}

of_a_picture! {
    /// The stage: on 0 the outputs hold the filtered planes, else what they held.
    fn tinladle_deblock(reads() writes(out_y: u16, out_cb: u16, out_cr: u16) stores());
}

/// The same over C functions that take planes alone. A row has what is a function's own: the values that it takes, and
/// the type of the three that it stores.
macro_rules! of_planes {
    ($(
        $(#[$note:meta])*
        fn $name:ident(takes($($value:ident: $v:ty),*) stores($s:ty));
    )*) => {$(
        $(#[$note])*
        pub(crate) fn $name(
            s: &Settings,
            [y, cb, cr]: [&[u16]; 3],
            $($value: $v,)*
            [of_y, of_cb, of_cr]: &mut [$s; 3],
        ) -> (u32, u64) {
            let mut place = 0;
            // SAFETY: as above. Each plane's pointer is its slice's own, with its length. What is stored goes to three
            // elements of one array that is borrowed as `&mut`: they overlap neither one another nor `place`, a local,
            // nor any plane.
            let number = unsafe {
                library::$name(
                    s.width, s.height, s.chroma_format, s.luma_depth, s.chroma_depth,
                    y.as_ptr(), y.len(),
                    cb.as_ptr(), cb.len(),
                    cr.as_ptr(), cr.len(),
                    $($value,)*
                    of_y, of_cb, of_cr,
                    &mut place,
                )
            };
            (number, place)
        }
    )*};
}

of_planes! {
    /// The checksums: on 0 they are stored, those of Cb and Cr only where the format has chroma; else nothing is.
    fn tinladle_checksum(takes() stores(u32));

    /// A pixel's parts: on 0 they are stored, those of Cb and Cr only where the format has chroma; else nothing is.
    fn tinladle_pixel(takes(column: u32, row: u32) stores(f32));
}

/// The conversion of a cell list: on 0 `out` holds the converted list; on 6, where it is not as long, what it held.
pub(crate) fn tinladle_convert_cells(cells: &[u8], out: &mut [u8]) -> (u32, u64) {
    let mut place = 0;
    // SAFETY: as above. Both pointers are their slice's own, with its length, and `out` and `place` overlap nothing.
    let number = unsafe {
        library::tinladle_convert_cells(cells.as_ptr(), cells.len(), out.as_mut_ptr(), out.len(), &mut place)
    };
    (number, place)
}

/// The sample that gives a float: on 0 `sample` holds it, else what it held.
pub(crate) fn tinladle_sample(depth: u32, chroma: bool, value: f32, sample: &mut u16) -> (u32, u64) {
    let mut place = 0;
    // SAFETY: as above. `sample` is borrowed as `&mut`, so that it lies apart from `place`, a local; `chroma` is a Rust
    // bool.
    let number = unsafe { library::tinladle_sample(depth, chroma, value, sample, &mut place) };
    (number, place)
}

#[cfg(test)]
mod tests {
    use super::*;
    use crate::settings::ChromaFormat;

    #[test]
    fn lists_of_two_lengths_are_not_converted() {
        let record = [101, 0, 2, 2, 0, 0, 0, 0];
        for (length, out_length) in [(8, 7), (7, 8), (8, 0), (0, 8), (1, 0), (0, 1), (8, 16)] {
            let mut out = vec![0xA5; out_length];
            assert_eq!(tinladle_convert_cells(&record[..length], &mut out), (6, 0), "{length} into {out_length}");
            assert_eq!(out, vec![0xA5; out_length]);
        }
        let mut out = [0xA5; 8];
        assert_eq!(tinladle_convert_cells(&record, &mut out), (0, 0));
        assert_eq!(out, [101, 0, 0, 0, 0, 0, 0, 0]);
    }

    /// An answer, and what then stands where there was junk.
    fn over<T: Copy>(junk: T, store: impl FnOnce(&mut [T; 3]) -> (u32, u64)) -> ((u32, u64), [T; 3]) {
        let mut stored = [junk; 3];
        (store(&mut stored), stored)
    }

    /// Each refusal of planes alone, with number and place; then a colour and a grey picture of zeros.
    fn each_answer(mut answer: impl FnMut(Settings, [&[u16]; 3], (u32, u64))) {
        let colour = Settings::new(8, 8, ChromaFormat::Yuv420);
        let grey = Settings::new(8, 8, ChromaFormat::Monochrome);
        let (y, c, none) = (&[0; 64][..], &[0; 16][..], &[][..]);
        answer(Settings { width: 12, ..colour }, [y, c, c], (1, 0));
        answer(Settings { chroma_format: 4, ..colour }, [y, c, c], (2, 0));
        answer(Settings { chroma_depth: 17, ..grey }, [y, none, none], (3, 0));
        answer(colour, [y, c, y], (6, 0));
        answer(grey, [&[256; 64], none, none], (10, 0));
        answer(colour, [y, c, &[256; 16]], (10, 80));
        answer(colour, [y, c, c], (0, 0));
        answer(grey, [y, none, none], (0, 0));
    }

    #[test]
    fn only_the_sums_that_there_are_get_stored() {
        const JUNK: u32 = 0xA5A5_A5A5;
        each_answer(|settings, planes, wanted| {
            let (answer, sums) = over(JUNK, |sums| tinladle_checksum(&settings, planes, sums));
            assert_eq!(answer, wanted);
            let stored = match (answer.0, settings.chroma_format) {
                (0, 0) => [0xE0, JUNK, JUNK],
                (0, _) => [0xE0, 0x18, 0x18],
                _ => [JUNK; 3],
            };
            assert_eq!(sums, stored, "{settings:?}");
        });
    }

    /// What may stand where a part is stored: a number, and NaNs that are quiet, signalling and negative.
    const HELD: [u32; 4] = [0xA5A5_A5A5, 0x7FC0_0000, 0x7FA0_0001, 0xFFFF_FFFF];

    /// The same with floats, by their bits.
    fn parts_over(junk: u32, settings: &Settings, planes: [&[u16]; 3], pixel: (u32, u32)) -> ((u32, u64), [u32; 3]) {
        let ask = |parts: &mut [f32; 3]| tinladle_pixel(settings, planes, pixel.0, pixel.1, parts);
        let (answer, parts) = over(f32::from_bits(junk), ask);
        (answer, parts.map(f32::to_bits))
    }

    #[test]
    fn only_the_parts_that_there_are_get_stored() {
        const LEAST: u32 = 0xBF00_0000; // -0.5, of the chroma sample 0
        for junk in HELD {
            each_answer(|settings, planes, wanted| {
                let stored = match (wanted.0, settings.chroma_format) {
                    (0, 0) => [0, junk, junk],
                    (0, _) => [0, LEAST, LEAST],
                    _ => [junk; 3],
                };
                assert_eq!(parts_over(junk, &settings, planes, (7, 7)), (wanted, stored), "{settings:?}");
                let outside = if wanted.0 == 0 { (14, 0) } else { wanted };
                assert_eq!(parts_over(junk, &settings, planes, (7, 8)), (outside, [junk; 3]), "{settings:?}");
            });
        }
    }

    #[test]
    fn only_a_sample_that_there_is_gets_stored() {
        let over_junk = |depth, chroma, value| {
            let mut sample = 0xA5A5;
            (tinladle_sample(depth, chroma, value, &mut sample), sample)
        };
        assert_eq!(over_junk(8, false, 0.75), ((0, 0), 192));
        assert_eq!(over_junk(8, true, 0.25), ((0, 0), 192));
        assert_eq!(over_junk(8, true, 0.75), ((15, 0), 0xA5A5));
        assert_eq!(over_junk(8, false, f32::NAN), ((15, 0), 0xA5A5));
        assert_eq!(over_junk(7, false, 0.75), ((3, 0), 0xA5A5));
    }
}
