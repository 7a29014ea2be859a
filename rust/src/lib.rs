//! The HEVC deblocking filter (ITU-T H.265, clause 8.7.2) on one whole picture.
//!
//! [`deblock`] is a safe call of the proved C function `tinladle_deblock`: it answers any input with a filtered
//! picture or with one of ten [refusals](Cause), and filters each tile as if it were a picture alone. No sample leaves
//! its range or moves farther than [`Settings::move_bound`]; how far one did move, [`moves`] finds. [`checksum`] gives
//! the picture checksums of Annex D, by which a decoded picture is held to its stream. [`pixel`] gives a pixel of
//! finished planes as 32-bit floats, for a recogniser, and [`sample`] finds the sample that gives a float.
//!
//! ```
//! use tinladle::{Bs, Cell, Cells, ChromaFormat, Picture, PlanesBuf, Settings, Slice, deblock};
//!
//! // 16 by 8, luma alone: 100 left of column 8 and 104 from there on, with an edge of bS 2 between.
//! let settings = Settings::new(16, 8, ChromaFormat::Monochrome);
//! let y: Vec<u16> = (0..16 * 8).map(|i| if i % 16 < 8 { 100 } else { 104 }).collect();
//! let mut cells = Cells::filled(&settings, Cell::new(37)?);
//! for row in 0..cells.rows() {
//!     cells.set(2, row, Cell::new(37)?.left_edge(Bs::Two));
//! }
//! let picture = Picture {
//!     settings,
//!     y: &y,
//!     cb: &[],
//!     cr: &[],
//!     cells: cells.as_bytes(),
//!     slices: &Slice::new().to_bytes(), // one slice with offsets 0
//!     tile_columns: &[0],
//!     tile_rows: &[0],
//! };
//! let mut out = PlanesBuf::filled([16 * 8, 0, 0], 0);
//! deblock(&picture, &mut out.planes())?;
//! assert_eq!(out.y[4..12], [100, 101, 101, 102, 103, 103, 104, 104]);
//!
//! let bad = Picture { settings: Settings { width: 12, ..settings }, ..picture };
//! let refusal = deblock(&bad, &mut out.planes()).unwrap_err();
//! assert_eq!((refusal.number(), refusal.place()), (1, 0));
//! assert_eq!(refusal.to_string(), "refused 1: width or height is not allowed: width 12");
//! # Ok::<(), Box<dyn std::error::Error>>(())
//! ```
//!
//! # Which edges are filtered
//!
//! Nothing is refused for these rules: an edge that one of them leaves out is silently not filtered, and the picture
//! comes out different.
//!
//! - Edges lie on the multiples of 8 of each plane's own samples. An edge anywhere else is allowed and does nothing.
//!   A chroma plane with half the columns (4:2:0, 4:2:2) has its vertical edges at luma columns 16, 32 and so on, one
//!   with half the rows (4:2:0) its horizontal edges at luma rows 16, 32 and so on.
//! - Four samples along an edge are filtered alike. Where in chroma they span two cells on a side, the first of the
//!   two gives edge, bS, QP and slice.
//! - No edge on the picture's border, luma column 0 or row 0, is filtered.
//! - [`Bs::One`] filters luma alone. Chroma is filtered with [`Bs::Two`].
//! - No edge between two tiles is filtered. A stream that filters across its tiles
//!   (`loop_filter_across_tiles_enabled_flag` 1) is passed as one tile: `&[0]` in [`Picture::tile_columns`] and in
//!   [`Picture::tile_rows`].
//!
//! # A strength needs its edge
//!
//! In a cell record a vertical bS above 0, that of the edge on the left side, needs flag bit 0, and a horizontal bS
//! above 0, that of the edge on the top side, flag bit 1; else the picture is refused ([`Cause::Cell`]). A [`Cell`]
//! always obeys. A list that was stored before the rule is converted by [`convert_cells`], which sets each strength
//! without its edge flag to 0: a picture that was accepted before is accepted with the converted list, and its output
//! planes are the same.
//!
//! # Without slice records
//!
//! An empty [`Picture::slices`] stands for one slice, [`Slice::of_empty_list`]: filtered, across its borders too, with
//! `slice_beta_offset_div2` 0 and `slice_tc_offset_div2` -1. Every cell is then of slice 0. To filter with offsets 0
//! pass [`Slice::new`] outright.

// The example in README.md is tested with the others.
#[cfg(doctest)]
#[doc = include_str!("../README.md")]
struct Readme;

pub mod container;
pub mod cut;
pub mod image;
pub mod moves;

mod checksums;
mod counted;
mod faults;
mod ffi;
mod library;
mod memory;
mod picture;
mod pixels;
mod records;
mod refusal;
mod settings;

pub use checksums::Checksums;
pub use memory::OutOfMemory;
pub use picture::{Picture, PictureBuf, Planes, PlanesBuf};
pub use pixels::{Colour, Pixel};
pub use records::{Bs, Cell, Cells, OutOfRange, Slice, Slices};
pub use refusal::{Cause, Refusal};
pub use settings::{ChromaFormat, Plane, Settings};

/// Filters a picture: on `Ok` the output planes hold the filtered samples, on a refusal what they held before.
///
/// Every picture is allowed, of any numbers and lengths: the stage makes every check itself. It runs on the caller's
/// thread, allocates nothing and keeps nothing, so any number of threads may call it on planes of their own.
///
/// Output planes cannot overlap one another or an input, since that does not compile:
///
/// ```compile_fail,E0499
/// let mut one = vec![0u16; 64];
/// let out = tinladle::Planes { y: &mut one, cb: &mut one, cr: &mut [] };
/// drop(out);
/// ```
///
/// ```compile_fail,E0502
/// # use tinladle::*;
/// # let settings = Settings::new(8, 8, ChromaFormat::Monochrome);
/// # let cells = Cells::filled(&settings, Cell::new(37).unwrap());
/// let mut y = vec![0u16; 64];
/// let picture = Picture {
///     settings, y: &y, cb: &[], cr: &[], cells: cells.as_bytes(), slices: &Slice::new().to_bytes(),
///     tile_columns: &[0], tile_rows: &[0],
/// };
/// let _ = deblock(&picture, &mut Planes { y: &mut y, cb: &mut [], cr: &mut [] });
/// ```
pub fn deblock(picture: &Picture<'_>, out: &mut Planes<'_>) -> Result<(), Refusal> {
    let answer = ffi::tinladle_deblock(picture, out.y, out.cb, out.cr);
    let lengths = [out.y.len(), out.cb.len(), out.cr.len()];
    Refusal::or_accepted(answer, |cause, place| faults::detail(cause, place, picture, lengths))
}

/// A stored cell list as [the rule](crate#a-strength-needs-its-edge) wants it: each strength without its edge flag is
/// 0, and all else is copied. A call of the proved C function `tinladle_convert_cells`.
///
/// A list of any length and any bytes is converted, and no record is refused; the 1 to 7 bytes of a partial last record
/// are copied. A list in rule stays the same, so that converting twice is converting once.
///
/// ```
/// use tinladle::{Bs, Cell, convert_cells};
///
/// let in_rule = Cell::new(37)?.left_edge(Bs::Two).to_bytes();
/// let mut stored = in_rule;
/// stored[3] = 1; // a horizontal bS, with no edge on the top side
/// assert_eq!(convert_cells(&stored)?, in_rule);
/// assert_eq!(convert_cells(&in_rule)?, in_rule);
/// # Ok::<(), Box<dyn std::error::Error>>(())
/// ```
pub fn convert_cells(cells: &[u8]) -> Result<Vec<u8>, OutOfMemory> {
    let mut converted = memory::filled(cells.len(), 0)?;
    let answer = ffi::tinladle_convert_cells(cells, &mut converted);
    assert_eq!(answer, (0, 0), "the library converts into a list of the same length: its contract");
    Ok(converted)
}

/// The picture checksums of H.265, Annex D (decoded picture hash, `hash_type` 2), of three planes, modulo 2^32. A call
/// of the proved C function `tinladle_checksum`.
///
/// The planes are taken as they are given. An encoder writes the sums of its finished planes into its stream, and what
/// [`deblock`] leaves has the same ones where no filter comes after it (SAO off). For each sample the mask is x xor y
/// xor (x >> 8) xor (y >> 8) on the low bytes of x and y, its column and row in its own plane. The sample's low byte
/// xor the mask joins the plane's sum; where the plane's own depth is above 8, its high part xor the mask joins too.
///
/// Of the settings width, height, chroma format and the two depths play a part, and no other. The causes of a refusal
/// are [`Cause::Size`], [`Cause::ChromaFormat`], [`Cause::Depth`], [`Cause::Length`] of a plane and [`Cause::Sample`],
/// looked for in this order. Both depths are checked in every format; a monochrome picture has empty chroma planes.
///
/// ```
/// use tinladle::{Cell, Cells, Checksums, ChromaFormat, Picture, PlanesBuf, Settings, checksum, deblock};
///
/// // 8 by 8 zeros at depth 8, 4:2:0, with nothing to filter.
/// let settings = Settings::new(8, 8, ChromaFormat::Yuv420);
/// let given = PlanesBuf::filled([64, 16, 16], 0);
/// let cells = Cells::filled(&settings, Cell::new(37)?);
/// let picture = Picture {
///     settings,
///     y: &given.y,
///     cb: &given.cb,
///     cr: &given.cr,
///     cells: cells.as_bytes(),
///     slices: &[],
///     tile_columns: &[0],
///     tile_rows: &[0],
/// };
/// let mut finished = PlanesBuf::filled(given.lengths(), 1);
/// deblock(&picture, &mut finished.planes())?;
/// let sums = checksum(&settings, finished.samples())?;
/// assert_eq!(sums, Checksums::Three { y: 0xe0, cb: 0x18, cr: 0x18 });
///
/// // A monochrome picture has one sum. At depth 10 each sample joins it twice.
/// let grey = Settings { luma_depth: 10, ..Settings::new(8, 8, ChromaFormat::Monochrome) };
/// assert_eq!(checksum(&grey, [&given.y, &[], &[]])?, Checksums::One(0x1c0));
///
/// let refusal = checksum(&grey, given.samples()).unwrap_err();
/// assert_eq!((refusal.number(), refusal.place()), (6, 0));
/// assert_eq!(refusal.to_string(), "refused 6: a plane or list is not of its length: Cb has 16 samples, not 0");
/// # Ok::<(), Box<dyn std::error::Error>>(())
/// ```
pub fn checksum(settings: &Settings, planes: [&[u16]; 3]) -> Result<Checksums, Refusal> {
    let mut sums = [0; 3];
    let answer = ffi::tinladle_checksum(settings, planes, &mut sums);
    Refusal::or_accepted(answer, |cause, place| faults::of_planes(cause, place, settings, planes))?;
    let [y, cb, cr] = sums;
    Ok(if settings.is_monochrome() { Checksums::One(y) } else { Checksums::Three { y, cb, cr } })
}

/// A pixel of three planes as 32-bit floats. A call of the proved C function `tinladle_pixel`.
///
/// The part of luma is the sample at the column and the row, over 2^depth. In a format with chroma the parts of Cb and
/// Cr are of the sample under the pixel, whose column and row are the pixel's, each divided by the format's
/// [scale](Settings::scale) and rounded down: the sample less 2^(depth - 1), over 2^depth. The depth is the plane's
/// own. Each float is exactly that fraction; the middle sample of chroma gives 0.0.
///
/// The planes are taken as they are given, and of the settings those of [`checksum`] play a part, and no other. The
/// causes of a refusal are those of [`checksum`] and after them [`Cause::Pixel`]. Every call looks at every sample of
/// the planes, for [`Cause::Sample`].
///
/// ```
/// use tinladle::{ChromaFormat, Colour, Pixel, PlanesBuf, Settings, pixel, sample};
///
/// // 8 by 8 in 4:2:0, of depth 8 in luma and 10 in chroma. The pixel in column 3, row 2 is over column 1, row 1.
/// let settings = Settings { chroma_depth: 10, ..Settings::new(8, 8, ChromaFormat::Yuv420) };
/// let mut finished = PlanesBuf::filled([64, 16, 16], 0);
/// (finished.y[2 * 8 + 3], finished.cb[4 + 1], finished.cr[4 + 1]) = (200, 512 - 64, 512);
/// let found = pixel(&settings, finished.samples(), 3, 2)?;
/// assert_eq!(found, Pixel::Colour(Colour { luma: 200.0 / 256.0, cb: -64.0 / 1024.0, cr: 0.0 }));
/// assert_eq!(sample(10, true, -64.0 / 1024.0)?, 512 - 64);
///
/// let grey = Settings::new(8, 8, ChromaFormat::Monochrome);
/// assert_eq!(pixel(&grey, [&finished.y, &[], &[]], 3, 2)?, Pixel::Grey(0.78125));
///
/// let refusal = pixel(&grey, [&finished.y, &[], &[]], 8, 2).unwrap_err();
/// assert_eq!((refusal.number(), refusal.place()), (14, 0));
/// assert_eq!(refusal.to_string(), "refused 14: the pixel lies outside the picture: column 8 of 8");
/// # Ok::<(), Box<dyn std::error::Error>>(())
/// ```
pub fn pixel(settings: &Settings, planes: [&[u16]; 3], column: u32, row: u32) -> Result<Pixel, Refusal> {
    let mut parts = [0.0; 3];
    let answer = ffi::tinladle_pixel(settings, planes, column, row, &mut parts);
    Refusal::or_accepted(answer, |cause, place| match cause {
        Cause::Pixel => faults::of_pixel(settings, column, row),
        cause => faults::of_planes(cause, place, settings, planes),
    })?;
    let [luma, cb, cr] = parts;
    Ok(if settings.is_monochrome() { Pixel::Grey(luma) } else { Pixel::Colour(Colour { luma, cb, cr }) })
}

/// The way back from [`pixel`]: the sample whose part the float is, bit for bit, told its depth and whether it is of
/// chroma. A call of the proved C function `tinladle_sample`.
///
/// Of the floats exactly 2^depth are taken, one for each sample. The causes of a refusal are [`Cause::Depth`] and then
/// [`Cause::Float`], which every other float has: a NaN, the infinities, -0.0, what lies between two samples by however
/// little, and what lies outside their range.
///
/// ```
/// use tinladle::sample;
///
/// assert_eq!(sample(8, false, 0.78125)?, 200);
/// assert_eq!(sample(8, true, -0.0625)?, 112);
/// assert_eq!(sample(8, true, 0.0)?, 128);
///
/// let refusal = sample(8, true, -0.0).unwrap_err();
/// assert_eq!((refusal.number(), refusal.place()), (15, 0));
/// let sentence = "refused 15: no sample gives the float: -0.0, bits 0x80000000, in chroma of depth 8";
/// assert_eq!(refusal.to_string(), sentence);
/// # Ok::<(), Box<dyn std::error::Error>>(())
/// ```
pub fn sample(depth: u32, chroma: bool, value: f32) -> Result<u16, Refusal> {
    let mut sample = 0;
    let answer = ffi::tinladle_sample(depth, chroma, value, &mut sample);
    Refusal::or_accepted(answer, |cause, _| faults::of_float(cause, depth, chroma, value))?;
    Ok(sample)
}
