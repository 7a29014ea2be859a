//! Pictures for the tests, and a run that looks at all that no answer may change.

#![allow(dead_code)]

pub mod planes;
pub mod stored;
pub mod tool;

use tinladle::{
    Bs, Cell, Cells, Checksums, ChromaFormat, PictureBuf, Plane, PlanesBuf, Refusal, Settings, Slice, Slices, deblock,
};

/// What the output planes hold before the stage runs.
pub const JUNK: u16 = 0xABCD;

pub const FORMATS: [ChromaFormat; 4] =
    [ChromaFormat::Monochrome, ChromaFormat::Yuv420, ChromaFormat::Yuv422, ChromaFormat::Yuv444];

/// A cell of this QP with both edges at bS 2.
pub fn edges(qp: i32) -> Cell {
    Cell::new(qp).unwrap().left_edge(Bs::Two).top_edge(Bs::Two)
}

/// Flat planes of 100, every cell alike, one slice with offsets 0, one tile.
pub fn flat(settings: Settings, cell: Cell) -> PictureBuf {
    let mut slices = Slices::new();
    slices.push(Slice::new()).unwrap();
    PictureBuf {
        settings,
        planes: PlanesBuf::filled(Plane::ALL.map(|plane| settings.plane_len(plane) as usize), 100),
        cells: Cells::filled(&settings, cell).as_bytes().to_vec(),
        slices: slices.as_bytes().to_vec(),
        tile_columns: vec![0],
        tile_rows: vec![0],
    }
}

/// 8 by 8, format 0, depth 8: four cells.
pub fn small() -> PictureBuf {
    flat(Settings::new(8, 8, ChromaFormat::Monochrome), Cell::new(37).unwrap())
}

/// 16 by 8, format 1: 128, 32 and 32 samples, 8 cells.
pub fn colour() -> PictureBuf {
    flat(Settings::new(16, 8, ChromaFormat::Yuv420), Cell::new(37).unwrap())
}

/// Settings with these depths.
pub fn of_depths(settings: Settings, luma_depth: u32, chroma_depth: u32) -> Settings {
    Settings { luma_depth, chroma_depth, ..settings }
}

/// A picture, changed.
pub fn with(picture: PictureBuf, change: impl FnOnce(&mut PictureBuf)) -> PictureBuf {
    let mut changed = picture;
    change(&mut changed);
    changed
}

/// A list of samples, each by its column and row.
pub fn samples(width: usize, height: usize, sample: impl Fn(usize, usize) -> u16) -> Vec<u16> {
    (0..width * height).map(|i| sample(i % width, i / width)).collect()
}

/// 16 by 8, format 0: S1's step of document 01 at column 8, from 100 to 104.
pub fn step() -> PictureBuf {
    let mut picture = flat(Settings::new(16, 8, ChromaFormat::Monochrome), edges(37));
    picture.planes.y = samples(16, 8, |x, _| if x < 8 { 100 } else { 104 });
    picture
}

/// The stage on a picture, over junk in output planes of these lengths. The originals must stay, and on a refusal the
/// junk.
pub fn run_into(picture: &PictureBuf, lengths: [usize; 3]) -> Result<PlanesBuf, Refusal> {
    let before = picture.clone();
    let mut out = PlanesBuf::filled(lengths, JUNK);
    let answer = deblock(&picture.picture(), &mut out.planes());
    assert_eq!(*picture, before, "an input was written");
    if answer.is_err() {
        assert_eq!(out, PlanesBuf::filled(lengths, JUNK), "a refusal wrote an output plane");
    }
    answer.map(|()| out)
}

/// The same with output planes as long as the originals.
pub fn run(picture: &PictureBuf) -> Result<PlanesBuf, Refusal> {
    run_into(picture, picture.planes.lengths())
}

/// A cell list converted as document 02's C-14 says, record by record; the bytes after the last whole record are copied.
pub fn by_the_rule(cells: &[u8]) -> Vec<u8> {
    let mut wanted = cells.to_vec();
    for record in wanted.chunks_exact_mut(8) {
        if record[1] & 1 == 0 {
            record[2] = 0;
        }
        if record[1] & 2 == 0 {
            record[3] = 0;
        }
    }
    wanted
}

/// The checksum of a plane of this width and depth, straight from H.265, Annex D.
fn annex_d_of_plane(samples: &[u16], width: usize, depth: u32) -> u32 {
    let mut sum = 0;
    for (i, &sample) in samples.iter().enumerate() {
        let (x, y, sample) = ((i % width) as u64, (i / width) as u64, u64::from(sample));
        let mask = (x & 0xFF) ^ (y & 0xFF) ^ (x >> 8) ^ (y >> 8);
        sum = (sum + ((sample & 0xFF) ^ mask)) & 0xFFFF_FFFF;
        if depth > 8 {
            sum = (sum + ((sample >> 8) ^ mask)) & 0xFFFF_FFFF;
        }
    }
    sum as u32
}

/// Those of a picture's planes, by the chroma formats of the standard.
pub fn annex_d(s: &Settings, planes: &PlanesBuf) -> Checksums {
    let width = s.width as usize;
    let y = annex_d_of_plane(&planes.y, width, s.luma_depth);
    let chroma = |samples, across| annex_d_of_plane(samples, width / across, s.chroma_depth);
    match s.chroma_format {
        0 => Checksums::One(y),
        1 | 2 => Checksums::Three { y, cb: chroma(&planes.cb, 2), cr: chroma(&planes.cr, 2) },
        _ => Checksums::Three { y, cb: chroma(&planes.cb, 1), cr: chroma(&planes.cr, 1) },
    }
}

/// The bits of n / 2^depth as a 32-bit float, put together from sign, exponent and mantissa.
pub fn fraction_bits(n: i32, depth: u32) -> u32 {
    if n == 0 {
        return 0;
    }
    let size = n.unsigned_abs();
    let exponent = size.ilog2();
    let mantissa = (size << (23 - exponent)) & 0x7F_FFFF;
    (u32::from(n < 0) << 31) | ((127 + exponent - depth) << 23) | mantissa
}

/// The bits of the float that a sample gives, as document 02's C-22 says.
pub fn part_bits(depth: u32, chroma: bool, sample: u16) -> u32 {
    let middle = if chroma { 1 << (depth - 1) } else { 0 };
    fraction_bits(i32::from(sample) - middle, depth)
}

/// Every sample of a depth.
pub fn every_sample(depth: u32) -> impl Iterator<Item = u16> {
    (0..1_u32 << depth).map(|sample| sample as u16)
}
