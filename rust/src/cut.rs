//! Tiles: where they lie, a tile cut out as a picture by itself, and samples counted by tile.

use std::error::Error;
use std::fmt;

use crate::deblock;
use crate::memory::{self, OutOfMemory};
use crate::picture::{Picture, PictureBuf, PlanesBuf};
use crate::records::Cell;
use crate::refusal::Refusal;
use crate::settings::{Plane, Settings};

/// A tile of a picture, in luma samples.
#[derive(Clone, Copy, Debug, PartialEq, Eq)]
pub struct Tile {
    /// Its tile column, from 0.
    pub column: usize,
    /// Its tile row, from 0.
    pub row: usize,
    /// Its first column of luma samples.
    pub x: u32,
    /// Its first row of luma samples.
    pub y: u32,
    /// Its columns of luma samples.
    pub width: u32,
    /// Its rows of luma samples.
    pub height: u32,
}

/// Why a tile was not cut out, or not filtered alone.
#[derive(Clone, Debug, PartialEq, Eq)]
pub enum CutError {
    /// The picture's lists do not hold the tile; an accepted picture's do.
    NoTile,
    /// There is not enough memory for the cut or for its output planes.
    Memory(OutOfMemory),
    /// The stage refuses the cut; it does not where it accepts the picture.
    Refused(Refusal),
}

impl fmt::Display for CutError {
    fn fmt(&self, f: &mut fmt::Formatter<'_>) -> fmt::Result {
        match self {
            CutError::NoTile => f.write_str("the picture's lists do not hold the tile"),
            CutError::Memory(error) => error.fmt(f),
            CutError::Refused(refusal) => refusal.fmt(f),
        }
    }
}

impl Error for CutError {}

impl From<OutOfMemory> for CutError {
    fn from(error: OutOfMemory) -> Self {
        CutError::Memory(error)
    }
}

impl From<Refusal> for CutError {
    fn from(refusal: Refusal) -> Self {
        CutError::Refused(refusal)
    }
}

/// A part of a list that lies row by row.
#[derive(Clone, Copy)]
struct Part {
    stride: usize,
    x: usize,
    y: usize,
    width: usize,
    height: usize,
}

impl Part {
    /// A row of the part; `None` where the list does not hold it.
    fn row<T>(self, list: &[T], row: usize) -> Option<&[T]> {
        let end = self.x.checked_add(self.width).filter(|&end| end <= self.stride)?;
        let at = self.y.checked_add(row)?.checked_mul(self.stride)?;
        list.get(at.checked_add(self.x)?..at.checked_add(end)?)
    }

    /// The part's items by themselves.
    fn copied<T: Copy>(self, list: &[T]) -> Result<Vec<T>, CutError> {
        // Were the last row not there, there would be no need to ask for memory.
        if let Some(last) = self.height.checked_sub(1) {
            self.row(list, last).ok_or(CutError::NoTile)?;
        }
        let mut items = memory::room(self.width.saturating_mul(self.height))?;
        for row in 0..self.height {
            items.extend_from_slice(self.row(list, row).ok_or(CutError::NoTile)?);
        }
        Ok(items)
    }
}

/// In how many places two rows differ.
fn places(one: &[u16], other: &[u16]) -> u64 {
    one.iter().zip(other).filter(|(p, q)| p != q).count() as u64
}

impl Tile {
    /// The tile in a plane of the picture, in that plane's own samples.
    fn part(&self, s: &Settings, plane: Plane) -> Option<Part> {
        let (across, down) = s.scale(plane)?;
        Some(Part {
            stride: (s.width / across) as usize,
            x: (self.x / across) as usize,
            y: (self.y / down) as usize,
            width: (self.width / across) as usize,
            height: (self.height / down) as usize,
        })
    }

    /// The tile in the cell records, in bytes across and in cells down.
    fn cell_part(&self, s: &Settings) -> Part {
        Part {
            stride: (s.width / 4) as usize * Cell::BYTES,
            x: (self.x / 4) as usize * Cell::BYTES,
            y: (self.y / 4) as usize,
            width: (self.width / 4) as usize * Cell::BYTES,
            height: (self.height / 4) as usize,
        }
    }
}

/// The first sample and the length of each tile along one side.
fn spans(starts: &[u16], log2_ctb: u32, total: u32) -> Vec<(u32, u32)> {
    let first = |start: u16| (u32::from(start) << log2_ctb.min(6)).min(total);
    let ends = starts.iter().skip(1).map(|&start| first(start)).chain([total]);
    starts.iter().zip(ends).map(|(&start, end)| (first(start), end.saturating_sub(first(start)))).collect()
}

/// The tiles of an accepted picture, row by row. Of a refused picture the answer means nothing.
pub fn tiles(picture: &Picture<'_>) -> Vec<Tile> {
    let s = &picture.settings;
    let columns = spans(picture.tile_columns, s.log2_ctb, s.width);
    let rows = spans(picture.tile_rows, s.log2_ctb, s.height);
    let mut found = Vec::with_capacity(columns.len() * rows.len());
    for (row, &(y, height)) in rows.iter().enumerate() {
        for (column, &(x, width)) in columns.iter().enumerate() {
            found.push(Tile { column, row, x, y, width, height });
        }
    }
    found
}

/// The tile cut out, as document 01 says: a picture of the tile's size with its samples and cell records, one tile,
/// all else as in the picture.
pub fn cut(picture: &Picture<'_>, tile: &Tile) -> Result<PictureBuf, CutError> {
    let s = &picture.settings;
    let samples = |plane| match tile.part(s, plane) {
        Some(part) => part.copied(picture.plane(plane)),
        None => Ok(Vec::new()),
    };
    Ok(PictureBuf {
        settings: Settings { width: tile.width, height: tile.height, ..*s },
        planes: PlanesBuf { y: samples(Plane::Y)?, cb: samples(Plane::Cb)?, cr: samples(Plane::Cr)? },
        cells: tile.cell_part(s).copied(picture.cells)?,
        slices: picture.slices.to_vec(),
        tile_columns: vec![0],
        tile_rows: vec![0],
    })
}

/// How many samples of the tile differ between two pictures of one size and format, in each plane. Samples that a
/// plane lacks are not counted.
pub fn differing(settings: &Settings, tile: &Tile, a: [&[u16]; 3], b: [&[u16]; 3]) -> [u64; 3] {
    let mut counts = [0; 3];
    for (i, plane) in Plane::ALL.into_iter().enumerate() {
        let Some(part) = tile.part(settings, plane) else { continue };
        let rows = (0..part.height).map_while(|row| part.row(a[i], row).zip(part.row(b[i], row)));
        counts[i] = rows.map(|(one, other)| places(one, other)).sum();
    }
    counts
}

/// Term 3 for one tile: the tile is cut out and filtered as a picture by itself, and the samples are counted, over
/// all planes, in which it differs from the tile of the finished picture. The stage is proved to make this 0 for
/// every tile of an accepted picture. Samples that the finished planes lack count as differing.
pub fn apart(picture: &Picture<'_>, finished: &PlanesBuf, tile: &Tile) -> Result<u64, CutError> {
    let alone = cut(picture, tile)?;
    // The outputs may hold anything beforehand: here a value that a sample left out would show.
    let mut out = PlanesBuf::try_filled(alone.planes.lengths(), 0xABCD)?;
    deblock(&alone.picture(), &mut out.planes())?;
    let mut count = 0;
    for plane in Plane::ALL {
        let Some(part) = tile.part(&picture.settings, plane) else { continue };
        for (row, by_itself) in out.plane(plane).chunks(part.width).enumerate() {
            let within = part.row(finished.plane(plane), row);
            count += within.map_or(by_itself.len() as u64, |within| places(within, by_itself));
        }
    }
    Ok(count)
}
