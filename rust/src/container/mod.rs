//! A picture in a file: `rust/README.md` has the layout.

mod bad_file;
mod head;

use std::io::{self, Read, Write};

use crate::memory;
use crate::picture::{PictureBuf, PlanesBuf};

pub use bad_file::BadFile;
pub use head::{HEAD_BYTES, MARK};

// Samples go through a small buffer, so that a file is never in memory twice.
const BUFFER: usize = 1 << 16;

/// A picture as it is stored, with the lengths that its output planes are to have.
#[derive(Clone, Debug, PartialEq, Eq)]
pub struct StoredPicture {
    /// The picture.
    pub picture: PictureBuf,
    /// The samples of the output planes; those of the originals, unless the picture is to be refused.
    pub output_lengths: [usize; 3],
}

fn read_bytes(reader: &mut impl Read, length: u32) -> Result<Vec<u8>, BadFile> {
    let mut bytes = memory::filled(length as usize, 0)?;
    reader.read_exact(&mut bytes)?;
    Ok(bytes)
}

fn read_numbers(reader: &mut impl Read, length: u32) -> Result<Vec<u16>, BadFile> {
    let mut numbers = memory::room(length as usize)?;
    let mut buffer = [0; BUFFER];
    let mut left = 2 * length as usize;
    while left > 0 {
        let part = &mut buffer[..left.min(BUFFER)];
        reader.read_exact(part)?;
        numbers.extend(part.chunks_exact(2).map(|pair| u16::from_le_bytes([pair[0], pair[1]])));
        left -= part.len();
    }
    Ok(numbers)
}

impl StoredPicture {
    /// Reads one picture from the front of `size` bytes, and says how many bytes it had.
    fn read_first(reader: &mut impl Read, size: u64) -> Result<(Self, u64), BadFile> {
        if size < HEAD_BYTES as u64 {
            return Err(BadFile::NoHead { size });
        }
        let words = head::words(reader)?;
        if words[0] != MARK {
            return Err(BadFile::WrongMark(words[0]));
        }
        let settings = head::settings(&words)?;
        let lengths = head::lengths(&words, size)?;
        let [y, cb, cr] = lengths.planes;
        let planes =
            PlanesBuf { y: read_numbers(reader, y)?, cb: read_numbers(reader, cb)?, cr: read_numbers(reader, cr)? };
        let picture = PictureBuf {
            settings,
            planes,
            cells: read_bytes(reader, lengths.cells)?,
            slices: read_bytes(reader, lengths.slices)?,
            tile_columns: read_numbers(reader, lengths.columns)?,
            tile_rows: read_numbers(reader, lengths.rows)?,
        };
        let output_lengths = lengths.outputs.map(|length| length as usize);
        Ok((StoredPicture { picture, output_lengths }, lengths.bytes()))
    }

    /// Reads a file of `size` bytes that holds one picture and nothing else.
    pub fn read(reader: &mut impl Read, size: u64) -> Result<Self, BadFile> {
        let (stored, bytes) = Self::read_first(reader, size)?;
        if bytes < size {
            return Err(BadFile::TooLong { trailing: size - bytes });
        }
        Ok(stored)
    }

    /// The first picture of a run of them, and the bytes after it.
    pub fn split_first(bytes: &[u8]) -> Result<(Self, &[u8]), BadFile> {
        let mut rest = bytes;
        let (stored, _) = Self::read_first(&mut rest, bytes.len() as u64)?;
        Ok((stored, rest))
    }

    /// A picture with output planes of its own lengths.
    pub fn new(picture: PictureBuf) -> Self {
        let output_lengths = picture.planes.lengths();
        StoredPicture { picture, output_lengths }
    }

    /// The picture with these planes in place of its own.
    pub fn with_planes(self, planes: PlanesBuf) -> Self {
        StoredPicture { picture: PictureBuf { planes, ..self.picture }, ..self }
    }

    /// Writes the picture as [`StoredPicture::read`] reads it.
    pub fn write(&self, out: &mut impl Write) -> io::Result<()> {
        let picture = self.picture.picture();
        for word in head::encode(&picture, self.output_lengths)? {
            out.write_all(&word.to_le_bytes())?;
        }
        for plane in picture.samples() {
            write_numbers(out, plane)?;
        }
        out.write_all(picture.cells)?;
        out.write_all(picture.slices)?;
        write_numbers(out, picture.tile_columns)?;
        write_numbers(out, picture.tile_rows)
    }
}

fn write_numbers(out: &mut impl Write, numbers: &[u16]) -> io::Result<()> {
    let mut buffer = Vec::with_capacity(BUFFER);
    for part in numbers.chunks(BUFFER / 2) {
        buffer.clear();
        buffer.extend(part.iter().flat_map(|number| number.to_le_bytes()));
        out.write_all(&buffer)?;
    }
    Ok(())
}
