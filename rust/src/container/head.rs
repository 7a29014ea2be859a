//! The head of a file: twenty words of four bytes, low byte first.

use std::io::{self, Read};

use super::BadFile;
use crate::picture::Picture;
use crate::settings::Settings;

/// The first four bytes of a file, low byte first: "TLHS".
pub const MARK: u32 = 0x5348_4C54;
/// The bytes of the head: the mark, nine settings and ten lengths.
pub const HEAD_BYTES: usize = 80;
/// The samples of a plane of the largest picture; every other list is shorter.
pub(super) const LONGEST: u32 = Settings::LARGEST * Settings::LARGEST;

pub(super) const WORDS: usize = HEAD_BYTES / 4;
/// What the ten lengths count, in their order.
const LISTS: [&str; 10] =
    ["Y", "Cb", "Cr", "output Y", "output Cb", "output Cr", "cell bytes", "slice bytes", "tile columns", "tile rows"];

/// The ten lengths of a head, in its order.
pub(super) struct Lengths {
    pub planes: [u32; 3],
    pub outputs: [u32; 3],
    pub cells: u32,
    pub slices: u32,
    pub columns: u32,
    pub rows: u32,
}

impl Lengths {
    /// The bytes of head and lists; it cannot wrap, being below 2^36.
    pub fn bytes(&self) -> u64 {
        let numbers: u64 = self.planes.iter().chain([&self.columns, &self.rows]).map(|&n| u64::from(n)).sum();
        HEAD_BYTES as u64 + 2 * numbers + u64::from(self.cells) + u64::from(self.slices)
    }
}

pub(super) fn words(reader: &mut impl Read) -> Result<[u32; WORDS], BadFile> {
    let mut head = [0; HEAD_BYTES];
    reader.read_exact(&mut head)?;
    let mut words = [0; WORDS];
    for (word, bytes) in words.iter_mut().zip(head.chunks_exact(4)) {
        *word = u32::from_le_bytes([bytes[0], bytes[1], bytes[2], bytes[3]]);
    }
    Ok(words)
}

pub(super) fn settings(words: &[u32; WORDS]) -> Result<Settings, BadFile> {
    Ok(Settings {
        width: words[1],
        height: words[2],
        chroma_format: words[3],
        luma_depth: words[4],
        chroma_depth: words[5],
        log2_ctb: words[6],
        cb_qp_offset: words[7].cast_signed(),
        cr_qp_offset: words[8].cast_signed(),
        pcm_loop_filter_disabled: match words[9] {
            0 => false,
            1 => true,
            other => return Err(BadFile::PcmSwitch(other)),
        },
    })
}

/// The lengths, held to the file's size before anything is allocated by them.
pub(super) fn lengths(words: &[u32; WORDS], size: u64) -> Result<Lengths, BadFile> {
    let lengths = Lengths {
        planes: [words[10], words[11], words[12]],
        outputs: [words[13], words[14], words[15]],
        cells: words[16],
        slices: words[17],
        columns: words[18],
        rows: words[19],
    };
    let needed = lengths.bytes();
    if needed > size {
        return Err(BadFile::TooShort { needed, size });
    }
    // The outputs are not in the file, so that a small file could ask for much memory.
    for (plane, samples) in LISTS[3..6].iter().zip(lengths.outputs) {
        if 2 * u64::from(samples) > size {
            return Err(BadFile::Output { plane, samples, size });
        }
    }
    match LISTS.into_iter().zip(words[10..].iter().copied()).find(|list| list.1 > LONGEST) {
        Some(list) => Err(BadFile::TooLarge { list }),
        None => Ok(lengths),
    }
}

/// The head of a picture.
pub(super) fn encode(picture: &Picture<'_>, outputs: [usize; 3]) -> io::Result<[u32; WORDS]> {
    let s = &picture.settings;
    let mut words = [0; WORDS];
    words[..7].copy_from_slice(&[MARK, s.width, s.height, s.chroma_format, s.luma_depth, s.chroma_depth, s.log2_ctb]);
    words[7] = s.cb_qp_offset.cast_unsigned();
    words[8] = s.cr_qp_offset.cast_unsigned();
    words[9] = u32::from(s.pcm_loop_filter_disabled);
    let [y, cb, cr] = picture.samples().map(<[u16]>::len);
    let lists = [picture.cells.len(), picture.slices.len(), picture.tile_columns.len(), picture.tile_rows.len()];
    let lengths = [y, cb, cr].into_iter().chain(outputs).chain(lists);
    for (word, length) in words[10..].iter_mut().zip(lengths) {
        *word = u32::try_from(length).map_err(|_| io::Error::other("a list is too long for the container"))?;
    }
    Ok(words)
}
