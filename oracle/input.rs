//! Records of README.md, as pictures; and planes, as bytes.

use std::io::{self, Read, Write};

use crate::picture::Picture;

const MARK: u32 = 0x53484C54;

struct Input {
    data: Vec<u8>,
    at: usize,
}

impl Input {
    fn bytes(&mut self, count: usize) -> Vec<u8> {
        self.at += count;
        self.data[self.at - count..self.at].to_vec()
    }

    fn word(&mut self) -> u32 {
        u32::from_le_bytes(self.bytes(4).try_into().unwrap())
    }

    fn numbers(&mut self, count: usize) -> Vec<u16> {
        self.bytes(2 * count).chunks(2).map(|b| u16::from_le_bytes([b[0], b[1]])).collect()
    }

    fn picture(&mut self) -> Picture {
        assert_eq!(self.word(), MARK);
        let settings: [u32; 9] = std::array::from_fn(|_| self.word());
        let lengths: [usize; 10] = std::array::from_fn(|_| self.word() as usize);
        Picture {
            width: settings[0],
            height: settings[1],
            format: settings[2],
            luma_depth: settings[3],
            chroma_depth: settings[4],
            log2_ctb: settings[5],
            cb_offset: settings[6] as i32,
            cr_offset: settings[7] as i32,
            pcm_switch: settings[8] != 0,
            planes: [0, 1, 2].map(|plane| self.numbers(lengths[plane])),
            out_lengths: [lengths[3], lengths[4], lengths[5]],
            cells: self.bytes(lengths[6]),
            slices: self.bytes(lengths[7]),
            columns: self.numbers(lengths[8]),
            rows: self.numbers(lengths[9]),
        }
    }
}

/// The pictures on standard input, one after another.
pub fn pictures() -> io::Result<impl Iterator<Item = Picture>> {
    let mut data = Vec::new();
    io::stdin().lock().read_to_end(&mut data)?;
    let mut input = Input { data, at: 0 };
    Ok(std::iter::from_fn(move || (input.at < input.data.len()).then(|| input.picture())))
}

/// 16-bit samples, low byte first.
pub fn write_planes(to: &mut impl Write, planes: &[Vec<u16>; 3]) -> io::Result<()> {
    planes.iter().flatten().try_for_each(|sample| to.write_all(&sample.to_le_bytes()))
}
