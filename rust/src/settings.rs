//! What holds for a whole picture, and the sizes that follow from it.

use std::fmt;

/// One of the three planes of a picture.
#[derive(Clone, Copy, Debug, PartialEq, Eq, Hash)]
pub enum Plane {
    /// Luma.
    Y,
    /// The blue colour difference.
    Cb,
    /// The red colour difference.
    Cr,
}

impl Plane {
    /// The planes in the order of the container and of the places of refusal 10.
    pub const ALL: [Plane; 3] = [Plane::Y, Plane::Cb, Plane::Cr];
}

impl fmt::Display for Plane {
    fn fmt(&self, f: &mut fmt::Formatter<'_>) -> fmt::Result {
        f.pad(match self {
            Plane::Y => "Y",
            Plane::Cb => "Cb",
            Plane::Cr => "Cr",
        })
    }
}

/// How the chroma planes are sampled: the numbers that [`Settings::chroma_format`] takes.
#[derive(Clone, Copy, Debug, PartialEq, Eq, Hash)]
pub enum ChromaFormat {
    /// Number 0: no chroma planes.
    Monochrome,
    /// Number 1, 4:2:0: half the width, half the height.
    Yuv420,
    /// Number 2, 4:2:2: half the width.
    Yuv422,
    /// Number 3, 4:4:4: the luma plane's size.
    Yuv444,
}

impl ChromaFormat {
    /// The format's number in the standard.
    pub const fn number(self) -> u32 {
        match self {
            ChromaFormat::Monochrome => 0,
            ChromaFormat::Yuv420 => 1,
            ChromaFormat::Yuv422 => 2,
            ChromaFormat::Yuv444 => 3,
        }
    }
}

/// The settings of a picture. Plain numbers: any value may stand here, and the stage refuses what is no picture.
#[derive(Clone, Copy, Debug, PartialEq, Eq)]
pub struct Settings {
    /// Width in luma samples: a multiple of 8, from 8 to 8192.
    pub width: u32,
    /// Height in luma samples: a multiple of 8, from 8 to 8192.
    pub height: u32,
    /// 0 none, 1 4:2:0, 2 4:2:2, 3 4:4:4; see [`ChromaFormat::number`].
    pub chroma_format: u32,
    /// Bits of a luma sample, 8 to 16.
    pub luma_depth: u32,
    /// Bits of a chroma sample, 8 to 16; checked in every format.
    pub chroma_depth: u32,
    /// log2 of the size of a coding tree block (CTB), 4 to 6.
    pub log2_ctb: u32,
    /// `pps_cb_qp_offset`, -12 to 12; checked in every format.
    pub cb_qp_offset: i32,
    /// `pps_cr_qp_offset`, -12 to 12; checked in every format.
    pub cr_qp_offset: i32,
    /// A cell marked PCM keeps its original samples.
    pub pcm_loop_filter_disabled: bool,
}

impl Settings {
    /// The largest width and the largest height that a picture can have.
    pub const LARGEST: u32 = 8192;

    /// Depth 8, CTBs of 16 by 16, offsets 0, the PCM switch off.
    pub const fn new(width: u32, height: u32, format: ChromaFormat) -> Self {
        Settings {
            width,
            height,
            chroma_format: format.number(),
            luma_depth: 8,
            chroma_depth: 8,
            log2_ctb: 4,
            cb_qp_offset: 0,
            cr_qp_offset: 0,
            pcm_loop_filter_disabled: false,
        }
    }

    pub(crate) fn is_monochrome(&self) -> bool {
        self.chroma_format == ChromaFormat::Monochrome.number()
    }

    /// By what the luma plane's columns and rows are divided in a plane; `None` where the format has no such plane.
    pub fn scale(&self, plane: Plane) -> Option<(u32, u32)> {
        match (plane, self.chroma_format) {
            (Plane::Y, _) | (_, 3) => Some((1, 1)),
            (_, 1) => Some((2, 2)),
            (_, 2) => Some((2, 1)),
            _ => None,
        }
    }

    /// Columns and rows of a plane; 0 and 0 where the format has no such plane.
    pub fn plane_size(&self, plane: Plane) -> (u32, u32) {
        self.scale(plane).map_or((0, 0), |(across, down)| (self.width / across, self.height / down))
    }

    /// The samples of a plane.
    pub fn plane_len(&self, plane: Plane) -> u64 {
        let (columns, rows) = self.plane_size(plane);
        u64::from(columns) * u64::from(rows)
    }

    /// The bytes of the cell records: 8 for each 4 by 4 luma block.
    pub fn cell_bytes(&self) -> u64 {
        8 * u64::from(self.width / 4) * u64::from(self.height / 4)
    }

    /// The depth of a plane's samples.
    pub fn depth(&self, plane: Plane) -> u32 {
        if plane == Plane::Y { self.luma_depth } else { self.chroma_depth }
    }

    /// The bits of a plane's samples above 8. A depth outside 8 to 16 counts as the nearer of the two.
    pub(crate) fn bits_above_8(&self, plane: Plane) -> u32 {
        self.depth(plane).clamp(8, 16) - 8
    }

    /// How far the filter moves a sample of a plane from its original at the most: 96 in luma, 48 in chroma, times
    /// 2^(depth - 8) by the plane's own depth. This is the promise of document 02's C-23, proved for every accepted
    /// picture, and at each depth there are pictures that meet it.
    ///
    /// A depth outside 8 to 16 counts as the nearer of the two, and the number then promises nothing: the picture is
    /// refused, and no sample of it moves.
    ///
    /// ```
    /// use tinladle::{ChromaFormat, Plane, Settings};
    /// let settings = Settings { luma_depth: 10, ..Settings::new(64, 64, ChromaFormat::Yuv420) };
    /// assert_eq!(Plane::ALL.map(|plane| settings.move_bound(plane)), [384, 48, 48]);
    /// ```
    pub fn move_bound(&self, plane: Plane) -> u32 {
        let at_depth_8 = if plane == Plane::Y { 96 } else { 48 };
        at_depth_8 << self.bits_above_8(plane)
    }
}
