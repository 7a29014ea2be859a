//! A picture as it is lent to the stage: any settings and lists at all. Document 01 calls it a sheet.

pub const VERTICAL: u8 = 1;
pub const HORIZONTAL: u8 = 2;
pub const LOSSLESS: u8 = 4;
pub const PCM: u8 = 8;
/// Document 02, C-19.
pub const PALETTE: u8 = 16;

pub const CELL_BYTES: usize = 8;
pub const SLICE_BYTES: usize = 4;
/// The record that an empty slice list stands for (document 02, C-13): tc offset div2 is -1.
pub const DEFAULT_SLICE: [u8; SLICE_BYTES] = [0, 6, 5, 1];
/// A slice that is filtered, with offsets 0.
pub const PLAIN_SLICE: [u8; SLICE_BYTES] = [0, 6, 6, 1];

pub const PLANE_NAMES: [&str; 3] = ["Y", "Cb", "Cr"];

#[derive(Clone, PartialEq, Default)]
pub struct Picture {
    pub width: u32,
    pub height: u32,
    pub format: u32,
    pub luma_depth: u32,
    pub chroma_depth: u32,
    pub log2_ctb: u32,
    pub cb_offset: i32,
    pub cr_offset: i32,
    pub pcm_switch: bool,
    /// Y, Cb, Cr.
    pub planes: [Vec<u16>; 3],
    /// The lengths of the output planes.
    pub out_lengths: [usize; 3],
    pub cells: Vec<u8>,
    pub slices: Vec<u8>,
    pub columns: Vec<u16>,
    pub rows: Vec<u16>,
}

/// By what the luma width and height are divided in a chroma plane.
pub fn scales(format: u32) -> (usize, usize) {
    match format {
        1 => (2, 2),
        2 => (2, 1),
        _ => (1, 1),
    }
}

impl Picture {
    /// The scales of a plane: 1 and 1 in luma.
    pub fn plane_scales(&self, plane: usize) -> (usize, usize) {
        if plane == 0 { (1, 1) } else { scales(self.format) }
    }

    /// Columns and rows of a plane, of a picture with allowed settings.
    pub fn plane_size(&self, plane: usize) -> (usize, usize) {
        if plane > 0 && self.format == 0 {
            return (0, 0);
        }
        let (across, down) = self.plane_scales(plane);
        (self.width as usize / across, self.height as usize / down)
    }

    pub fn plane_depth(&self, plane: usize) -> u32 {
        if plane == 0 { self.luma_depth } else { self.chroma_depth }
    }

    pub fn cells_across(&self) -> usize {
        self.width as usize / 4
    }

    /// The record of a cell.
    pub fn cell(&self, number: usize) -> &[u8] {
        &self.cells[CELL_BYTES * number..CELL_BYTES * (number + 1)]
    }

    pub fn suppressed(&self, number: usize) -> bool {
        let flags = self.cell(number)[1];
        flags & LOSSLESS != 0 || flags & PALETTE != 0 || (flags & PCM != 0 && self.pcm_switch)
    }

    /// The cells marked palette, in a list of any length.
    pub fn palette_cells(&self) -> usize {
        self.cells.iter().skip(1).step_by(CELL_BYTES).filter(|&flags| flags & PALETTE != 0).count()
    }

    /// The same picture with bit 4, palette, turned into bit 2, lossless, in every cell: it must be answered and filtered alike (document
    /// 02, C-19). `None` where no cell has bit 4.
    pub fn turned(&self) -> Option<Picture> {
        if self.palette_cells() == 0 {
            return None;
        }
        let mut turned = self.clone();
        for flags in turned.cells.iter_mut().skip(1).step_by(CELL_BYTES).filter(|flags| **flags & PALETTE != 0) {
            *flags = *flags & !PALETTE | LOSSLESS;
        }
        Some(turned)
    }

    /// The same picture with the record passed outright that its empty slice list stands for; `None` where it has records.
    pub fn outright(&self) -> Option<Picture> {
        self.slices.is_empty().then(|| Picture { slices: DEFAULT_SLICE.to_vec(), ..self.clone() })
    }

    pub fn one_tile(&self) -> bool {
        self.columns.len() == 1 && self.rows.len() == 1
    }

    /// The picture as a record of oracle/README.md, which crates/picture_cases/out/picture_cases reads.
    pub fn record(&self) -> Vec<u8> {
        let mut words = vec![0x53484C54, self.width, self.height, self.format, self.luma_depth, self.chroma_depth];
        words.extend([self.log2_ctb, self.cb_offset as u32, self.cr_offset as u32, u32::from(self.pcm_switch)]);
        words.extend(self.planes.iter().map(|plane| plane.len() as u32));
        words.extend(self.out_lengths.map(|length| length as u32));
        words.extend([self.cells.len(), self.slices.len(), self.columns.len(), self.rows.len()].map(|n| n as u32));
        let numbers = |list: &[u16]| -> Vec<u8> { list.iter().flat_map(|n| n.to_le_bytes()).collect() };
        let mut bytes: Vec<u8> = words.iter().flat_map(|word| word.to_le_bytes()).collect();
        for plane in &self.planes {
            bytes.extend(numbers(plane));
        }
        bytes.extend(&self.cells);
        bytes.extend(&self.slices);
        bytes.extend(numbers(&self.columns));
        bytes.extend(numbers(&self.rows));
        bytes
    }
}
