//! A picture as the stage is lent it, and the planes that the stage writes.

use crate::memory::{OutOfMemory, filled};
use crate::records::{Cell, is_palette};
use crate::settings::{Plane, Settings};

/// A picture of borrowed lists. It is only read.
#[derive(Clone, Copy, Debug)]
pub struct Picture<'a> {
    /// What holds for the whole picture.
    pub settings: Settings,
    /// The original luma samples, row by row.
    pub y: &'a [u16],
    /// The original Cb samples, row by row, in the format's own size; empty in format 0.
    pub cb: &'a [u16],
    /// The original Cr samples, likewise.
    pub cr: &'a [u16],
    /// The cell records, 8 bytes each: [`Cells::as_bytes`](crate::Cells::as_bytes).
    ///
    /// **A bS above 0 needs its edge flag.** A list that was stored before this rule is brought into it by
    /// [`convert_cells`](crate::convert_cells).
    pub cells: &'a [u8],
    /// The slice records, 4 bytes each: [`Slices::as_bytes`](crate::Slices::as_bytes).
    ///
    /// **An empty list stands for one slice with `slice_tc_offset_div2` -1**,
    /// [`Slice::of_empty_list`](crate::Slice::of_empty_list). A slice with offsets 0 is passed outright, as
    /// [`Slice::new`](crate::Slice::new).
    pub slices: &'a [u8],
    /// The first CTB column of each tile column, 1 to 20 of them: 0, then rising.
    ///
    /// **No edge between two tiles is filtered.** A stream that filters across its tiles
    /// (`loop_filter_across_tiles_enabled_flag` 1) is passed as one tile: `&[0]` here and in `tile_rows`.
    pub tile_columns: &'a [u16],
    /// The first CTB row of each tile row, 1 to 22 of them: 0, then rising.
    ///
    /// **No edge between two tiles is filtered**: of a stream that filters across its tiles this is `&[0]`, as
    /// `tile_columns` is.
    pub tile_rows: &'a [u16],
}

impl<'a> Picture<'a> {
    /// The original samples of a plane.
    pub fn plane(&self, plane: Plane) -> &'a [u16] {
        match plane {
            Plane::Y => self.y,
            Plane::Cb => self.cb,
            Plane::Cr => self.cr,
        }
    }

    /// The original samples of the three planes.
    pub fn samples(&self) -> [&'a [u16]; 3] {
        [self.y, self.cb, self.cr]
    }

    /// How many cells are marked [palette](crate::Cell::palette), and so keep their samples where the picture is
    /// accepted.
    pub fn palette_cells(&self) -> usize {
        (0..self.cells.len() / Cell::BYTES).filter(|&number| is_palette(self.cells, number)).count()
    }
}

/// The output planes, lent to be written. Being `&mut`, they overlap neither one another nor any input.
#[derive(Debug)]
pub struct Planes<'a> {
    /// Where the filtered luma samples go; as long as the original.
    pub y: &'a mut [u16],
    /// Where the filtered Cb samples go.
    pub cb: &'a mut [u16],
    /// Where the filtered Cr samples go.
    pub cr: &'a mut [u16],
}

/// A picture that owns its lists, as one read from a file does.
#[derive(Clone, Debug, PartialEq, Eq)]
pub struct PictureBuf {
    /// What holds for the whole picture.
    pub settings: Settings,
    /// The three planes.
    pub planes: PlanesBuf,
    /// The cell records, 8 bytes each.
    pub cells: Vec<u8>,
    /// The slice records, 4 bytes each; none stands for [`Slice::of_empty_list`](crate::Slice::of_empty_list).
    pub slices: Vec<u8>,
    /// The first CTB column of each tile column.
    pub tile_columns: Vec<u16>,
    /// The first CTB row of each tile row.
    pub tile_rows: Vec<u16>,
}

impl PictureBuf {
    /// The picture, borrowed.
    pub fn picture(&self) -> Picture<'_> {
        Picture {
            settings: self.settings,
            y: &self.planes.y,
            cb: &self.planes.cb,
            cr: &self.planes.cr,
            cells: &self.cells,
            slices: &self.slices,
            tile_columns: &self.tile_columns,
            tile_rows: &self.tile_rows,
        }
    }
}

/// Three planes that own their samples.
#[derive(Clone, Debug, Default, PartialEq, Eq)]
pub struct PlanesBuf {
    /// The luma samples.
    pub y: Vec<u16>,
    /// The Cb samples.
    pub cb: Vec<u16>,
    /// The Cr samples.
    pub cr: Vec<u16>,
}

impl PlanesBuf {
    /// Planes of these lengths that hold one value throughout. Where there is not enough memory the program ends, as
    /// with `vec!`; [`PlanesBuf::try_filled`] tells.
    pub fn filled(lengths: [usize; 3], value: u16) -> Self {
        let [y, cb, cr] = lengths.map(|length| vec![value; length]);
        PlanesBuf { y, cb, cr }
    }

    /// The same, or that there is not enough memory, whatever the lengths.
    pub fn try_filled(lengths: [usize; 3], value: u16) -> Result<Self, OutOfMemory> {
        let [y, cb, cr] = lengths;
        Ok(PlanesBuf { y: filled(y, value)?, cb: filled(cb, value)?, cr: filled(cr, value)? })
    }

    /// The planes, lent to the stage.
    pub fn planes(&mut self) -> Planes<'_> {
        Planes { y: &mut self.y, cb: &mut self.cb, cr: &mut self.cr }
    }

    /// The samples of a plane.
    pub fn plane(&self, plane: Plane) -> &[u16] {
        match plane {
            Plane::Y => &self.y,
            Plane::Cb => &self.cb,
            Plane::Cr => &self.cr,
        }
    }

    /// The samples of the three planes.
    pub fn samples(&self) -> [&[u16]; 3] {
        [&self.y, &self.cb, &self.cr]
    }

    /// How many samples each plane has.
    pub fn lengths(&self) -> [usize; 3] {
        self.samples().map(<[u16]>::len)
    }
}
