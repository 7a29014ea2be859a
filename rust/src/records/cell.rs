//! Cells: one for each 4 by 4 luma block.

use super::{OutOfRange, byte};
use crate::settings::Settings;

/// The strength of an edge, the standard's bS. Chroma is filtered at 2 alone.
#[derive(Clone, Copy, Debug, PartialEq, Eq, Hash)]
pub enum Bs {
    /// bS 0: not filtered.
    Zero,
    /// bS 1: luma is filtered, chroma is left alone.
    One,
    /// bS 2: luma and chroma are filtered.
    Two,
}

/// An edge on the left side; without it the vertical bS is 0.
pub(crate) const LEFT_EDGE: u8 = 1;
/// An edge on the top side; without it the horizontal bS is 0.
pub(crate) const TOP_EDGE: u8 = 2;
const LOSSLESS: u8 = 4;
const PCM: u8 = 8;
const PALETTE: u8 = 16;

/// All flags that there are.
pub(crate) const FLAGS: u8 = LEFT_EDGE | TOP_EDGE | LOSSLESS | PCM | PALETTE;

/// Whether a record of a list of cells is that of a palette cell.
pub(crate) fn is_palette(cells: &[u8], number: usize) -> bool {
    cells.get(Cell::BYTES * number + 1).is_some_and(|flags| flags & PALETTE != 0)
}

/// One 4 by 4 luma block. Its edges have flag and bS together, so that none of its strengths lacks its flag.
///
/// ```
/// use tinladle::{Bs, Cell};
/// let cell = Cell::new(37)?.left_edge(Bs::Two).lossless().slice(258);
/// assert_eq!(cell.to_bytes(), [101, 5, 2, 0, 2, 1, 0, 0]);
/// assert_eq!(Cell::new(52).unwrap_err().to_string(), "QP 52 is outside -48 to 51");
/// # Ok::<(), tinladle::OutOfRange>(())
/// ```
#[derive(Clone, Copy, Debug, PartialEq, Eq)]
pub struct Cell {
    bytes: [u8; 8],
}

impl Cell {
    /// The bytes of one cell in [`Picture::cells`](crate::Picture::cells).
    pub const BYTES: usize = 8;

    /// A cell of slice 0 without edges or marks. The QP is from -48, the lowest at depth 16, to 51.
    pub fn new(qp: i32) -> Result<Self, OutOfRange> {
        let qp = byte("QP", qp, -48, 51, 64)?;
        Ok(Cell { bytes: [qp, 0, 0, 0, 0, 0, 0, 0] })
    }

    /// With an edge on its left side: the flag, and with it the vertical bS.
    ///
    /// Not every such edge is filtered, and none is refused: see [the crate's page](crate#which-edges-are-filtered).
    /// In short, edges lie on the multiples of 8 of each plane's own samples, so that this does nothing in an odd
    /// column of cells, nothing to a chroma plane of half the columns but where the column is a multiple of 4, and
    /// nothing in column 0, the picture's border, or on a tile's left border. [`Bs::One`] leaves chroma alone.
    #[must_use]
    pub fn left_edge(mut self, bs: Bs) -> Self {
        self.bytes[1] |= LEFT_EDGE;
        self.bytes[2] = bs as u8;
        self
    }

    /// With an edge on its top side: the flag, and with it the horizontal bS.
    ///
    /// Not every such edge is filtered, and none is refused: see [the crate's page](crate#which-edges-are-filtered).
    /// In short, edges lie on the multiples of 8 of each plane's own samples, so that this does nothing in an odd row
    /// of cells, nothing to a chroma plane of half the rows but where the row is a multiple of 4, and nothing in row
    /// 0, the picture's border, or on a tile's top border. [`Bs::One`] leaves chroma alone.
    #[must_use]
    pub fn top_edge(mut self, bs: Bs) -> Self {
        self.bytes[1] |= TOP_EDGE;
        self.bytes[3] = bs as u8;
        self
    }

    /// Lossless: suppressed, that is it keeps its original samples, in luma and chroma. Its edges are filtered all the
    /// same, for the samples on their other side.
    #[must_use]
    pub fn lossless(mut self) -> Self {
        self.bytes[1] |= LOSSLESS;
        self
    }

    /// PCM: suppressed where the picture's PCM switch is on.
    #[must_use]
    pub fn pcm(mut self) -> Self {
        self.bytes[1] |= PCM;
        self
    }

    /// Palette, as of screen content: suppressed at either setting of the PCM switch.
    #[must_use]
    pub fn palette(mut self) -> Self {
        self.bytes[1] |= PALETTE;
        self
    }

    /// Of the slice with this number, as [`Slices::push`](crate::Slices::push) returned it.
    #[must_use]
    pub fn slice(mut self, number: u16) -> Self {
        [self.bytes[4], self.bytes[5]] = number.to_le_bytes();
        self
    }

    /// The record.
    pub fn to_bytes(self) -> [u8; 8] {
        self.bytes
    }
}

/// The cell records of a picture.
#[derive(Clone, Debug, PartialEq, Eq)]
pub struct Cells {
    columns: usize,
    bytes: Vec<u8>,
}

impl Cells {
    /// A cell for each 4 by 4 luma block of the picture, all alike.
    ///
    /// A picture that is wider or higher than [`Settings::LARGEST`] has none, so that no settings ask for more than 32
    /// MiB: the stage refuses it for its size (1), whatever its cells.
    ///
    /// ```
    /// use tinladle::{Cell, Cells, ChromaFormat, Settings};
    /// let cell = Cell::new(37)?;
    /// let cells = |width, height| Cells::filled(&Settings::new(width, height, ChromaFormat::Yuv420), cell);
    /// assert_eq!(cells(64, 32).as_bytes().len(), 16 * 8 * Cell::BYTES);
    /// assert_eq!(cells(u32::MAX, u32::MAX).as_bytes(), []);
    /// # Ok::<(), tinladle::OutOfRange>(())
    /// ```
    pub fn filled(settings: &Settings, cell: Cell) -> Self {
        if settings.width.max(settings.height) > Settings::LARGEST {
            return Cells { columns: 0, bytes: Vec::new() };
        }
        let columns = (settings.width / 4) as usize;
        let rows = (settings.height / 4) as usize;
        Cells { columns, bytes: cell.bytes.repeat(columns * rows) }
    }

    /// Cells in a row.
    pub fn columns(&self) -> usize {
        self.columns
    }

    /// Rows of cells.
    pub fn rows(&self) -> usize {
        (self.bytes.len() / Cell::BYTES).checked_div(self.columns).unwrap_or(0)
    }

    /// Puts a cell at a column and row of the cells.
    ///
    /// # Panics
    ///
    /// Where the picture has no such cell, as an index past a slice's end does.
    pub fn set(&mut self, column: usize, row: usize, cell: Cell) {
        assert!(column < self.columns && row < self.rows(), "no cell at column {column}, row {row}");
        let at = Cell::BYTES * (row * self.columns + column);
        self.bytes[at..at + Cell::BYTES].copy_from_slice(&cell.bytes);
    }

    /// The records, for [`Picture::cells`](crate::Picture::cells).
    pub fn as_bytes(&self) -> &[u8] {
        &self.bytes
    }
}
