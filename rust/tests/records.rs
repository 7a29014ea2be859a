//! The typed records against the bytes of document 01.

use tinladle::{Bs, Cell, Cells, ChromaFormat, Picture, PlanesBuf, Settings, Slice, Slices, deblock};

#[test]
fn each_part_of_a_cell_has_its_byte() {
    let cell = Cell::new(0).unwrap();
    assert_eq!(cell.to_bytes(), [64, 0, 0, 0, 0, 0, 0, 0]);
    assert_eq!(cell.left_edge(Bs::One).to_bytes(), [64, 1, 1, 0, 0, 0, 0, 0]);
    assert_eq!(cell.left_edge(Bs::Zero).to_bytes(), [64, 1, 0, 0, 0, 0, 0, 0]);
    assert_eq!(cell.top_edge(Bs::Two).to_bytes(), [64, 2, 0, 2, 0, 0, 0, 0]);
    assert_eq!(cell.lossless().to_bytes(), [64, 4, 0, 0, 0, 0, 0, 0]);
    assert_eq!(cell.pcm().to_bytes(), [64, 8, 0, 0, 0, 0, 0, 0]);
    assert_eq!(cell.palette().to_bytes(), [64, 16, 0, 0, 0, 0, 0, 0]);
    assert_eq!(cell.slice(599).to_bytes(), [64, 0, 0, 0, 87, 2, 0, 0], "599 is 2 * 256 + 87");
    let all = cell.left_edge(Bs::Two).top_edge(Bs::One).lossless().pcm().palette().slice(1);
    assert_eq!(all.to_bytes(), [64, 31, 2, 1, 1, 0, 0, 0]);
}

#[test]
fn a_qp_runs_from_minus_48_to_51() {
    assert_eq!(Cell::new(-48).unwrap().to_bytes()[0], 16);
    assert_eq!(Cell::new(51).unwrap().to_bytes()[0], 115);
    for qp in [-49, 52, i32::MIN, i32::MAX] {
        let error = Cell::new(qp).unwrap_err();
        assert_eq!(error.to_string(), format!("QP {qp} is outside -48 to 51"));
    }
}

#[test]
fn each_part_of_a_slice_has_its_byte() {
    let slice = Slice::new();
    assert_eq!((slice, slice.to_bytes()), (Slice::default(), [0, 6, 6, 1]));
    assert_eq!(slice.disabled().to_bytes(), [1, 6, 6, 1]);
    assert_eq!(slice.beta_offset_div2(-6).unwrap().to_bytes(), [0, 0, 6, 1]);
    assert_eq!(slice.tc_offset_div2(6).unwrap().to_bytes(), [0, 6, 12, 1]);
    assert_eq!(slice.not_across().to_bytes(), [0, 6, 6, 0]);
    assert_eq!(slice.beta_offset_div2(7).unwrap_err().to_string(), "beta offset div2 7 is outside -6 to 6");
    assert_eq!(slice.tc_offset_div2(-7).unwrap_err().to_string(), "tc offset div2 -7 is outside -6 to 6");
}

#[test]
fn slices_are_numbered_and_at_most_600() {
    let mut slices = Slices::new();
    for number in 0..600 {
        assert_eq!(slices.push(Slice::new()).unwrap(), number);
    }
    assert_eq!(slices.push(Slice::new()).unwrap_err().to_string(), "slice 600 is outside 0 to 599");
    assert_eq!(slices.as_bytes().len(), 2400);
}

#[test]
fn cells_lie_row_by_row() {
    let settings = Settings::new(16, 8, ChromaFormat::Monochrome);
    let mut cells = Cells::filled(&settings, Cell::new(0).unwrap());
    assert_eq!((cells.columns(), cells.rows(), cells.as_bytes().len()), (4, 2, 64));
    cells.set(3, 1, Cell::new(1).unwrap());
    let qps: Vec<u8> = cells.as_bytes().chunks(8).map(|cell| cell[0]).collect();
    assert_eq!(qps, [64, 64, 64, 64, 64, 64, 64, 65]);
}

#[test]
fn no_settings_ask_for_more_cells_than_a_picture_can_have() {
    let most = Settings::LARGEST;
    assert_eq!(most, 8192);
    for (width, height) in [(u32::MAX, u32::MAX), (u32::MAX - 7, 8), (8, 1 << 31), (most + 8, 8), (8, most + 1)] {
        let settings = Settings::new(width, height, ChromaFormat::Monochrome);
        let cells = Cells::filled(&settings, Cell::new(0).unwrap());
        assert_eq!((cells.columns(), cells.rows(), cells.as_bytes().len()), (0, 0, 0), "{width} by {height}");
        let (starts, y): (&[u16], &[u16]) = (&[0], &[0; 64]);
        let picture = Picture {
            settings,
            y,
            cb: &[],
            cr: &[],
            cells: cells.as_bytes(),
            slices: &Slice::new().to_bytes(),
            tile_columns: starts,
            tile_rows: starts,
        };
        let refusal = deblock(&picture, &mut PlanesBuf::filled([64, 0, 0], 0).planes()).unwrap_err();
        assert_eq!((refusal.number(), refusal.place()), (1, 0), "{width} by {height}");
    }
    let largest = Cells::filled(&Settings::new(most, most, ChromaFormat::Monochrome), Cell::new(0).unwrap());
    assert_eq!((largest.columns(), largest.rows(), largest.as_bytes().len()), (2048, 2048, 8 * 2048 * 2048));
    // Small sizes have whole cells even where no picture has them.
    for (width, height, columns, rows) in [(0, 8, 0, 0), (12, 8, 3, 2), (10, 3, 2, 0)] {
        let cells = Cells::filled(&Settings::new(width, height, ChromaFormat::Monochrome), Cell::new(0).unwrap());
        assert_eq!((cells.columns(), cells.rows()), (columns, rows), "{width} by {height}");
    }
}

#[test]
#[should_panic(expected = "no cell at column 4, row 0")]
fn a_cell_beyond_the_row_is_no_cell_of_the_next() {
    let settings = Settings::new(16, 8, ChromaFormat::Monochrome);
    Cells::filled(&settings, Cell::new(0).unwrap()).set(4, 0, Cell::new(0).unwrap());
}
