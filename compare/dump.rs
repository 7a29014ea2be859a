//! A picture in words, for whoever looks into a difference.

use crate::ledger;
use crate::picture::{CELL_BYTES, PLANE_NAMES, Picture};

/// Lists longer than this are cut off.
const LONGEST: usize = 64;

pub fn print(p: &Picture) {
    println!("width {}, height {}, format {}, luma depth {}, chroma depth {}", p.width, p.height, p.format, p.luma_depth, p.chroma_depth);
    println!("log2 CTB {}, Cb offset {}, Cr offset {}, PCM switch {}", p.log2_ctb, p.cb_offset, p.cr_offset, p.pcm_switch);
    println!("tile columns {:?}, tile rows {:?}", p.columns, p.rows);
    let lengths: Vec<usize> = p.planes.iter().map(Vec::len).collect();
    println!("planes of {lengths:?} samples, outputs {:?}, {} cell bytes, {} slice bytes", p.out_lengths, p.cells.len(), p.slices.len());
    println!("ledger: {:?}", ledger::verdict(p));
    for (number, record) in p.slices.chunks(4).enumerate().take(LONGEST) {
        println!("slice {number}: {record:?}");
    }
    print_cells(p);
    for plane in 0..3 {
        print_plane(p, plane);
    }
}

/// Cells that are as the one before are left out.
fn print_cells(p: &Picture) {
    let across = p.cells_across().max(1);
    let mut before: &[u8] = &[];
    let mut shown = 0;
    println!("cells (QP + 64, flags, vertical bS, horizontal bS, slice, slice, 0, 0), where one is not as the one before:");
    for (number, cell) in p.cells.chunks(CELL_BYTES).enumerate() {
        if cell != before && shown < LONGEST {
            println!("  cell {number}, column {}, row {}: {cell:?}", number % across, number / across);
            shown += 1;
        }
        before = cell;
    }
}

fn print_plane(p: &Picture, plane: usize) {
    let samples = &p.planes[plane];
    if samples.is_empty() {
        return;
    }
    let width = if ledger::verdict(p).0 == 0 { p.plane_size(plane).0 } else { samples.len().min(32) };
    println!("{}, {width} to a row:", PLANE_NAMES[plane]);
    for row in samples.chunks(width).take(LONGEST) {
        let text: Vec<String> = row.iter().take(LONGEST).map(u16::to_string).collect();
        println!("  {}", text.join(" "));
    }
}
