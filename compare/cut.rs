//! Parts of a picture: the cut of a tile (document 01, 'The cut'), and term 3.

use crate::counted::counted;
use crate::ledger;
use crate::ours;
use crate::picture::{CELL_BYTES, PLANE_NAMES, Picture};
use crate::random::Random;

/// A part of a picture in luma samples; all four numbers are multiples of 8.
#[derive(Clone, Copy)]
pub struct Part {
    pub x: usize,
    pub y: usize,
    pub width: usize,
    pub height: usize,
}

fn copy<T: Copy>(from: &[T], from_width: usize, part: Part) -> Vec<T> {
    let row = |y: usize| &from[y * from_width + part.x..][..part.width];
    (part.y..part.y + part.height).flat_map(row).copied().collect()
}

/// The part of a plane that lies under a part of the picture.
fn in_plane(p: &Picture, plane: usize, part: Part) -> Part {
    let (across, down) = p.plane_scales(plane);
    Part { x: part.x / across, y: part.y / down, width: part.width / across, height: part.height / down }
}

/// The part as a picture of one tile. All else is as in the picture.
pub fn cut(p: &Picture, part: Part) -> Picture {
    let mut of = Picture { width: part.width as u32, height: part.height as u32, columns: vec![0], rows: vec![0], ..p.clone() };
    for plane in 0..3 {
        let width = p.plane_size(plane).0;
        if width > 0 {
            of.planes[plane] = copy(&p.planes[plane], width, in_plane(p, plane, part));
        }
        of.out_lengths[plane] = of.planes[plane].len();
    }
    let cells = Part { x: part.x / 4 * CELL_BYTES, y: part.y / 4, width: part.width / 4 * CELL_BYTES, height: part.height / 4 };
    of.cells = copy(&p.cells, p.cells_across() * CELL_BYTES, cells);
    of
}

/// From each start to the next, in samples; the last runs to the picture's end.
fn spans(starts: &[u16], log2_ctb: u32, total: u32) -> Vec<(usize, usize)> {
    let at = |k: usize| starts.get(k).map_or(total as usize, |&start| usize::from(start) << log2_ctb);
    (0..starts.len()).map(|k| (at(k), at(k + 1) - at(k))).collect()
}

pub fn tiles(p: &Picture) -> Vec<Part> {
    let mut found = vec![];
    for (y, height) in spans(&p.rows, p.log2_ctb, p.height) {
        for (x, width) in spans(&p.columns, p.log2_ctb, p.width) {
            found.push(Part { x, y, width, height });
        }
    }
    found
}

/// The stage on the cut of one tile, beside what it left of the tile in its picture.
fn check_tile(p: &Picture, whole: &[Vec<u16>; 3], tile: Part, random: &mut Random) -> Result<(), String> {
    let alone = cut(p, tile);
    if ledger::verdict(&alone) != (0, 0) {
        return Err("the ledger refuses the cut".into());
    }
    let answer = ours::run(&alone, random)?;
    if (answer.number, answer.place) != (0, 0) {
        return Err(format!("the stage answers the cut with {}, place {}", answer.number, answer.place));
    }
    for plane in 0..3 {
        let width = p.plane_size(plane).0;
        if width == 0 {
            continue;
        }
        let within = copy(&whole[plane], width, in_plane(p, plane, tile));
        let differ = within.iter().zip(&answer.planes[plane]).filter(|(a, b)| a != b).count() as u64;
        if differ > 0 {
            let name = PLANE_NAMES[plane];
            let differ = counted(differ, &format!("{name} sample differs"), &format!("{name} samples differ"));
            return Err(format!("{differ} from the cut's"));
        }
    }
    Ok(())
}

/// Term 3 on every tile: how many there are. `whole` is what the stage left of the picture.
pub fn check_tiles(p: &Picture, whole: &[Vec<u16>; 3], random: &mut Random) -> Result<u64, String> {
    let all = tiles(p);
    for tile in &all {
        check_tile(p, whole, *tile, random)
            .map_err(|what| format!("tile of {} by {} at ({}, {}): {what}", tile.width, tile.height, tile.x, tile.y))?;
    }
    Ok(all.len() as u64)
}
