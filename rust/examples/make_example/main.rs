//! Makes the shipped example, examples/example.pic: `cargo run --example make_example -- ../examples/example.pic`
//!
//! Four coupons, one to a tile, drawn by scene.rs and coarsely coded by codec.rs, so that there are block borders to
//! smooth. Whole numbers throughout: every machine makes the same bytes.

mod codec;
mod scene;

use std::error::Error;
use std::fs::File;
use std::io::{BufWriter, Write};

use scene::{COUPON_HEIGHT, COUPON_WIDTH};
use tinladle::container::StoredPicture;
use tinladle::{Bs, Cell, Cells, ChromaFormat, OutOfRange, PictureBuf, Plane, PlanesBuf, Settings, Slice, Slices};

const WIDTH: usize = 2 * COUPON_WIDTH;
const HEIGHT: usize = 2 * COUPON_HEIGHT;

/// The QP of each coupon, with the quantizer's step, 2^((QP - 4) / 6).
const QPS: [(i32, i64); 4] = [(40, 64), (43, 91), (43, 91), (40, 64)];

/// How a 4 by 4 block is coded.
#[derive(Clone, Copy, PartialEq)]
enum Coding {
    Coarse,
    Lossless,
    Pcm,
}

fn coupon_at(x: usize, y: usize) -> usize {
    y / COUPON_HEIGHT * 2 + x / COUPON_WIDTH
}

/// The barcode of the first coupon is lossless, that of the last PCM; all else is coarse.
fn coding_at(x: usize, y: usize) -> Coding {
    match (coupon_at(x, y), scene::in_barcode(x, y)) {
        (0, true) => Coding::Lossless,
        (3, true) => Coding::Pcm,
        _ => Coding::Coarse,
    }
}

/// A plane of the scene, each block of 8 by 8 coarsely coded unless it keeps its samples.
fn plane(settings: &Settings, plane: Plane) -> Vec<u16> {
    let (across, down) = settings.scale(plane).unwrap_or((1, 1));
    let (across, down) = (across as usize, down as usize);
    let (width, height) = (WIDTH / across, HEIGHT / down);
    let mut samples: Vec<u16> = vec![0; width * height];
    for y in (0..height).step_by(8) {
        for x in (0..width).step_by(8) {
            let drawn = |i: usize| scene::sample(plane, (x + i % 8) * across, (y + i / 8) * down);
            let block: [i64; 64] = std::array::from_fn(drawn);
            let (_, step) = QPS[coupon_at(x * across, y * down)];
            let coded =
                if coding_at(x * across, y * down) == Coding::Coarse { codec::coarse(&block, step) } else { block };
            for (row, line) in coded.chunks(8).enumerate() {
                let at = (y + row) * width + x;
                samples[at..at + 8]
                    .copy_from_slice(&std::array::from_fn::<u16, 8, _>(|i| line[i].clamp(0, 255) as u16));
            }
        }
    }
    samples
}

/// The third coupon is filtered more strongly; the lower half of the fourth not at all, and its upper half not across
/// its border.
fn slices() -> Result<Slices, OutOfRange> {
    let mut slices = Slices::new();
    slices.push(Slice::new())?;
    slices.push(Slice::new().beta_offset_div2(3)?.tc_offset_div2(3)?)?;
    slices.push(Slice::new().not_across())?;
    slices.push(Slice::new().disabled())?;
    Ok(slices)
}

fn slice_at(x: usize, y: usize) -> u16 {
    match coupon_at(x, y) {
        0 | 1 => 0,
        2 => 1,
        _ if y % COUPON_HEIGHT < COUPON_HEIGHT / 2 => 2,
        _ => 3,
    }
}

/// Edges of bS 2 around every block of 8 by 8.
fn cells(settings: &Settings) -> Result<Cells, OutOfRange> {
    let mut cells = Cells::filled(settings, Cell::new(0)?);
    for row in 0..cells.rows() {
        for column in 0..cells.columns() {
            let (x, y) = (4 * column, 4 * row);
            let mut cell = Cell::new(QPS[coupon_at(x, y)].0)?.slice(slice_at(x, y));
            if column % 2 == 0 {
                cell = cell.left_edge(Bs::Two);
            }
            if row % 2 == 0 {
                cell = cell.top_edge(Bs::Two);
            }
            cell = match coding_at(x, y) {
                Coding::Coarse => cell,
                Coding::Lossless => cell.lossless(),
                Coding::Pcm => cell.pcm(),
            };
            cells.set(column, row, cell);
        }
    }
    Ok(cells)
}

/// The example: 192 by 128, 4:2:0, two by two tiles of 96 by 64, CTBs of 16.
pub fn example() -> Result<PictureBuf, OutOfRange> {
    let mut settings = Settings::new(WIDTH as u32, HEIGHT as u32, ChromaFormat::Yuv420);
    settings.pcm_loop_filter_disabled = true;
    let [y, cb, cr] = Plane::ALL.map(|which| plane(&settings, which));
    Ok(PictureBuf {
        settings,
        planes: PlanesBuf { y, cb, cr },
        cells: cells(&settings)?.as_bytes().to_vec(),
        slices: slices()?.as_bytes().to_vec(),
        tile_columns: vec![0, (COUPON_WIDTH / 16) as u16],
        tile_rows: vec![0, (COUPON_HEIGHT / 16) as u16],
    })
}

fn main() -> Result<(), Box<dyn Error>> {
    let path = std::env::args_os().nth(1).ok_or("usage: make_example FILE")?;
    let mut out = BufWriter::new(File::create(path)?);
    StoredPicture::new(example()?).write(&mut out)?;
    Ok(out.flush()?)
}
