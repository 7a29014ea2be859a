//! The customer's `apply_deblocking_parallel` on a copy of an accepted picture, with kernels that count and are held to their bounds.

use std::cell::Cell;
use std::panic::{AssertUnwindSafe, catch_unwind};

use crate::deblock;
use crate::picture::{CELL_BYTES, DEFAULT_SLICE, Picture, SLICE_BYTES};
use crate::{config, decode, exec, threadpool, tiles};

#[path = "kernels.rs"]
pub mod kernels;
#[path = "line_bounds.rs"]
pub mod line_bounds;
#[path = "share.rs"]
pub mod share;
use kernels::Calls;

thread_local! {
    /// Whether the customer's code is running: a panic there is caught and reported as a difference.
    pub static INSIDE: Cell<bool> = const { Cell::new(false) };
}

/// The cells and slices as the customer lays them out: a list for each field.
pub struct Lists {
    qp: Vec<i16>,
    lossless: Vec<bool>,
    pcm: Vec<bool>,
    edge_v: Vec<bool>,
    edge_h: Vec<bool>,
    bs_v: Vec<u8>,
    bs_h: Vec<u8>,
    slice: Vec<u16>,
    slices: Vec<decode::SliceDeblock>,
    across: Vec<bool>,
}

impl Lists {
    pub fn of(p: &Picture) -> Self {
        assert_eq!(p.palette_cells(), 0, "the customer's Rust has no palette input");
        let cells = || p.cells.chunks(CELL_BYTES);
        let flag = |bit: u8| cells().map(|c| c[1] & bit != 0).collect();
        let slices = || p.slices.chunks(SLICE_BYTES);
        Lists {
            qp: cells().map(|c| i16::from(c[0]) - 64).collect(),
            lossless: flag(4),
            pcm: flag(8),
            edge_v: flag(1),
            edge_h: flag(2),
            bs_v: cells().map(|c| c[2]).collect(),
            bs_h: cells().map(|c| c[3]).collect(),
            slice: cells().map(|c| u16::from_le_bytes([c[4], c[5]])).collect(),
            slices: slices().map(slice_settings).collect(),
            across: slices().map(|s| s[3] != 0).collect(),
        }
    }
}

fn slice_settings(record: &[u8]) -> decode::SliceDeblock {
    decode::SliceDeblock { disabled: record[0] != 0, beta_offset_div2: i32::from(record[1]) - 6, tc_offset_div2: i32::from(record[2]) - 6 }
}

pub fn context<'a>(p: &Picture, l: &'a Lists, grid: Option<&'a tiles::TileGrid>, exec: exec::ExecContext) -> deblock::DeblockCtx<'a> {
    let (sub_w, sub_h) = p.plane_scales(1);
    let (cw, ch) = p.plane_size(1);
    let fallback = slice_settings(&DEFAULT_SLICE);
    deblock::DeblockCtx {
        exec,
        w: p.width as usize,
        h: p.height as usize,
        cw,
        ch,
        gw: p.width as usize / 4,
        gh: p.height as usize / 4,
        sub_w,
        sub_h,
        bd: p.luma_depth as u8,
        bd_c: p.chroma_depth as u8,
        chroma_idc: p.format as u8,
        cb_qp_offset: p.cb_offset,
        cr_qp_offset: p.cr_offset,
        // The next three and `loop_filter_across_slices` serve an empty slice list: document 02, C-13. These offsets are not halved.
        beta_offset: 2 * fallback.beta_offset_div2,
        tc_offset: 2 * fallback.tc_offset_div2,
        deblocking_disabled: fallback.disabled,
        default_qp: 0,
        log2_ctb: p.log2_ctb,
        qp_y_map: &l.qp,
        tqb: &l.lossless,
        edge_v: &l.edge_v,
        edge_h: &l.edge_h,
        bs_v: &l.bs_v,
        bs_h: &l.bs_h,
        pcm: &l.pcm,
        slice_idx: &l.slice,
        slice_deblock: &l.slices,
        slice_lf_across: &l.across,
        pcm_loop_filter_disabled: p.pcm_switch,
        loop_filter_across_slices: DEFAULT_SLICE[3] != 0,
        tile_grid: grid,
    }
}

/// Whether the customer's code is told of the tiles. Of one tile it need not be: document 01 says that the absent grid equals it.
#[derive(Clone, Copy, PartialEq)]
pub enum Grid {
    Given,
    Absent,
}

/// The customer's side of one of our threads.
pub struct Rust {
    pool: threadpool::ThreadPool,
    scratch: deblock::DeblockScratch,
}

impl Rust {
    pub fn new() -> Self {
        Rust { pool: threadpool::ThreadPool::new(1), scratch: deblock::DeblockScratch::default() }
    }

    /// The planes that the customer's code leaves and its kernels' calls; or that it stopped or moved a sample too far, which it must not.
    pub fn run(&mut self, p: &Picture, grid: Grid) -> Result<([Vec<u16>; 3], Calls), String> {
        let lists = Lists::of(p);
        let ctb = 1 << p.log2_ctb;
        let starts = config::Pps::from_starts(&p.columns, &p.rows);
        let tiles = tiles::TileGrid::from_pps(&starts, p.width.div_ceil(ctb) as usize, p.height.div_ceil(ctb) as usize);
        let ctx = context(p, &lists, if grid == Grid::Given { tiles.as_ref() } else { None }, kernels::kernels());
        let [y, cb, cr] = p.planes.clone();
        kernels::begin();
        INSIDE.set(true);
        let done = catch_unwind(AssertUnwindSafe(|| {
            deblock::apply_deblocking_parallel(&self.pool, &ctx, ctx.log2_ctb, &mut self.scratch, y, cb, cr)
        }));
        INSIDE.set(false);
        let planes = done.map_err(|_| "the customer's Rust stopped by a panic".to_string())?;
        let calls = kernels::calls();
        calls.moves.check()?;
        Ok(([planes.y, planes.cb, planes.cr], calls))
    }
}
