//! What the customer's deblock.rs leans on.
//!
//! `threadpool` and `tiles` are the customer's files, unchanged. `decode`, `exec` and `config` are
//! ours: the first is not among the customer's files, the other two would pull in the whole decoder.
//! A program brings them to its crate root, where the customer's files look for them:
//!
//!     mod shims;
//!     use shims::{config, decode, exec, threadpool, tiles};
//!
//! and has a module `deblock` that is the customer's file.

// build.sh makes `customer` a link to the customer's folder. `include!` would not do for tiles.rs,
// which begins with an inner doc comment.
#[path = "../target/oracle/customer/src/threadpool.rs"]
pub(crate) mod threadpool;
#[path = "../target/oracle/customer/src/tiles.rs"]
pub(crate) mod tiles;

pub(crate) mod decode {
    /// A slice's deblocking settings. Document 01's slice record holds the offsets plus 6.
    #[derive(Clone, Copy, Debug)]
    pub(crate) struct SliceDeblock {
        pub(crate) disabled: bool,
        pub(crate) beta_offset_div2: i32,
        pub(crate) tc_offset_div2: i32,
    }

    /// Document 01, 'Chroma': from the index (average QP plus the Cb or Cr offset) to the chroma QP.
    pub(crate) fn qpc(index: i32, chroma_idc: u8, chroma_depth: u8) -> i32 {
        const ROWS_30_TO_43: [i32; 14] = [29, 30, 31, 32, 33, 33, 34, 34, 35, 35, 36, 36, 37, 37];
        // Clause 8.7.2.5.5 has no clip; build.sh makes one oracle without it.
        let index = if cfg!(unclipped) { index } else { index.clamp(-6 * (i32::from(chroma_depth) - 8), 57) };
        if chroma_idc != 1 {
            return index.min(51);
        }
        match index {
            ..30 => index,
            30..=43 => ROWS_30_TO_43[(index - 30) as usize],
            44.. => index - 6,
        }
    }
}

pub(crate) mod exec {
    use crate::deblock;

    /// The kernels that deblock.rs reads from its context; the customer's has many more.
    #[derive(Clone)]
    pub(crate) struct ExecContext {
        pub(crate) luma_deblock_vertical: deblock::LumaDeblockPlaneFn,
        pub(crate) luma_deblock_horizontal: deblock::LumaDeblockPlaneFn,
        pub(crate) chroma_deblock_vertical: deblock::ChromaDeblockPlaneFn,
        pub(crate) chroma_deblock_horizontal: deblock::ChromaDeblockPlaneFn,
        pub(crate) luma_deblock_vertical_pair: Option<deblock::LumaDeblockPairFn>,
        pub(crate) luma_deblock_horizontal_pair: Option<deblock::LumaDeblockPairFn>,
        pub(crate) chroma_deblock_vertical_pair: Option<deblock::ChromaDeblockPairFn>,
        pub(crate) chroma_deblock_horizontal_pair: Option<deblock::ChromaDeblockPairFn>,
    }

    impl ExecContext {
        /// Scalar kernels and no pair kernel, as document 01 asks.
        pub(crate) fn scalar() -> Self {
            ExecContext {
                luma_deblock_vertical: deblock::luma_vertical_plane_scalar,
                luma_deblock_horizontal: deblock::luma_horizontal_plane_scalar,
                chroma_deblock_vertical: deblock::chroma_vertical_plane_scalar,
                chroma_deblock_horizontal: deblock::chroma_horizontal_plane_scalar,
                luma_deblock_vertical_pair: None,
                luma_deblock_horizontal_pair: None,
                chroma_deblock_vertical_pair: None,
                chroma_deblock_horizontal_pair: None,
            }
        }
    }
}

pub(crate) mod config {
    /// The fields of the picture parameter set that tiles.rs reads.
    pub(crate) struct Pps {
        pub(crate) tiles_enabled: bool,
        pub(crate) num_tile_columns: u32,
        pub(crate) num_tile_rows: u32,
        pub(crate) tile_uniform_spacing: bool,
        pub(crate) tile_column_widths: Vec<u32>,
        pub(crate) tile_row_heights: Vec<u32>,
        pub(crate) loop_filter_across_tiles: bool,
    }

    impl Pps {
        /// Tiles with closed borders, from document 01's column and row starts in CTBs.
        pub(crate) fn from_starts(columns: &[u16], rows: &[u16]) -> Self {
            let sizes = |starts: &[u16]| -> Vec<u32> {
                starts.windows(2).map(|pair| u32::from(pair[1] - pair[0])).collect()
            };
            Pps {
                tiles_enabled: true,
                num_tile_columns: columns.len() as u32,
                num_tile_rows: rows.len() as u32,
                tile_uniform_spacing: false,
                tile_column_widths: sizes(columns),
                tile_row_heights: sizes(rows),
                loop_filter_across_tiles: false,
            }
        }
    }
}
