//! The C functions, as include/tinladle.h declares them. speed/ and compare/ take this file too.

#![allow(unsafe_code)]

/// Declares functions that take a picture: its nine settings and seven lists, which stand here once, then each one's
/// own arguments, then the place.
macro_rules! of_a_picture {
    ($(fn $name:ident($($own:ident: $type:ty),* $(,)?);)*) => {
        unsafe extern "C" {
            $(
                pub fn $name(
                    width: u32, height: u32, chroma_format: u32, luma_depth: u32, chroma_depth: u32,
                    log2_ctb: u32, cb_qp_offset: i32, cr_qp_offset: i32, pcm_loop_filter_disabled: bool,
                    y: *const u16, y_len: usize,
                    cb: *const u16, cb_len: usize,
                    cr: *const u16, cr_len: usize,
                    cells: *const u8, cells_len: usize,
                    slices: *const u8, slices_len: usize,
                    tile_columns: *const u16, columns_len: usize,
                    tile_rows: *const u16, rows_len: usize,
                    $($own: $type,)*
                    place: *mut u64,
                ) -> u32;
            )*
        }
    };
}

of_a_picture! {
    fn tinladle_deblock(
        out_y: *mut u16,
        out_y_len: usize,
        out_cb: *mut u16,
        out_cb_len: usize,
        out_cr: *mut u16,
        out_cr_len: usize,
    );
}

/// The same for functions that take planes alone, with the settings that say what they are.
macro_rules! of_planes {
    ($(fn $name:ident($($own:ident: $type:ty),* $(,)?);)*) => {
        unsafe extern "C" {
            $(
                pub fn $name(
                    width: u32, height: u32, chroma_format: u32, luma_depth: u32, chroma_depth: u32,
                    y: *const u16, y_len: usize,
                    cb: *const u16, cb_len: usize,
                    cr: *const u16, cr_len: usize,
                    $($own: $type,)*
                    place: *mut u64,
                ) -> u32;
            )*
        }
    };
}

of_planes! {
    fn tinladle_checksum(sum_y: *mut u32, sum_cb: *mut u32, sum_cr: *mut u32);
    fn tinladle_pixel(column: u32, row: u32, luma: *mut f32, cb_part: *mut f32, cr_part: *mut f32);
}

// What takes neither.
unsafe extern "C" {
    pub fn tinladle_convert_cells(
        cells: *const u8,
        cells_len: usize,
        out_cells: *mut u8,
        out_cells_len: usize,
        place: *mut u64,
    ) -> u32;

    pub fn tinladle_sample(depth: u32, chroma: bool, value: f32, sample: *mut u16, place: *mut u64) -> u32;
}
