/* The C functions of include/tinladle.h over an unproved build, for mutants.py: there what the Rattle sources call tinladle_deblock and so
 * on are inner functions, which take each slice as the address of a pointer and a length. */
#include "tinladle.h"

struct Slice {
    const void *at;
    size_t count;
};

uint32_t unproved_deblock(
    uint32_t width, uint32_t height, uint32_t chroma_format, uint32_t luma_depth, uint32_t chroma_depth, uint32_t log2_ctb,
    int32_t cb_qp_offset, int32_t cr_qp_offset, bool pcm_loop_filter_disabled, const struct Slice *y, const struct Slice *cb,
    const struct Slice *cr, const struct Slice *cells, const struct Slice *slices, const struct Slice *tile_columns,
    const struct Slice *tile_rows, const struct Slice *out_y, const struct Slice *out_cb, const struct Slice *out_cr, uint64_t *place);

uint32_t tinladle_deblock(
    uint32_t width, uint32_t height, uint32_t chroma_format, uint32_t luma_depth, uint32_t chroma_depth,
    uint32_t log2_ctb, int32_t cb_qp_offset, int32_t cr_qp_offset, bool pcm_loop_filter_disabled,
    const uint16_t *y, size_t y_len, const uint16_t *cb, size_t cb_len, const uint16_t *cr, size_t cr_len,
    const uint8_t *cells, size_t cells_len, const uint8_t *slices, size_t slices_len,
    const uint16_t *tile_columns, size_t columns_len, const uint16_t *tile_rows, size_t rows_len,
    uint16_t *out_y, size_t out_y_len, uint16_t *out_cb, size_t out_cb_len, uint16_t *out_cr, size_t out_cr_len,
    uint64_t *place) {
    struct Slice in[] = { { y, y_len }, { cb, cb_len }, { cr, cr_len }, { cells, cells_len }, { slices, slices_len },
        { tile_columns, columns_len }, { tile_rows, rows_len } };
    struct Slice out[] = { { out_y, out_y_len }, { out_cb, out_cb_len }, { out_cr, out_cr_len } };
    return unproved_deblock(width, height, chroma_format, luma_depth, chroma_depth, log2_ctb, cb_qp_offset, cr_qp_offset,
        pcm_loop_filter_disabled, &in[0], &in[1], &in[2], &in[3], &in[4], &in[5], &in[6], &out[0], &out[1], &out[2], place);
}

uint32_t unproved_convert_cells(const struct Slice *cells, const struct Slice *out_cells, uint64_t *place);

uint32_t tinladle_convert_cells(const uint8_t *cells, size_t cells_len, uint8_t *out_cells, size_t out_cells_len, uint64_t *place) {
    struct Slice in = { cells, cells_len }, out = { out_cells, out_cells_len };
    return unproved_convert_cells(&in, &out, place);
}

uint32_t unproved_checksum(
    uint32_t width, uint32_t height, uint32_t chroma_format, uint32_t luma_depth, uint32_t chroma_depth, const struct Slice *y,
    const struct Slice *cb, const struct Slice *cr, uint32_t *sum_y, uint32_t *sum_cb, uint32_t *sum_cr, uint64_t *place);

uint32_t tinladle_checksum(
    uint32_t width, uint32_t height, uint32_t chroma_format, uint32_t luma_depth, uint32_t chroma_depth,
    const uint16_t *y, size_t y_len, const uint16_t *cb, size_t cb_len, const uint16_t *cr, size_t cr_len,
    uint32_t *sum_y, uint32_t *sum_cb, uint32_t *sum_cr, uint64_t *place) {
    struct Slice in[] = { { y, y_len }, { cb, cb_len }, { cr, cr_len } };
    return unproved_checksum(width, height, chroma_format, luma_depth, chroma_depth, &in[0], &in[1], &in[2], sum_y, sum_cb, sum_cr, place);
}

uint32_t unproved_pixel(
    uint32_t width, uint32_t height, uint32_t chroma_format, uint32_t luma_depth, uint32_t chroma_depth, const struct Slice *y,
    const struct Slice *cb, const struct Slice *cr, uint32_t column, uint32_t row, float *luma, float *cb_part, float *cr_part,
    uint64_t *place);

uint32_t tinladle_pixel(
    uint32_t width, uint32_t height, uint32_t chroma_format, uint32_t luma_depth, uint32_t chroma_depth,
    const uint16_t *y, size_t y_len, const uint16_t *cb, size_t cb_len, const uint16_t *cr, size_t cr_len,
    uint32_t column, uint32_t row, float *luma, float *cb_part, float *cr_part, uint64_t *place) {
    struct Slice in[] = { { y, y_len }, { cb, cb_len }, { cr, cr_len } };
    return unproved_pixel(width, height, chroma_format, luma_depth, chroma_depth, &in[0], &in[1], &in[2], column, row, luma, cb_part,
        cr_part, place);
}

uint32_t unproved_sample(uint32_t depth, bool chroma, float value, uint16_t *sample, uint64_t *place);

uint32_t tinladle_sample(uint32_t depth, bool chroma, float value, uint16_t *sample, uint64_t *place) {
    return unproved_sample(depth, chroma, value, sample, place);
}
