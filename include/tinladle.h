/* tinladle: the HEVC deblocking filter on one whole picture (ITU-T H.265, clause 8.7.2).
 *
 * The library is libtinladle.a. It allocates nothing, keeps nothing between calls and calls nothing, so any number of
 * threads may run it on planes and lists of their own.
 */
#ifndef TINLADLE_H
#define TINLADLE_H

#include <stdbool.h>
#include <stddef.h>
#include <stdint.h>

#ifdef __cplusplus
extern "C" {
#endif

/* A PICTURE, AS A FUNCTION TAKES IT
 *
 * Nine settings and seven lists that are read, in this order. Every value of every argument is allowed: what is not a
 * picture is refused, with a number. All lengths are counted in elements.
 *
 *   width, height             in luma samples: multiples of 8, from 8 to 8192
 *   chroma_format             0 none, 1 4:2:0, 2 4:2:2, 3 4:4:4
 *   luma_depth, chroma_depth  bits of a sample, 8 to 16; both are checked in every format
 *   log2_ctb                  log2 of the size of a coding tree block (CTB), 4 to 6
 *   cb_qp_offset              pps_cb_qp_offset, -12 to 12; checked in every format
 *   cr_qp_offset              pps_cr_qp_offset, -12 to 12; checked in every format
 *   pcm_loop_filter_disabled  a cell marked PCM keeps its original samples
 *
 *   y, y_len                  the original luma samples, row by row: width * height
 *   cb, cb_len                the original Cb samples, row by row, in the format's own size; none in format 0
 *   cr, cr_len                the original Cr samples, likewise
 *   cells, cells_len          8 bytes for each 4 by 4 luma block, row by row
 *   slices, slices_len        4 bytes for each slice, at most 2400 bytes; an empty list stands for one slice 0, 6, 5, 1
 *   tile_columns, columns_len the first CTB column of each tile column, 1 to 20 entries: 0, then rising
 *   tile_rows, rows_len       the first CTB row of each tile row, 1 to 22 entries: 0, then rising
 *
 * The 8 bytes of a cell:
 *   0     QP plus 64; the QP is from -6 * (luma_depth - 8) to 51
 *   1     bit 0: an edge on its left side; bit 1: an edge on its top side; bit 2: lossless; bit 3: PCM; bit 4: palette;
 *         the others 0
 *   2     vertical bS, that of the edge on its left side: 0 to 2, and above 0 only where bit 0 is set
 *   3     horizontal bS, that of the edge on its top side: 0 to 2, and above 0 only where bit 1 is set
 *   4, 5  number of its slice, low byte first
 *   6, 7  0
 * A cell that is lossless or palette, or PCM where pcm_loop_filter_disabled is set, keeps its original samples in every
 * plane. Its edges are filtered all the same, for the samples on their other side. A list that was stored before a bS
 * above 0 needed its edge bit is converted by tinladle_convert_cells, below.
 *
 * The 4 bytes of a slice:
 *   0     1 where the left and top edges of its cells are not filtered, else 0
 *   1     slice_beta_offset_div2 plus 6, 0 to 12
 *   2     slice_tc_offset_div2 plus 6, 0 to 12
 *   3     1 where the filter runs across its left and top borders, else 0
 *
 * An empty slice list stands for the one slice 0, 6, 5, 1: filtered, slice_beta_offset_div2 0, slice_tc_offset_div2 -1.
 * Then every cell is of slice 0, else the picture is refused (9). Both offsets 0 are passed outright: 0, 6, 6, 1.
 *
 * WHICH EDGES ARE FILTERED. Nothing is refused for these rules: an edge that one of them leaves out is silently not
 * filtered, and the picture comes out different.
 *   - Edges lie on the multiples of 8 of each plane's own samples. An edge bit anywhere else is allowed and does
 *     nothing. A chroma plane with half the columns (4:2:0, 4:2:2) has its vertical edges at luma columns 16, 32, ..,
 *     one with half the rows (4:2:0) its horizontal edges at luma rows 16, 32, ...
 *   - Four samples along an edge are filtered alike. Where in chroma they span two cells on a side, the first of the
 *     two gives edge bit, bS, QP and slice.
 *   - No edge on the picture's border, luma column 0 or row 0, is filtered, whatever its bits.
 *   - bS 1 filters luma alone. Chroma is filtered where bS is 2.
 *   - No edge between two tiles is filtered. A stream that filters across its tiles
 *     (loop_filter_across_tiles_enabled_flag 1) is passed as one tile, with 0 alone in tile_columns and in tile_rows.
 *
 * A function that takes a picture returns a number, and *place says where. The causes are looked for in this order, and
 * the first is returned:
 *
 *   0   accepted                                                        place 0
 *   1   width or height not allowed                                     place 0
 *   2   chroma_format above 3                                           place 0
 *   3   a depth outside 8 to 16                                         place 0
 *   4   log2_ctb outside 4 to 6                                         place 0
 *   5   a chroma offset outside -12 to 12                               place 0
 *   6   a plane, original or output, or the cells not of their length;  place 0
 *       slices_len not a multiple of 4 or above 2400; no tile start
 *       or too many
 *   7   a slice out of range                                            the first such slice
 *   8   a tile start out of rule: the first not 0, one not above the    the first such entry, the rows numbered on
 *       one before, or one past the picture's last CTB                  after the columns
 *   9   a cell out of range, a bS above 0 without its edge bit, or      the first such cell
 *       a cell's slice not in the list
 *   10  an original sample above 2^depth - 1                            the first such, counted through y, cb, cr
 *
 * On a refusal, any number but 0, nothing but *place is written.
 *
 * What a caller owes, and no check can see:
 *   - Each pointer points to as many elements as its length says, aligned for their type, which nothing else changes
 *     during the call.
 *   - A pointer may be null only where its length is 0, as that of cb and cr in format 0. place is never null.
 *   - What a function writes overlaps nothing else that it is handed: no output another output, an input or *place.
 *     Inputs may overlap one another.
 *   - pcm_loop_filter_disabled is 0 or 1 in its byte, as every bool of C is.
 */

/* Filters one picture. The originals y, cb, cr are read; the filtered samples go to out_y, out_cb, out_cr.
 *
 *   a picture                 nine settings and seven lists, as above
 *   out_y, out_y_len          where the filtered luma samples go; as long as y
 *   out_cb, out_cb_len        where the filtered Cb samples go; as long as cb
 *   out_cr, out_cr_len        where the filtered Cr samples go; as long as cr
 *   place                     where the place of the answer is stored, always
 *
 * Returned is 0, and the output planes hold the filtered picture; or 1 to 10, and they hold what they held.
 *
 * What is promised of the filtered samples, and proved for every accepted picture: each is in its range, 0 to
 * 2^depth - 1, and no farther from its original than 96 * 2^(luma_depth - 8) in luma and 48 * 2^(chroma_depth - 8) in
 * chroma. No smaller numbers would do: each is met, at every depth.
 */
uint32_t tinladle_deblock(
    uint32_t width, uint32_t height, uint32_t chroma_format, uint32_t luma_depth, uint32_t chroma_depth,
    uint32_t log2_ctb, int32_t cb_qp_offset, int32_t cr_qp_offset, bool pcm_loop_filter_disabled,
    const uint16_t *y, size_t y_len, const uint16_t *cb, size_t cb_len, const uint16_t *cr, size_t cr_len,
    const uint8_t *cells, size_t cells_len, const uint8_t *slices, size_t slices_len,
    const uint16_t *tile_columns, size_t columns_len, const uint16_t *tile_rows, size_t rows_len,
    uint16_t *out_y, size_t out_y_len, uint16_t *out_cb, size_t out_cb_len, uint16_t *out_cr, size_t out_cr_len,
    uint64_t *place);

/* Converts a stored list of cells to the rule that a bS above 0 needs its edge bit: in each whole record the vertical
 * bS becomes 0 where bit 0 of the flags is clear, and the horizontal bS where bit 1 is, whatever else the record holds.
 * Every other byte is copied, and so are the 1 to 7 bytes after the last whole record, where there are some.
 *
 *   cells, cells_len          the list; of any length, with any bytes
 *   out_cells, out_cells_len  where the converted list goes; as long as cells, and not cells itself: no list is
 *                             converted in place
 *   place                     where 0 is stored, always
 *
 * Returned is 0, and out_cells holds the converted list; or 6 where the two lengths differ, and it holds what it held.
 * What a caller owes is as above: lengths that are true, null only where a length is 0, and no overlap.
 * No picture is taken and no record refused. A list in rule stays the same, so converting twice is converting once. A
 * picture that was accepted before the rule came is accepted with its list converted, and its output planes are the
 * same.
 */
uint32_t tinladle_convert_cells(
    const uint8_t *cells, size_t cells_len, uint8_t *out_cells, size_t out_cells_len, uint64_t *place);

/* The picture checksum of H.265, Annex D (decoded picture hash, hash_type 2), of a picture's finished planes: a sum for
 * each plane, modulo 2^32. Where no filter comes after this one (SAO off), and a picture's planes are out_y, out_cb and
 * out_cr of tinladle_deblock, these are the sums that its encoder wrote into the stream. For each sample, at column x
 * and row y of its own plane,
 *
 *   mask = (x & 0xff) ^ (y & 0xff) ^ (x >> 8) ^ (y >> 8)
 *
 * and (sample & 0xff) ^ mask joins the sum; in a plane of a depth above 8, (sample >> 8) ^ mask joins too.
 *
 *   width, height             as above
 *   chroma_format             as above
 *   luma_depth, chroma_depth  as above; a plane's own depth decides whether its high parts join
 *   y, y_len                  the luma samples, row by row: width * height
 *   cb, cb_len                the Cb samples, row by row, in the format's own size; none in format 0
 *   cr, cr_len                the Cr samples, likewise
 *   sum_y, sum_cb, sum_cr     where the sums are stored; in format 0 that of luma alone
 *   place                     where the place of the answer is stored, always
 *
 * Returned is 0, and the sums are stored; or the first of these causes in this order, with the numbers and places of
 * the list above, and nothing but *place is written:
 *
 *   1   width or height not allowed                                     place 0
 *   2   chroma_format above 3                                           place 0
 *   3   a depth outside 8 to 16, in every format                        place 0
 *   6   a plane not of its length                                       place 0
 *   10  a sample above 2^depth - 1                                      the first such, counted through y, cb, cr
 *
 * The planes that tinladle_deblock leaves of an accepted picture are never refused.
 *
 * What a caller owes is as above. sum_y, sum_cb and sum_cr are never null, in format 0 neither, and lie apart from one
 * another, from *place and from the planes.
 */
uint32_t tinladle_checksum(
    uint32_t width, uint32_t height, uint32_t chroma_format, uint32_t luma_depth, uint32_t chroma_depth,
    const uint16_t *y, size_t y_len, const uint16_t *cb, size_t cb_len, const uint16_t *cr, size_t cr_len,
    uint32_t *sum_y, uint32_t *sum_cb, uint32_t *sum_cr, uint64_t *place);

/* One pixel of a picture's finished planes as 32-bit floats (IEEE 754 binary32), for a recogniser. The part of luma is
 *
 *   sample / 2^luma_depth,                                              0 to less than 1,
 *
 * of the luma sample at the column and the row. In formats 1 to 3 the parts of Cb and of Cr are
 *
 *   (sample - 2^(chroma_depth - 1)) / 2^chroma_depth,                   -0.5 to less than 0.5,
 *
 * of the sample under the pixel: its column and row are the pixel's, each divided by the format's scale that way (2 or
 * 1) and rounded down. Each float is exactly that fraction, at every depth; the middle sample of chroma gives +0.0.
 *
 *   width, height, chroma_format, luma_depth, chroma_depth, y, cb, cr   as for tinladle_checksum
 *   column, row               the pixel, from 0 on, in luma samples
 *   luma, cb_part, cr_part    where the parts are stored; in format 0 that of luma alone
 *   place                     where the place of the answer is stored, always
 *
 * Returned is 0, and the parts are stored; or the first of these causes in this order, and nothing but *place is
 * written:
 *
 *   1, 2, 3, 6, 10            as for tinladle_checksum, with their places
 *   14                        the pixel lies outside the picture         place 0
 *
 * The planes that tinladle_deblock leaves of an accepted picture are refused nothing but a pixel outside. Every call
 * looks at every sample of the planes, for cause 10, so its cost is that of the checks.
 *
 * What a caller owes is as above. luma, cb_part and cr_part are never null, in format 0 neither, and lie apart from one
 * another, from *place and from the planes. What they hold before the call may be anything, a NaN too.
 */
uint32_t tinladle_pixel(
    uint32_t width, uint32_t height, uint32_t chroma_format, uint32_t luma_depth, uint32_t chroma_depth,
    const uint16_t *y, size_t y_len, const uint16_t *cb, size_t cb_len, const uint16_t *cr, size_t cr_len,
    uint32_t column, uint32_t row, float *luma, float *cb_part, float *cr_part, uint64_t *place);

/* The way back: the sample whose part the float is, bit for bit, told its depth and whether it is of chroma.
 *
 *   depth                     the depth of the samples, 8 to 16
 *   chroma                    0 for a part of luma, 1 for one of Cb or Cr
 *   value                     any float, a NaN or an infinity too
 *   sample                    where the sample is stored
 *   place                     where 0 is stored, always
 *
 * Returned is 0, and the sample is stored, from 0 to 2^depth - 1; or the first of these, and nothing but *place is
 * written:
 *
 *   3   depth outside 8 to 16                                           place 0
 *   15  a float that no sample of this depth gives                      place 0
 *
 * Of the floats exactly 2^depth are taken, one for each sample, and that sample is returned. Every other has 15: a NaN,
 * the infinities, -0.0, what lies between two samples by however little, and what lies outside their range.
 *
 * What a caller owes is as above: sample and place are never null and lie apart, and chroma is 0 or 1 in its byte.
 * tinladle_pixel and tinladle_sample run in the floating-point environment that a C program begins with: rounding to
 * nearest, no exception trapped (a float that is refused may set the flags of some).
 */
uint32_t tinladle_sample(uint32_t depth, bool chroma, float value, uint16_t *sample, uint64_t *place);

#ifdef __cplusplus
}
#endif

#endif
