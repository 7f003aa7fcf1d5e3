/* Hingevale: frame headers, geometry and tables of contents of JPEG XL frames, over numbers and lent slices.
 *
 * A slice is a pointer and a count of elements. The pointer must not be null, also where the count is 0; slices that are written must not
 * overlap any other slice of the call. Input over 16,777,216 bytes is refused (2); hingevale_list alone takes input of any length.
 *
 * A function that can refuse answers a status word, HINGEVALE_NUMBER(status) + 256 * HINGEVALE_PLACE(status):
 *   0            accepted: the lent slices hold the answer; only the used places are written
 *   1 to 14      refused, with the bit place of the fault (0 where the rules name none): no lent slice is changed
 *   255          "order needed" (the section entries), with the bit place after the permuted flag: no lent slice is changed
 * The numbers: 1 bad facts, 2 input too long, 3 a lent slice is too short, 4 out of bits, 5 bad blend mode, 6 bad float, 7 bad Gabor weights,
 * 8 bad frame record, 9 zero size, 10 over 65,536 sections, 11 place after the end, 12 padding isn't zero, 13 bad order, 14 the frame has no such
 * group, kind, sample, pass or section. Each function's comment has the order in which they are given.
 *
 * Link libexport.a, which `tools/staticlib` writes to target/staticlib. */
#ifndef HINGEVALE_H
#define HINGEVALE_H

#include <stdbool.h>
#include <stddef.h>
#include <stdint.h>

#ifdef __cplusplus
extern "C" {
#endif

#define HINGEVALE_NUMBER(status) ((uint32_t)((status) % 256))
#define HINGEVALE_PLACE(status) ((status) / 256)
#define HINGEVALE_ORDER_NEEDED 255

/* How many elements the lent slices of a record need. */
#define HINGEVALE_NAME_BYTES 1071
#define HINGEVALE_HEADER_WORDS 51
#define HINGEVALE_HEADER_SIGNED 2
#define HINGEVALE_HEADER_FLOATS 22
#define HINGEVALE_TOC_WORDS 3
#define HINGEVALE_GRID_WORDS 11
#define HINGEVALE_LAYOUT_WORDS 8

/* Reads the frame header at the start of s. The facts: the image's width and height (1 to 1,073,741,824), whether it is XYB or grey, how
 * many extra channels it has (at most 256), whether it is an animation and has timecodes.
 *
 * name        at least 1,071 bytes; the first name_length are the name
 * upsampling  a word for each extra channel
 * blending    four words for each extra channel: mode, alpha channel, clamp, source
 * words       at least 51:
 *    0 the bit place after the header      1 flags
 *    2 frame type (0 regular, 1 LF, 2 reference only, 3 skip progressive)      3 encoding (0 VarDCT, 1 Modular)      4 do_ycbcr
 *    5 encoded_color_channels      6 upsampling      7 group_size_shift      8 x_qm_scale      9 b_qm_scale      10 num_passes
 *   11 num_ds      12 to 14 jpeg_upsampling      15 to 24 shift      25 to 28 downsample      29 to 32 last_pass      33 lf_level
 *   34 have_crop      35 width      36 height      37 blend mode (0 replace, 1 add, 2 blend, 3 muladd, 4 mul)      38 alpha_channel
 *   39 clamp      40 source      41 duration      42 timecode      43 is_last      44 save_as_reference      45 resets_canvas
 *   46 save_before_ct      47 name_length      48 Gabor enabled      49 edge filter enabled      50 its iterations
 * signs       at least 2: x0, y0
 * floats      at least 22: 0 to 5 Gabor weights, two a channel; 6 to 13 sharpness; 14 to 16 channel scales; 17 quant_mul;
 *             18 pass0_sigma_scale; 19 pass2_sigma_scale; 20 border_sad_mul; 21 sigma_for_modular
 * Refusals: 2, 1, 3, then the first fault in reading order (4, 5, 6, 7). */
uint64_t hingevale_read_frame_header(const uint8_t *s, size_t s_len, uint32_t width, uint32_t height, bool xyb, bool grey, uint32_t extra,
                                     bool animation, bool timecodes, uint8_t *name, size_t name_len, uint32_t *upsampling,
                                     size_t upsampling_len, uint32_t *blending, size_t blending_len, uint64_t *words, size_t words_len,
                                     int32_t *signs, size_t signs_len, float *floats, size_t floats_len);

/* The questions on a header, over its words. They answer yes or no and refuse nothing: a frame type over 3, which names none, is answered with no.
 * Whether a filter is enabled needs no question: words 48 and 49 say so. */
bool hingevale_is_keyframe(uint32_t frame_type, bool is_last, uint32_t duration);
bool hingevale_can_reference(uint32_t frame_type, bool is_last, uint32_t duration, uint32_t save_as_reference);
bool hingevale_noise(uint64_t flags);
bool hingevale_patches(uint64_t flags);
bool hingevale_splines(uint64_t flags);
bool hingevale_use_lf_frame(uint64_t flags);
bool hingevale_skip_adaptive_lf_smoothing(uint64_t flags);

/* A frame, in every function below: words 35, 36, 6, 33, 7 and 10 of a header. */
#define HINGEVALE_FRAME \
    uint32_t width, uint32_t height, uint32_t upsampling, uint32_t lf_level, uint32_t group_size_shift, uint32_t num_passes

/* The grid, in 11 words: width and height in colour samples, the side of a group and of an LF group, columns and rows of groups, columns and
 * rows of LF groups, how many groups, LF groups and sections there are. Refusals: 8, 9, 10, 3. */
uint64_t hingevale_measure(HINGEVALE_FRAME, uint64_t *out, size_t out_len);

/* The frame's size in samples for an upsampling, which may be any number (0 and 1 change nothing), in one word. Refusals: 8, 9, 10, 3. */
uint64_t hingevale_sample_width(HINGEVALE_FRAME, uint32_t by, uint64_t *out, size_t out_len);
uint64_t hingevale_sample_height(HINGEVALE_FRAME, uint32_t by, uint64_t *out, size_t out_len);

/* The clipped rectangle of a group or an LF group, in four words: left, top, width, height. Refusals: 8, 9, 10, 3, 14. */
uint64_t hingevale_group_rect(HINGEVALE_FRAME, uint32_t group_idx, uint64_t *out, size_t out_len);
uint64_t hingevale_lf_group_rect(HINGEVALE_FRAME, uint32_t lf_group_idx, uint64_t *out, size_t out_len);

/* The group of a point inside an unclipped group; the LF group of a group. One word. Refusals: 8, 9, 10, 3, 14. */
uint64_t hingevale_group_idx_from_coord(HINGEVALE_FRAME, uint32_t x, uint32_t y, uint64_t *out, size_t out_len);
uint64_t hingevale_lf_group_idx_from_group_idx(HINGEVALE_FRAME, uint32_t group_idx, uint64_t *out, size_t out_len);

/* Whether a region overlaps an unclipped group or LF group: 1 or 0, in one word. Refusals: 8, 9, 10, 3, 14. */
uint64_t hingevale_is_group_collides_region(HINGEVALE_FRAME, uint32_t group_idx, uint32_t left, uint32_t top, uint32_t across, uint32_t down,
                                            uint64_t *out, size_t out_len);
uint64_t hingevale_is_lf_group_collides_region(HINGEVALE_FRAME, uint32_t lf_group_idx, uint32_t left, uint32_t top, uint32_t across,
                                               uint32_t down, uint64_t *out, size_t out_len);

/* The first section entry: reads the permuted flag at a bit place of s; if 0, the sizes. Each table has at least a word for each section.
 *
 * offsets, sizes  by section number: where its data begins, counted from the start of s, and how many bytes it has
 * order           by section number: its sent number
 * inverse         by sent number: its section number
 * out             at least 3 words: how many sections (1: the frame has a single entry), the data start, the sum of the sizes
 * Refusals: 2, 8, 9, 10, 3, 11, then reading order (4, 12); 255 where the flag is 1. */
uint64_t hingevale_read_toc(const uint8_t *s, size_t s_len, HINGEVALE_FRAME, uint64_t place, uint64_t *offsets, size_t offsets_len,
                            uint32_t *sizes, size_t sizes_len, uint32_t *order, size_t order_len, uint32_t *inverse, size_t inverse_len,
                            uint64_t *out, size_t out_len);

/* The second section entry: goes on at the padding, with a lent order (sent number by section number) of exactly as many entries as there
 * are sections. Refusals: 2, 8, 9, 10, 3, 11, 13, then reading order (4, 12). */
uint64_t hingevale_read_toc_with_order(const uint8_t *s, size_t s_len, HINGEVALE_FRAME, uint64_t place, const uint32_t *lent, size_t lent_len,
                                       uint64_t *offsets, size_t offsets_len, uint32_t *sizes, size_t sizes_len, uint32_t *order,
                                       size_t order_len, uint32_t *inverse, size_t inverse_len, uint64_t *out, size_t out_len);

/* A kind to its section number, in one word. A kind is a number (0 All, 1 LfGlobal, 2 LfGroup, 3 HfGlobal, 4 GroupPass), a pass and a group (or
 * LF group), which count where the kind has them. Refusals: 8, 9, 10, 3, 14 (for an unknown number too). */
uint64_t hingevale_section_of_kind(HINGEVALE_FRAME, uint32_t kind, uint32_t pass_idx, uint32_t group_idx, uint64_t *out, size_t out_len);

/* A section number to its kind, in three words: number, pass, group or LF group. A word that the kind hasn't is 0: the pass of all but GroupPass,
 * the group of All, LfGlobal and HfGlobal. Refusals: 8, 9, 10, 3, 14. */
uint64_t hingevale_kind_of(HINGEVALE_FRAME, uint32_t section, uint64_t *out, size_t out_len);

/* A sample and a pass to the number of the section that holds them, in one word. Refusals: 8, 9, 10, 3, 14. */
uint64_t hingevale_section_of_sample(HINGEVALE_FRAME, uint32_t x, uint32_t y, uint32_t pass, uint64_t *out, size_t out_len);

/* A frame's layout, for looking up many samples of one frame: what a look-up needs of the frame, measured once, in eight words (width and height
 * in samples, the power of two that is a group's side, groups in a row, groups, LF groups, sections, passes). Refusals: 8, 9, 10, 3. */
uint64_t hingevale_layout_of(HINGEVALE_FRAME, uint64_t *out, size_t out_len);

/* The same as hingevale_section_of_sample, by the words of the frame's layout, of which the lowest 32 bits count. Any eight words have an answer.
 * Refusals: 3 (fewer than eight words, or no room), 14. */
uint64_t hingevale_section_in(const uint64_t *words, size_t words_len, uint32_t x, uint32_t y, uint32_t pass, uint64_t *out, size_t out_len);

/* A section number to its offset and size, in two words, through tables that an entry filled; longer tables are fine. Refusals: 8, 9, 10,
 * 3, 14. */
uint64_t hingevale_section_at(HINGEVALE_FRAME, const uint64_t *offsets, size_t offsets_len, const uint32_t *sizes, size_t sizes_len,
                              uint32_t section, uint64_t *out, size_t out_len);

/* A section number to its sent number through the order, and a sent number to its section number through the inverse, in one word. The table
 * has exactly as many entries as there are sections, and is judged whole. The sections in the order in which they are sent are those of the sent
 * numbers 0, 1, 2, .., each with its kind by hingevale_kind_of and its place by hingevale_section_at. Refusals: 8, 9, 10, 3, 13, 14. */
uint64_t hingevale_sent_of_section(HINGEVALE_FRAME, const uint32_t *order, size_t order_len, uint32_t section, uint64_t *out, size_t out_len);
uint64_t hingevale_section_of_sent(HINGEVALE_FRAME, const uint32_t *inverse, size_t inverse_len, uint32_t sent, uint64_t *out, size_t out_len);

/* The whole job of the program `list`: input is a facts line and a frame, text is where its output goes, and out has at least one word, which
 * becomes the output's length. The input may have any length; of the frame the first 32,768 bytes behind the facts line are used. What the program
 * refuses of a frame is in the text; the status is 3 where out or text is too short (the output has at most 81,054 bytes), and then nothing is
 * written. */
uint64_t hingevale_list(const uint8_t *input, size_t input_len, uint8_t *text, size_t text_len, uint64_t *out, size_t out_len);

#ifdef __cplusplus
}
#endif
#endif
