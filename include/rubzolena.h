/* Rubzolena: mobility peaks of a TOF grid, stitching, frame index, marginals and extracted ion chromatograms, retention peaks, and
 * expansion of mobility peaks along retention time. The functions stand in the static library librubzolena.a ('make library').
 * docs/SCOPE.md says what they compute, docs/DIFFERENCES.md has the corner cases.
 *
 *
 * REFUSAL CODES. Every value may be passed in: sizes, parameters and the contents of lists are all checked. "(n)" after a condition
 * is the refusal code returned if this condition is violated. If several conditions are violated, the lowest of their codes is
 * returned.
 *
 * RETURN VALUE. Unless the comment of a function says otherwise:
 *
 *   r % 64 == 0   success: r / 64 is the count. The results stand at the front of the output lists; what lies past them is unchanged
 *   r % 64 != 0   refusal: r is the code, 1 to 63. All lists that the function could have written are unchanged, scratch included
 *
 * 0 is success with a count of 0.
 *
 * LISTS. A list is a pointer and a length. Grid detection takes lists of bytes, with the length in bytes: 32-bit words, least
 * significant byte first, of any alignment; a float is its IEEE 754 binary32 bit pattern. The other functions take lists of uint32_t
 * and float, aligned as these types are, with the length in elements; a float inside a record is the uint32_t with its bit pattern.
 *
 * POINTERS cannot be checked. The caller guarantees:
 *   - each pointer is valid for its length: for reading and, if it is not const, for writing;
 *   - NULL is passed with length 0, and with no other length;
 *   - a list that is not const overlaps no other list. Lists that are const may overlap each other;
 *   - while a function runs, nobody else writes to any of its lists, nor reads from those that are not const.
 *
 * SCRATCH lists may be changed within the required length if the call succeeds, and nowhere else.
 *
 * DIVISIONS of whole numbers in lengths, conditions, bins and return values, such as (cols - 1) / 2, are integer divisions (rounded
 * down). Jaccard indices, noise and sigma are computed in binary32.
 *
 * FLOAT RANGES. "0 to L" for a float means a clear sign bit: -0.0, negative values, infinities and NaNs are out of range. Wherever a
 * list or parameter is a float, its range is meant so. The one exception is the field subscan of a record.
 *
 * THREADS. The functions keep no state and allocate nothing. They may be called from several threads at once if each call has written
 * lists of its own.
 *
 * STACK, at most:
 *
 *   function                                                    input                                                       stack
 *   ----------------------------------------------------------  ----------------------------------------------------------  -------
 *   rubzolena_stitch_im_peaks                                   more than 1,024 peaks whose identities do not strictly      800 KiB
 *                                                               rise from record to record
 *   rubzolena_detect_im_peaks                                   rows of more than 1,024 columns                             512 KiB
 *   rubzolena_expand_im_peak, rubzolena_expand_many_im_peaks    runs of more than 1,024 frames                              448 KiB
 *   rubzolena_find_rt_peaks                                     traces of more than 4,096 frames                            368 KiB
 *   rubzolena_find_rt_peaks                                     traces of 1,025 to 4,096 frames                              96 KiB
 *   all functions                                               all other input                                              64 KiB */
#ifndef RUBZOLENA_H
#define RUBZOLENA_H

#include <stddef.h>
#include <stdint.h>

#ifdef __cplusplus
extern "C" {
#endif

/* Words of the record of a mobility peak (108 bytes). Code 9 is returned where a field is out of its range or a low bound is above
 * its high one. The word of a missing field is written as 0 and not looked at on input. docs/SCOPE.md says what each field is.
 *
 *   word    field                       type      range (9)
 *   ------  --------------------------  --------  -----------------------------------------------------------------
 *   0       tof_row                     uint32_t  0 to 4,194,303
 *   1       tof_center                  uint32_t  0 to 4,259,839
 *   2, 3    tof_lo, tof_hi              uint32_t  0 to 4,259,839, tof_lo <= tof_hi
 *   4, 5    rt_lo, rt_hi                uint32_t  0 to 16,383, rt_lo <= rt_hi
 *   6, 7    frame_id_lo, frame_id_hi    uint32_t  any, frame_id_lo <= frame_id_hi
 *   8       flags                       uint32_t  0 to 7; bit 0: window_group is there, bit 1: mobility, bit 2: scan_sigma
 *   9       window_group                uint32_t  any
 *   10      scan                        uint32_t  0 to 16,383
 *   11, 12  left, right                 uint32_t  0 to 16,383, left <= right
 *   13      scan_abs                    uint32_t  0 to 65,535
 *   14, 15  left_abs, right_abs         uint32_t  0 to 65,535, left_abs <= right_abs
 *   16      scan_sigma                  float     0 to 2^20, if there
 *   17      mobility                    float     0 to 2^20, if there
 *   18, 19  apex_smoothed, apex_raw     float     0 to 2^33
 *   20      prominence                  float     0 to 2^33
 *   21, 22  left_x, right_x             float     0 to 65,535, left_x <= right_x
 *   23      width_scans                 uint32_t  0 to 65,536
 *   24      area_raw                    float     0 to 2^50
 *   25      subscan                     float     -0.5 to 0.5; -0.0 is in range
 *   26      id                          uint32_t  any */
#define RUBZOLENA_RECORD_WORDS 27

/* Words of the record of a retention peak (88 bytes). Words 14 to 20 are taken over from its mobility peak: of flags bit 0 alone,
 * parent_im_id is its id. A missing window_group is written as 0. Expansion counts frames (words 0, 5, 6, 10 and 11) from the first of the
 * run, rubzolena_fallback_rt_peak from the first of its trace. rt_lo is above rt_hi in some records that expansion makes by the fallback
 * (docs/DIFFERENCES.md); in all others rt_lo <= rt_hi.
 *
 *   word    field                       type
 *   ------  --------------------------  --------
 *   0       rt_idx                      uint32_t
 *   1       rt_sec                      float
 *   2, 3    apex_smoothed, apex_raw     float
 *   4       prominence                  float
 *   5, 6    left_x, right_x             float
 *   7       width_frames                uint32_t
 *   8       area_raw                    float
 *   9       subframe                    float
 *   10, 11  rt_lo, rt_hi                uint32_t
 *   12, 13  frame_id_lo, frame_id_hi    uint32_t
 *   14      flags                       uint32_t, bit 0: window_group is there
 *   15      window_group                uint32_t
 *   16, 17  tof_row, tof_center         uint32_t
 *   18, 19  tof_lo, tof_hi              uint32_t
 *   20      parent_im_id                uint32_t
 *   21      id                          uint32_t */
#define RUBZOLENA_RT_RECORD_WORDS 22

/* Words of the record of a retention peak of a single trace (52 bytes): the first ten of the table above, with frames counted from the
 * first of the trace, then left_sec, right_sec and width_sec, all three float. */
#define RUBZOLENA_LOCAL_RECORD_WORDS 13

/* Words of a window: first frame, last frame (positions in the run, both included), and sigma in frames, a float. */
#define RUBZOLENA_WINDOW_WORDS 3

/* The kinds of threshold. A threshold is passed as its kind and a float; any other kind is refused with 4. The noise is that of the
 * smoothed trace (rubzolena_robust_noise_mad). */
enum {
    RUBZOLENA_FIXED = 0,         /* the float; where the noise is above 0, the greater of the float and 3 * noise */
    RUBZOLENA_ADAPTIVE_NOISE = 1 /* the float * noise where the noise is above 0, else 1 */
};

/* The refusal codes.
 *
 *   function                                                            codes it can return
 *   ------------------------------------------------------------------  ------------------------
 *   rubzolena_detect_im_peaks                                           1 to 7, 20, 22
 *   rubzolena_stitch_im_peaks                                           1, 2, 4, 8, 9, 20, 21
 *   rubzolena_build_frame_bin_view                                      1 to 5, 20 to 22
 *   rubzolena_build_rt_marginal, rubzolena_build_im_marginal            1 to 5, 20, 23
 *   rubzolena_rt_trace_for_im_peak                                      1 to 5, 20, 23
 *   rubzolena_rt_trace_for_im_peak_by_bounds                            1 to 5, 20, 22, 23
 *   rubzolena_rt_traces_for_im_peaks_by_bounds                          1 to 5, 9, 20 to 23
 *   rubzolena_robust_noise_mad                                          2, 3
 *   rubzolena_find_rt_peaks                                             1 to 4, 7, 20, 21
 *   rubzolena_fallback_rt_peak                                          1 to 4, 7, 9, 20
 *   rubzolena_expand_window                                             1, 2, 4, 7, 9, 20
 *   rubzolena_expand_im_peak, rubzolena_expand_many_im_peaks            1 to 7, 9, 20 to 23 */
enum {
    RUBZOLENA_LENGTHS = 1,            /* lengths that must agree do not, a list is no whole number of words or records, or rows and num_bins differ */
    RUBZOLENA_TOO_LARGE = 2,          /* more than 4,194,304 rows, 16,384 columns or frames, 65,536 peaks, or 16,777,216 points or bins */
    RUBZOLENA_READING = 3,            /* a reading out of range (0 to 2^32, unless the function says otherwise) */
    RUBZOLENA_PARAMETER = 4,          /* a parameter, time or mobility out of range, a reversed range, or identities that could pass 2^32 - 1 */
    RUBZOLENA_TOF_OR_SCAN = 5,        /* a TOF value or a scan out of range */
    RUBZOLENA_WEIGHTS = 6,            /* smoothing weights not as required */
    RUBZOLENA_NOT_RISING = 7,         /* scans or frame numbers that do not strictly rise, or times that fall */
    RUBZOLENA_IDENTITY_TWICE = 8,     /* two peaks to stitch with the same identity */
    RUBZOLENA_RECORD = 9,             /* a record with reversed bounds or a field out of range */
    RUBZOLENA_LIST_TOO_SHORT = 20,    /* an output list shorter than required */
    RUBZOLENA_SCRATCH_TOO_SHORT = 21, /* a scratch list shorter than required */
    RUBZOLENA_SCALE = 22,             /* a TOF scale that contradicts itself */
    RUBZOLENA_INDEX = 23              /* a frame index that is not sound */
};

/* ARGUMENTS THAT SEVERAL FUNCTIONS TAKE. The tables of the functions refer to these by the names in capitals. Lengths are in elements.
 *
 * SCALE, the TOF scale of bins 0 to num_bins - 1. Bin k begins at tof_min + k * tof_step. tof_max is the lower edge of the last bin; TOF
 * values above it have no bin.
 *
 *   argument           condition (refusal code)
 *   -----------------  ---------------------------------------------------------------------------------------------
 *   tof_min, tof_max   lowest and highest TOF value: 0 to 4,194,303 (5); multiples of tof_step, tof_min <= tof_max (22)
 *   tof_step           1 to 65,536 (4)
 *   num_bins           == (tof_max - tof_min) / tof_step + 1 (22)
 *
 * INDEX, the frame index of a run with f frames, b bins and p points (rubzolena_build_frame_bin_view says what each list is).
 *
 *   argument  length                                 condition (refusal code)
 *   --------  -------------------------------------  --------------------------------------------------------------
 *   starts    f + 1, so at least 1 (1); f up to      first element 0, never falling, last element b (23)
 *             16,384 (2)
 *   bins      b, up to 16,777,216 (2)                0 to 4,194,303, strictly rising within each frame (23). They need
 *                                                    not be bins of a scale
 *   offsets   b + 1 (1)                              first element 0, never falling, last element p (23)
 *   scans     p, up to 16,777,216 (2)                absolute scans: 0 to 65,535 (5)
 *   readings  p (1)                                  0 to 2^32 (3), including those that are not summed
 *
 * RECORD, a list of RUBZOLENA_RECORD_WORDS words (1), each field in its range (9). RECORDS, a list of n such records: the length is a
 * multiple of RUBZOLENA_RECORD_WORDS (1), n is up to 65,536 (2), and each field of each record is in its range (9).
 *
 * AXES, the frames of a run.
 *
 *   argument  length                                 condition (refusal code)
 *   --------  -------------------------------------  --------------------------------------------------------------
 *   ids       up to 16,384 (2)                       frame numbers: any, strictly rising (7)
 *   times     that of ids (1)                        time of each frame in seconds: 0 to 2^20 (4), not falling (7)
 *
 * WEIGHTS, smoothing weights before division by their sum: an odd number of them, up to 257, each 0 to 1, the middle one 1 (6).
 *
 * EXPANSION, the parameters of expansion. All are checked by both calls.
 *
 *   argument                  range (4)    meaning
 *   ------------------------  -----------  -------------------------------------------------------------------------------
 *   bin_pad                   0 to 65,535  bins added on each side of the mobility peak's TOF bounds
 *   smooth_sigma_sec          0 to 2^20    sigma of the smoothing in seconds
 *   min_prom_kind, min_prom   0 or 1; the  threshold: minimum topographic prominence of a retention peak. The highest raw
 *                             float 0 to   reading must reach it, too
 *                             2^33
 *   min_sep_sec               0 to 2^20    minimum separation of two apexes in seconds
 *   min_width_sec             0 to 2^20    minimum width at half height in seconds
 *   fallback_if_frames_lt     0 to 65,535  a window of fewer frames is not searched but left to the fallback
 *   fallback_frac_width       0 to 1       fraction of the height at which the fallback measures the width
 *   rt_pad_frames             0 to 65,535  frames added on each side of the window, within the run */

/* The mobility peaks of all rows of a TOF grid. All lists are bytes: n elements are 4 * n bytes. The lengths in bytes of the readings
 * that are used, of scans, mobility, weights and out are multiples of 4 (1).
 *
 *   argument                  length             meaning; condition (refusal code)
 *   ------------------------  -----------------  --------------------------------------------------------------------------
 *   rows                                         == num_bins (1), up to 4,194,304 (2), so at least 1
 *   cols                                         up to 16,384 (2)
 *   data, data_raw            rows * cols (1)    readings, row after row: floats, 0 to 2^32 (3). data_raw is used if it is not
 *                                                empty; data is then not looked at, its length neither
 *   scans                     cols (1)           absolute scan of each column: 0 to 65,535 (5), strictly rising (7)
 *   tof_min, tof_max,                            SCALE, one bin per row. Records of row r have tof_lo = tof_min + r * tof_step
 *   tof_step, num_bins                           and tof_hi = tof_lo + tof_step
 *   rt_lo, rt_hi                                 frames of the grid, positions in the run: rt_lo <= rt_hi <= 16,383 (4). Copied
 *                                                into each record
 *   frame_id_lo, frame_id_hi                     their frame numbers: any, frame_id_lo <= frame_id_hi (4). Copied into each
 *                                                record
 *   group_flag                                   1: there is a window group; 0: it is missing, and window_group is not looked
 *                                                at; else refused (4)
 *   window_group                                 any. Copied into each record
 *   mobility                  cols, or 0: none   mobility of each column: floats, 0 to 2^20 (4). The value at the apex's column
 *                             (1)                goes into the record
 *   min_prom                                     floor, the minimum topographic prominence: 0 to 2^33 (4). The highest reading of
 *                                                the row must reach it, too
 *   min_distance_scans                           minimum distance of two apexes of a row in columns: 0 to 65,535 (4). 0 and 1 keep
 *                                                all
 *   min_width_scans                              minimum width at half height, rounded, in columns: 0 to 65,535 (4)
 *   weights                   see WEIGHTS (6)    WEIGHTS, or empty: the rows are not smoothed
 *   first                                        identity of the first peak; the others get the following numbers. first +
 *                                                (maximum number of peaks, below) <= 2^32 (4)
 *   out                       27 per record      at least rows * ((cols - 1) / 2) records, the maximum number of peaks; 0 if
 *                                                cols is 0 (20). In C, size_t cols - 1 would wrap around there
 *
 * Count: the peaks. Their records stand at the front of out, by row and, within a row, by column. */
uint64_t rubzolena_detect_im_peaks(
    size_t rows, size_t cols,
    const uint8_t *data, size_t data_len,
    const uint8_t *data_raw, size_t data_raw_len,
    const uint8_t *scans, size_t scans_len,
    uint32_t tof_min, uint32_t tof_max, uint32_t tof_step, uint32_t num_bins,
    uint32_t rt_lo, uint32_t rt_hi, uint32_t frame_id_lo, uint32_t frame_id_hi,
    uint32_t group_flag, uint32_t window_group,
    const uint8_t *mobility, size_t mobility_len,
    float min_prom, uint32_t min_distance_scans, uint32_t min_width_scans,
    const uint8_t *weights, size_t weights_len,
    uint32_t first,
    uint8_t *out, size_t out_len);

/* Stitching: merges the peaks of a list, from one grid or from several, that belong together. n is the number of records.
 *
 * There are two passes. The first sorts the peaks into buckets by window group, scan and row and merges runs of neighbours within each
 * bucket. The second takes all peaks that come out of the first, merged or not, as one bucket. A peak joins the run before it if it
 * agrees with the last peak of the run (overlaps, Jaccard indices, window group, row, apexes) and the rows and absolute scans of the
 * whole run stay within the deltas.
 * docs/SCOPE.md says what a merged peak is. docs/DIFFERENCES.md names its corner cases: the record of a merged peak may be one that
 * is refused with 9 when it is passed in again.
 *
 *   argument                     length      meaning; condition (refusal code)
 *   ---------------------------  ----------  ------------------------------------------------------------------------------
 *   list                         27 * n      RECORDS; no identity twice (8)
 *   min_overlap_frames                       minimum overlap of the frames rt_lo to rt_hi, both included: 0 to 65,535 (4)
 *   max_scan_delta                           maximum difference of the absolute scans of a run: 0 to 65,535 (4); 0: any. Also the
 *                                            width of the first pass's buckets in scans, for which 0 means 1
 *   jaccard_min                              minimum Jaccard index of the frames (overlap / union): 0 to 1 (4); 0: any
 *   max_tof_row_delta                        maximum difference of the rows of a run: 0 to 65,535 (4); 0: any. The first pass's
 *                                            buckets have one row more than that, so there 0 means the same row
 *   allow_cross_groups                       1: window groups do not matter; 0: they must be equal, or both missing; else
 *                                            refused (4). Peaks merged from unequal groups have none
 *   min_im_overlap_scans                     minimum overlap of left to right, both included: 0 to 65,535 (4)
 *   im_jaccard_min                           minimum Jaccard index of left to right: 0 to 1 (4); 0: any
 *   require_mutual_apex_inside               1: both absolute scans must lie in the overlap of left_abs to right_abs; 0: any; else
 *                                            refused (4)
 *   out                          >= 27 * n   the stitched peaks (20)
 *   owners                       >= n        for each record of list the position of its stitched peak in out, in records, from
 *                                            0 (20)
 *   order, groups                >= n each   scratch (21)
 *   keys, merged                 >= 27 * n   scratch (21)
 *                                each
 *
 * Count: the stitched peaks, whose records stand at the front of out. owners has n results. */
uint64_t rubzolena_stitch_im_peaks(
    const uint32_t *list, size_t list_len,
    uint32_t min_overlap_frames, uint32_t max_scan_delta, float jaccard_min, uint32_t max_tof_row_delta,
    uint32_t allow_cross_groups, uint32_t min_im_overlap_scans, float im_jaccard_min, uint32_t require_mutual_apex_inside,
    uint32_t *out, size_t out_len,
    uint32_t *owners, size_t owners_len,
    uint32_t *order, size_t order_len,
    uint32_t *groups, size_t groups_len,
    uint32_t *keys, size_t keys_len,
    uint32_t *merged, size_t merged_len);

/* Builds the part of a frame index that belongs to one frame: its points that have a bin, sorted by bin. Points of the same bin keep
 * their order. n is the number of points of the frame.
 *
 * A frame index has the points of all frames of a run, frame after frame, in five lists:
 *
 *   list      elements                                       content
 *   --------  ---------------------------------------------  ---------------------------------------------------------------------
 *   starts    one per frame, and one more                    position in bins of the frame's first bin; at the end the number of bins
 *   bins      one per distinct bin of each frame             the bins, rising within a frame
 *   offsets   one per element of bins, and one more          position in scans and readings of the bin's first point; at the end the
 *                                                            number of points
 *   scans     one per point                                  the absolute scan
 *   readings  one per point                                  the reading
 *
 * This function writes the last four for one frame. To build the index of a run, call it for one frame after another. With k bins and base
 * points so far:
 *   - out_bins is bins + k and out_offsets is offsets + k. The first offset of a frame takes the place of the last offset of the frame
 *     before it, which is the same number;
 *   - out_scans is scans + base and out_readings is readings + base;
 *   - the caller keeps starts: 0, and after each frame the number of bins so far.
 *
 *   argument               length       meaning; condition (refusal code)
 *   ---------------------  -----------  ------------------------------------------------------------------------------
 *   tofs                   n            TOF value of each point: 0 to 4,194,303 (5). Points below tof_min or above tof_max have no
 *                                       bin and are left out, but they are checked like the others, with their scans and readings
 *   scans                  n (1)        absolute scan of each point: 0 to 65,535 (5)
 *   readings               n (1)        reading of each point: float, 0 to 2^32 (3)
 *   tof_min, tof_max,                   SCALE. A TOF value t has the bin (t - tof_min) / tof_step
 *   tof_step, num_bins
 *   global_num_scans                    number of scans of the run: 0 to 65,535 (4). Scans from it on become the last one,
 *                                       global_num_scans - 1; if it is 0, every scan becomes 0
 *   base                                number of points that the index has already; base + n <= 16,777,216 (2)
 *   out_bins, out_scans,   >= n each    output (20)
 *   out_readings
 *   out_offsets            >= n + 1     output (20)
 *   keys, order, spare     >= n each    scratch (21)
 *
 * Count: b, the distinct bins. They stand at the front of out_bins; at the front of out_offsets stand b + 1 offsets, counted from base.
 * The last of these, out_offsets[b], is base + the number of points that have a bin, whose scans and readings stand at the front of
 * out_scans and out_readings. With a count of 0, out_offsets[0] is base. */
uint64_t rubzolena_build_frame_bin_view(
    const uint32_t *tofs, size_t tofs_len,
    const uint32_t *scans, size_t scans_len,
    const float *readings, size_t readings_len,
    uint32_t tof_min, uint32_t tof_max, uint32_t tof_step, uint32_t num_bins,
    uint32_t global_num_scans, size_t base,
    uint32_t *out_bins, size_t out_bins_len,
    uint32_t *out_offsets, size_t out_offsets_len,
    uint32_t *out_scans, size_t out_scans_len,
    float *out_readings, size_t out_readings_len,
    uint32_t *keys, size_t keys_len,
    uint32_t *order, size_t order_len,
    uint32_t *spare, size_t spare_len);

/* Marginals and extracted ion chromatograms (retention traces) are sums of readings of a frame index. Each sum starts at 0 and adds one
 * reading after another in binary32: frame after frame, within a frame by bin, within a bin in the order of the points. Ranges include
 * both ends. */

/* Marginal along retention time: for each frame from rt_lo to rt_hi the sum of its readings with a bin from bin_lo to bin_hi and a scan
 * from im_lo to im_hi.
 *
 *   argument            length                meaning; condition (refusal code)
 *   ------------------  --------------------  ------------------------------------------------------------------------------
 *   starts .. readings                        INDEX
 *   rt_lo, rt_hi                              frames, positions in the run: rt_lo <= rt_hi < number of frames (4)
 *   bin_lo, bin_hi                            bins: bin_lo <= bin_hi <= 4,194,303 (4)
 *   im_lo, im_hi                              absolute scans: im_lo <= im_hi (4), im_hi up to 65,535 (5)
 *   out                 >= rt_hi - rt_lo + 1  the sums (20)
 *
 * Count: the sums, rt_hi - rt_lo + 1. */
uint64_t rubzolena_build_rt_marginal(
    const uint32_t *starts, size_t starts_len,
    const uint32_t *bins, size_t bins_len,
    const uint32_t *offsets, size_t offsets_len,
    const uint32_t *scans, size_t scans_len,
    const float *readings, size_t readings_len,
    uint32_t rt_lo, uint32_t rt_hi, uint32_t bin_lo, uint32_t bin_hi, uint32_t im_lo, uint32_t im_hi,
    float *out, size_t out_len);

/* Marginal along mobility: for each scan from im_lo to im_hi the sum of its readings in the frames rt_lo to rt_hi with a bin from bin_lo
 * to bin_hi. Arguments as for rubzolena_build_rt_marginal, but for
 *
 *   argument            length                meaning; condition (refusal code)
 *   ------------------  --------------------  ------------------------------------------------------------------------------
 *   out                 >= im_hi - im_lo + 1  the sums (20)
 *
 * Count: the sums, im_hi - im_lo + 1. */
uint64_t rubzolena_build_im_marginal(
    const uint32_t *starts, size_t starts_len,
    const uint32_t *bins, size_t bins_len,
    const uint32_t *offsets, size_t offsets_len,
    const uint32_t *scans, size_t scans_len,
    const float *readings, size_t readings_len,
    uint32_t rt_lo, uint32_t rt_hi, uint32_t bin_lo, uint32_t bin_hi, uint32_t im_lo, uint32_t im_hi,
    float *out, size_t out_len);

/* Extracted ion chromatogram around a TOF row: for each frame the sum of its readings with a bin from tof_row - bin_pad (or 0, if that is
 * negative) to tof_row + bin_pad and a scan from scan_lo to scan_hi.
 *
 *   argument            length    meaning; condition (refusal code)
 *   ------------------  --------  ------------------------------------------------------------------------------
 *   starts .. readings            INDEX
 *   tof_row                       bin: 0 to 4,194,303 (4)
 *   bin_pad                       bins added on each side: 0 to 65,535 (4)
 *   scan_lo, scan_hi              absolute scans: 0 to 65,535 (5). If scan_lo > scan_hi there are none, and every sum is 0
 *   out                 >= f      the sums, one per frame (20)
 *
 * Count: f, the frames. */
uint64_t rubzolena_rt_trace_for_im_peak(
    const uint32_t *starts, size_t starts_len,
    const uint32_t *bins, size_t bins_len,
    const uint32_t *offsets, size_t offsets_len,
    const uint32_t *scans, size_t scans_len,
    const float *readings, size_t readings_len,
    uint32_t tof_row, uint32_t bin_pad, uint32_t scan_lo, uint32_t scan_hi,
    float *out, size_t out_len);

/* Extracted ion chromatogram of a TOF window: the same with the bins of two TOF bounds, and extra_bins_pad more on each side, from 0 on.
 *
 *   argument            length    meaning; condition (refusal code)
 *   ------------------  --------  ------------------------------------------------------------------------------
 *   starts .. readings            INDEX
 *   tof_min .. num_bins           SCALE
 *   tof_lo, tof_hi                TOF bounds in either order: 0 to 4,259,839 (5). The bins go from that of the lower bound to that of
 *                                 the higher one, both included. Bounds below the scale count as tof_min, those above it as tof_max
 *   extra_bins_pad                bins added on each side: 0 to 65,535 (4). Bins from num_bins on are summed, too, where the padding
 *                                 reaches them and the index has them
 *   scan_lo, scan_hi              absolute scans: 0 to 65,535 (5). If scan_lo > scan_hi there are none, and every sum is 0
 *   out                 >= f      the sums, one per frame (20)
 *
 * Count: f, the frames. */
uint64_t rubzolena_rt_trace_for_im_peak_by_bounds(
    const uint32_t *starts, size_t starts_len,
    const uint32_t *bins, size_t bins_len,
    const uint32_t *offsets, size_t offsets_len,
    const uint32_t *scans, size_t scans_len,
    const float *readings, size_t readings_len,
    uint32_t tof_min, uint32_t tof_max, uint32_t tof_step, uint32_t num_bins,
    uint32_t tof_lo, uint32_t tof_hi, uint32_t extra_bins_pad, uint32_t scan_lo, uint32_t scan_hi,
    float *out, size_t out_len);

/* The extracted ion chromatograms of all n peaks of a list, each over its record's tof_lo to tof_hi and left_abs to right_abs, as by
 * rubzolena_rt_trace_for_im_peak_by_bounds. The index is checked once for all of them.
 *
 *   argument            length    meaning; condition (refusal code)
 *   ------------------  --------  ------------------------------------------------------------------------------
 *   starts .. readings            INDEX
 *   tof_min .. num_bins           SCALE
 *   list                27 * n    RECORDS; identities may be equal
 *   extra_bins_pad                bins added on each side: 0 to 65,535 (4)
 *   out                 >= n * f  the sums, one per peak and frame (20)
 *   windows             >= 4 * n  scratch (21)
 *
 * Count: n, the peaks. Their traces stand one after another at the front of out, in the order of the list, each with f sums. */
uint64_t rubzolena_rt_traces_for_im_peaks_by_bounds(
    const uint32_t *starts, size_t starts_len,
    const uint32_t *bins, size_t bins_len,
    const uint32_t *offsets, size_t offsets_len,
    const uint32_t *scans, size_t scans_len,
    const float *readings, size_t readings_len,
    uint32_t tof_min, uint32_t tof_max, uint32_t tof_step, uint32_t num_bins,
    const uint32_t *list, size_t list_len,
    uint32_t extra_bins_pad,
    float *out, size_t out_len,
    uint32_t *windows, size_t windows_len);

/* The noise of a trace, as MAD: 1.4826 * median(|x - median(x)|), each operation in binary32. The median of n values is the element n / 2
 * of the ascending list, counted from 0: for even n the upper median. Fewer than three readings have the noise 0.
 *
 *   argument  length            meaning; condition (refusal code)
 *   --------  ----------------  ------------------------------------
 *   signal    up to 16,384 (2)  readings: floats, 0 to 2^33 (3)
 *
 * On success returns 64 * (the bit pattern of the noise); else the refusal code, 1 to 63. */
uint64_t rubzolena_robust_noise_mad(const float *signal, size_t signal_len);

/* The retention peaks of a trace of n frames.
 *
 *   argument                 length                  meaning; condition (refusal code)
 *   -----------------------  ----------------------  ------------------------------------------------------------------------
 *   y_smoothed               n, up to 16,384 (2)     the smoothed trace: floats, 0 to 2^33 (3)
 *   y_raw                    n (1)                   the raw trace: floats, 0 to 2^32 (3)
 *   times                    n (1)                   time of each frame in seconds: 0 to 2^20 (4), not falling (7)
 *   min_prom_kind, min_prom                          threshold: its kind (4) and a float, 0 to 2^33 (4). Its value for this trace is the
 *                                                    minimum topographic prominence; the highest raw reading must reach it, too
 *   min_sep_sec                                      minimum separation of two apexes in seconds: 0 to 2^20 (4)
 *   min_width_sec                                    minimum width at half height in seconds: 0 to 2^20 (4)
 *   out                      >= 13 * ((n - 1) / 2);  records of RUBZOLENA_LOCAL_RECORD_WORDS (13) words (20)
 *                            0 if n is 0
 *   scratch                  >= n                    scratch (21)
 *
 * Count: the peaks. Their records stand at the front of out, by time of the apex; those of equal times by falling height and then by
 * frame. */
uint64_t rubzolena_find_rt_peaks(
    const float *y_smoothed, size_t y_smoothed_len,
    const float *y_raw, size_t y_raw_len,
    const float *times, size_t times_len,
    uint32_t min_prom_kind, float min_prom, float min_sep_sec, float min_width_sec,
    uint32_t *out, size_t out_len,
    uint32_t *scratch, size_t scratch_len);

/* The fallback: one retention peak for a trace that is not searched. Its height is the highest reading and its position the centroid; its
 * ends are where the trace falls to a fraction of the height. Where the trace does not fall so far, an end is extrapolated: it can lie
 * outside of the trace, or past the other end. Frames are counted from the first of the trace.
 *
 *   argument  length                          meaning; condition (refusal code)
 *   --------  ------------------------------  ------------------------------------------------------------------------
 *   trace     n, up to 16,384 (2)             readings: floats, 0 to 2^32 (3)
 *   ids       up to 16,384 (2)                frame numbers: any, strictly rising (7). Frames past the end of ids get its last number.
 *                                             If ids is empty, the frame numbers of the mobility peak are taken
 *   times     >= n (1), up to 16,384 (2)      times in seconds: 0 to 2^20 (4), not falling (7)
 *   peak      27 (1)                          RECORD of the mobility peak (9)
 *   frac                                      the fraction: 0 to 1 (4)
 *   first                                     identity of the peak: any
 *   out       >= RUBZOLENA_RT_RECORD_WORDS    the record (20)
 *
 * Count: 1 if there is a peak; 0 if no reading is above 0: out is then unchanged. */
uint64_t rubzolena_fallback_rt_peak(
    const float *trace, size_t trace_len,
    const uint32_t *ids, size_t ids_len,
    const float *times, size_t times_len,
    const uint32_t *peak, size_t peak_len,
    float frac, uint32_t first,
    uint32_t *out, size_t out_len);

/* Expansion takes two calls. This is the first: the window of frames over which a mobility peak is followed, and the sigma of its smoothing in
 * frames. From sigma the caller makes the weights for the second call.
 *
 *   argument                  length                       meaning; condition (refusal code)
 *   ------------------------  ---------------------------  --------------------------------------------------------
 *   peak                      27 (1)                       RECORD of the mobility peak (9)
 *   ids, times                f each                       AXES
 *   bin_pad .. rt_pad_frames                               EXPANSION
 *   out                       >= RUBZOLENA_WINDOW_WORDS    the window (20). Checked even where there is no window
 *
 * Count: 1 if there is a window. out then begins with its first frame, its last frame and the bit pattern of sigma, which is
 *
 *   max(smooth_sigma_sec / max(median time step over the window, 0.001 s), 0.75)
 *
 * in binary32; the median is the upper one for an even number of steps, and a window of one frame has the step 1 s.
 * Count: 0 if a frame number of the peak is not among ids: out is then unchanged. */
uint64_t rubzolena_expand_window(
    const uint32_t *peak, size_t peak_len,
    const uint32_t *ids, size_t ids_len,
    const float *times, size_t times_len,
    uint32_t bin_pad, float smooth_sigma_sec, uint32_t min_prom_kind, float min_prom, float min_sep_sec, float min_width_sec,
    uint32_t fallback_if_frames_lt, float fallback_frac_width, uint32_t rt_pad_frames,
    uint32_t *out, size_t out_len);

/* The second call of expansion: the retention peaks of a mobility peak. Its readings are summed frame by frame over its window (bins of tof_lo
 * to tof_hi with bin_pad more on each side, scans left_abs to right_abs), smoothed, and searched. Where the search lists no peak, or the
 * window has fewer frames than fallback_if_frames_lt, the result is that of the fallback. The fallback gets the sums of the window, but
 * the times of the run from its first frame on: so rt_sec is read at an earlier frame where the window begins behind the first one
 * (docs/DIFFERENCES.md). Where there is no window, or none of these sums is above 0, there is no peak.
 *
 * f is the number of frames of the run; m = max((f - 1) / 2, 1), and 1 if f is 0 (in C, size_t f - 1 would wrap around there).
 *
 *   argument                  length                  meaning; condition (refusal code)
 *   ------------------------  ----------------------  ------------------------------------------------------------------------
 *   peak                      27 (1)                  RECORD of the mobility peak (9)
 *   starts .. readings                                INDEX, of f frames
 *   ids, times                f each (1)              AXES
 *   tof_min .. num_bins                               SCALE
 *   bin_pad .. rt_pad_frames                          EXPANSION
 *   weights                   see WEIGHTS (6)         WEIGHTS; not empty (6). Checked even where nothing is smoothed
 *   first                                             identity of the first peak; the others get the following numbers. first + m
 *                                                     <= 2^32 (4)
 *   out                       >= 22 * m               m records of RUBZOLENA_RT_RECORD_WORDS (22) words (20)
 *   raw, smooth, order        >= f each               scratch (21)
 *
 * Count: the peaks. Their records stand at the front of out, in the order of rubzolena_find_rt_peaks. */
uint64_t rubzolena_expand_im_peak(
    const uint32_t *peak, size_t peak_len,
    const uint32_t *starts, size_t starts_len,
    const uint32_t *bins, size_t bins_len,
    const uint32_t *offsets, size_t offsets_len,
    const uint32_t *scans, size_t scans_len,
    const float *readings, size_t readings_len,
    const uint32_t *ids, size_t ids_len,
    const float *times, size_t times_len,
    uint32_t tof_min, uint32_t tof_max, uint32_t tof_step, uint32_t num_bins,
    uint32_t bin_pad, float smooth_sigma_sec, uint32_t min_prom_kind, float min_prom, float min_sep_sec, float min_width_sec,
    uint32_t fallback_if_frames_lt, float fallback_frac_width, uint32_t rt_pad_frames,
    const float *weights, size_t weights_len,
    uint32_t first,
    uint32_t *out, size_t out_len,
    float *raw, size_t raw_len,
    float *smooth, size_t smooth_len,
    uint32_t *order, size_t order_len);

/* The second call of expansion for all n peaks of a list. The index is checked once for all of them. Arguments as for
 * rubzolena_expand_im_peak, but for
 *
 *   argument  length           meaning; condition (refusal code)
 *   --------  ---------------  ------------------------------------------------------------------------
 *   list      27 * n           RECORDS; identities may be equal, and window groups may differ
 *   weights   sum of lengths   the weights of all peaks, one list after another; those of each peak WEIGHTS (6), none empty
 *             (1)
 *   lengths   n (1)            the number of weights of each peak
 *   first                      identity of the first retention peak; first + n * m <= 2^32 (4)
 *   out       >= 22 * n * m    n * m records (20)
 *   counts    >= n             the number of retention peaks of each mobility peak (20)
 *
 * Count: all retention peaks. Their records stand at the front of out, mobility peak after mobility peak, with consecutive identities.
 * counts has n results. */
uint64_t rubzolena_expand_many_im_peaks(
    const uint32_t *list, size_t list_len,
    const uint32_t *starts, size_t starts_len,
    const uint32_t *bins, size_t bins_len,
    const uint32_t *offsets, size_t offsets_len,
    const uint32_t *scans, size_t scans_len,
    const float *readings, size_t readings_len,
    const uint32_t *ids, size_t ids_len,
    const float *times, size_t times_len,
    uint32_t tof_min, uint32_t tof_max, uint32_t tof_step, uint32_t num_bins,
    uint32_t bin_pad, float smooth_sigma_sec, uint32_t min_prom_kind, float min_prom, float min_sep_sec, float min_width_sec,
    uint32_t fallback_if_frames_lt, float fallback_frac_width, uint32_t rt_pad_frames,
    const float *weights, size_t weights_len,
    const uint32_t *lengths, size_t lengths_len,
    uint32_t first,
    uint32_t *out, size_t out_len,
    uint32_t *counts, size_t counts_len,
    float *raw, size_t raw_len,
    float *smooth, size_t smooth_len,
    uint32_t *order, size_t order_len);

#ifdef __cplusplus
}
#endif

#endif
