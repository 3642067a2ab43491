/* Calls the C entries from C: null pointers with length 0, lists too short, a row with one peak, sizes without readings; two peaks
 * that are stitched; a frame, and sums over it. */
#include <stdio.h>
#include <string.h>

#include "rubzolena.h"

static uint64_t detect(size_t rows, size_t cols, const uint8_t *data, size_t data_len, const uint8_t *scans, size_t scans_len, uint8_t *out, size_t out_len) {
    return rubzolena_detect_im_peaks(rows, cols, data, data_len, NULL, 0, scans, scans_len, 0, 0, 1, 1, 0, 0, 0, 0, 0, 0, NULL, 0, 0.0f, 0, 0, NULL, 0, 7, out, out_len);
}

static uint32_t owners[2], order[2], groups[2], keys[2 * RUBZOLENA_RECORD_WORDS], merged[2 * RUBZOLENA_RECORD_WORDS];

/* Stitches n records with buffers for `room` of them. */
static uint64_t stitch(const uint32_t *list, size_t n, uint32_t *out, size_t room) {
    const size_t words = RUBZOLENA_RECORD_WORDS * room;
    return rubzolena_stitch_im_peaks(list, RUBZOLENA_RECORD_WORDS * n, 0, 0, 0.0f, 0, 0, 0, 0.0f, 0,
        out, words, owners, room, order, room, groups, room, keys, words, merged, words);
}

static int failed = 0;

static void expect(const char *what, uint64_t got, uint64_t wanted) {
    if (got != wanted) {
        printf("entry: %s: %llu, not %llu\n", what, (unsigned long long)got, (unsigned long long)wanted);
        failed = 1;
    }
}

int main(void) {
    const uint8_t row[12] = {0, 0, 0, 0, 0, 0, 0x80, 0x40, 0, 0, 0, 0}; /* 0, 4, 0 */
    const uint8_t scans[12] = {0, 0, 0, 0, 1, 0, 0, 0, 2, 0, 0, 0};
    uint8_t out[4 * RUBZOLENA_RECORD_WORDS + 1];
    memset(out, 0xaa, sizeof out);
    expect("a list of no bytes", detect(1, 3, row, 12, scans, 12, NULL, 0), RUBZOLENA_LIST_TOO_SHORT);
    expect("a list one word short", detect(1, 3, row, 12, scans, 12, out, 4 * RUBZOLENA_RECORD_WORDS - 4), RUBZOLENA_LIST_TOO_SHORT);
    expect("a list that is no whole words", detect(1, 3, row, 12, scans, 12, out, sizeof out), RUBZOLENA_LENGTHS);
    expect("the list then", out[0], 0xaa);
    expect("one peak", detect(1, 3, row, 12, scans, 12, out, sizeof out - 1), 64);
    expect("its scan", out[40], 1);
    expect("its identity", out[104], 7);
    expect("the byte after it", out[108], 0xaa);
    expect("no columns", detect(1, 0, NULL, 0, NULL, 0, NULL, 0), 0);
    expect("sizes without readings", detect(4194304, 2048, NULL, 0, NULL, 0, NULL, 0), RUBZOLENA_LENGTHS);

    uint32_t list[2 * RUBZOLENA_RECORD_WORDS] = {0}, stitched[2 * RUBZOLENA_RECORD_WORDS];
    memset(stitched, 0xaa, sizeof stitched);
    expect("an identity twice", stitch(list, 2, stitched, 2), RUBZOLENA_IDENTITY_TWICE);
    list[26] = 9;
    list[53] = 5;
    expect("room for one of two", stitch(list, 2, stitched, 1), RUBZOLENA_LIST_TOO_SHORT);
    expect("the list then", stitched[0], 0xaaaaaaaa);
    expect("two peaks that are one", stitch(list, 2, stitched, 2), 64);
    expect("its identity", stitched[26], 5);
    expect("the word after it", stitched[27], 0xaaaaaaaa);
    expect("no peaks", rubzolena_stitch_im_peaks(NULL, 0, 0, 0, 0.0f, 0, 0, 0, 0.0f, 0, NULL, 0, NULL, 0, NULL, 0, NULL, 0, NULL, 0, NULL, 0), 0);

    const uint32_t tofs[2] = {9, 9}, starts[2] = {0, 1}, none[1] = {0};
    const float readings[2] = {1.0f, 2.0f};
    uint32_t bins[2], offsets[3], cut[2], scratch[6], windows[4];
    float kept[2], sums[2] = {7.0f, 7.0f};
    expect("a frame without points or room", rubzolena_build_frame_bin_view(NULL, 0, NULL, 0, NULL, 0, 0, 9, 1, 10, 5, 0,
        NULL, 0, NULL, 0, NULL, 0, NULL, 0, NULL, 0, NULL, 0, NULL, 0), RUBZOLENA_LIST_TOO_SHORT);
    expect("a frame without points", rubzolena_build_frame_bin_view(NULL, 0, NULL, 0, NULL, 0, 0, 9, 1, 10, 5, 0,
        NULL, 0, offsets, 1, NULL, 0, NULL, 0, NULL, 0, NULL, 0, NULL, 0), 0);
    expect("its offset", offsets[0], 0);
    expect("a frame", rubzolena_build_frame_bin_view(tofs, 2, tofs, 2, readings, 2, 0, 9, 1, 10, 5, 0,
        bins, 2, offsets, 3, cut, 2, kept, 2, scratch, 2, scratch + 2, 2, scratch + 4, 2), 64);
    expect("its bin", bins[0], 9);
    expect("where it ends", offsets[1], 2);
    expect("a scan that is cut", cut[1], 4);
    expect("a trace", rubzolena_rt_trace_for_im_peak(starts, 2, bins, 1, offsets, 2, cut, 2, kept, 2, 8, 1, 0, 4, sums, 2), 64);
    expect("its sum", sums[0] == 3.0f, 1);
    expect("the sum after it", sums[1] == 7.0f, 1);
    expect("no frames", rubzolena_rt_trace_for_im_peak(none, 1, NULL, 0, none, 1, NULL, 0, NULL, 0, 0, 0, 0, 0, NULL, 0), 0);
    expect("no index", rubzolena_rt_trace_for_im_peak(NULL, 0, NULL, 0, NULL, 0, NULL, 0, NULL, 0, 0, 0, 0, 0, NULL, 0), RUBZOLENA_LENGTHS);
    expect("no peaks to trace", rubzolena_rt_traces_for_im_peaks_by_bounds(none, 1, NULL, 0, none, 1, NULL, 0, NULL, 0, 0, 9, 1, 10, NULL, 0, 0, NULL, 0, NULL, 0), 0);
    expect("two peaks to trace", rubzolena_rt_traces_for_im_peaks_by_bounds(starts, 2, bins, 1, offsets, 2, cut, 2, kept, 2, 0, 9, 1, 10,
        list, 2 * RUBZOLENA_RECORD_WORDS, 0, sums, 2, windows, 4), RUBZOLENA_SCRATCH_TOO_SHORT);
    expect("by bounds", rubzolena_rt_trace_for_im_peak_by_bounds(starts, 2, bins, 1, offsets, 2, cut, 2, kept, 2, 0, 9, 1, 10, 9, 9, 0, 0, 4, sums, 2), 64);
    expect("a marginal", rubzolena_build_rt_marginal(starts, 2, bins, 1, offsets, 2, cut, 2, kept, 2, 0, 0, 9, 9, 0, 4, sums, 2), 64);
    expect("a marginal past the frames", rubzolena_build_im_marginal(starts, 2, bins, 1, offsets, 2, cut, 2, kept, 2, 0, 1, 9, 9, 0, 4, sums, 2), RUBZOLENA_PARAMETER);

    const float quiet[3] = {1.0f, 1.0f, 2.0f}, hill[3] = {0.0f, 4.0f, 0.0f}, times[3] = {1.0f, 2.0f, 3.0f};
    const uint32_t ids[3] = {5, 6, 7};
    uint32_t mobility[RUBZOLENA_RECORD_WORDS] = {0}, found[RUBZOLENA_RT_RECORD_WORDS + 1], window[RUBZOLENA_WINDOW_WORDS + 1];
    memset(found, 0xaa, sizeof found);
    memset(window, 0xaa, sizeof window);
    expect("no noise without a signal", rubzolena_robust_noise_mad(NULL, 0), 0);
    expect("no noise", rubzolena_robust_noise_mad(quiet, 3), 0);
    expect("a trace's peak", rubzolena_find_rt_peaks(hill, 3, hill, 3, times, 3, RUBZOLENA_FIXED, 1.0f, 0.0f, 0.0f, found, RUBZOLENA_LOCAL_RECORD_WORDS, scratch, 3), 64);
    expect("its frame", found[0], 1);
    expect("its time", found[1], 0x40000000);
    expect("the word after it", found[RUBZOLENA_LOCAL_RECORD_WORDS], 0xaaaaaaaa);
    expect("a threshold of no kind", rubzolena_find_rt_peaks(hill, 3, hill, 3, times, 3, 2, 1.0f, 0.0f, 0.0f, found, 13, scratch, 3), RUBZOLENA_PARAMETER);
    expect("no frames to search", rubzolena_find_rt_peaks(NULL, 0, NULL, 0, NULL, 0, RUBZOLENA_ADAPTIVE_NOISE, 3.0f, 0.0f, 0.0f, NULL, 0, NULL, 0), 0);
    expect("a fallback", rubzolena_fallback_rt_peak(hill, 3, ids, 3, times, 3, mobility, RUBZOLENA_RECORD_WORDS, 0.5f, 9, found, RUBZOLENA_RT_RECORD_WORDS), 64);
    expect("its identity", found[21], 9);
    expect("the word after it", found[RUBZOLENA_RT_RECORD_WORDS], 0xaaaaaaaa);
    expect("no trace", rubzolena_fallback_rt_peak(NULL, 0, NULL, 0, NULL, 0, mobility, RUBZOLENA_RECORD_WORDS, 0.5f, 9, found, RUBZOLENA_RT_RECORD_WORDS), 0);
    expect("no window", rubzolena_expand_window(mobility, RUBZOLENA_RECORD_WORDS, ids, 3, times, 3, 0, 0.5f, 0, 0.0f, 0.0f, 0.0f, 3, 0.25f, 0, window, 3), 0);
    expect("no room for a window", rubzolena_expand_window(mobility, RUBZOLENA_RECORD_WORDS, ids, 3, times, 3, 0, 0.5f, 0, 0.0f, 0.0f, 0.0f, 3, 0.25f, 0, NULL, 0), RUBZOLENA_LIST_TOO_SHORT);
    mobility[6] = 6;
    mobility[7] = 7;
    expect("a window", rubzolena_expand_window(mobility, RUBZOLENA_RECORD_WORDS, ids, 3, times, 3, 0, 2.0f, 0, 0.0f, 0.0f, 0.0f, 3, 0.25f, 0, window, 3), 64);
    expect("its first frame", window[0], 1);
    expect("its last", window[1], 2);
    expect("its sigma", window[2], 0x40000000);
    expect("the word after it", window[3], 0xaaaaaaaa);

    /* one point a frame, the mobility peak over all three frames; then the same peak twice in a list */
    const uint32_t begins[4] = {0, 1, 2, 3}, zeros[3] = {0, 0, 0}, lengths[2] = {1, 1};
    const float lone[1] = {1.0f}, both[2] = {1.0f, 1.0f};
    uint32_t twice[2 * RUBZOLENA_RECORD_WORDS], expanded[2 * RUBZOLENA_RT_RECORD_WORDS + 1], counts[3];
    float raw[3], smooth[3];
    mobility[6] = 5;
    memcpy(twice, mobility, sizeof mobility);
    memcpy(twice + RUBZOLENA_RECORD_WORDS, mobility, sizeof mobility);
    memset(expanded, 0xaa, sizeof expanded);
    memset(counts, 0xaa, sizeof counts);
    expect("an expanded peak", rubzolena_expand_im_peak(mobility, RUBZOLENA_RECORD_WORDS, begins, 4, zeros, 3, begins, 4, zeros, 3, hill, 3, ids, 3, times, 3, 0, 9, 1, 10,
        0, 0.5f, RUBZOLENA_FIXED, 1.0f, 0.0f, 0.0f, 3, 0.25f, 0, lone, 1, 9, expanded, RUBZOLENA_RT_RECORD_WORDS, raw, 3, smooth, 3, scratch, 3), 64);
    expect("its frame", expanded[0], 1);
    expect("its identity", expanded[21], 9);
    expect("the word after it", expanded[RUBZOLENA_RT_RECORD_WORDS], 0xaaaaaaaa);
    expect("two expanded peaks", rubzolena_expand_many_im_peaks(twice, 2 * RUBZOLENA_RECORD_WORDS, begins, 4, zeros, 3, begins, 4, zeros, 3, hill, 3, ids, 3, times, 3, 0, 9, 1, 10,
        0, 0.5f, RUBZOLENA_FIXED, 1.0f, 0.0f, 0.0f, 3, 0.25f, 0, both, 2, lengths, 2, 9, expanded, 2 * RUBZOLENA_RT_RECORD_WORDS, counts, 2, raw, 3, smooth, 3, scratch, 3), 128);
    expect("the first one's count", counts[0], 1);
    expect("the second one's", counts[1], 1);
    expect("the word after them", counts[2], 0xaaaaaaaa);
    expect("the second identity", expanded[RUBZOLENA_RT_RECORD_WORDS + 21], 10);
    expect("the word after the records", expanded[2 * RUBZOLENA_RT_RECORD_WORDS], 0xaaaaaaaa);
    expect("no peaks to expand", rubzolena_expand_many_im_peaks(NULL, 0, none, 1, NULL, 0, none, 1, NULL, 0, NULL, 0, NULL, 0, NULL, 0, 0, 9, 1, 10,
        0, 0.5f, RUBZOLENA_FIXED, 1.0f, 0.0f, 0.0f, 3, 0.25f, 0, NULL, 0, NULL, 0, 9, NULL, 0, NULL, 0, NULL, 0, NULL, 0, NULL, 0), 0);
    expect("no record to expand", rubzolena_expand_im_peak(NULL, 0, none, 1, NULL, 0, none, 1, NULL, 0, NULL, 0, NULL, 0, NULL, 0, 0, 9, 1, 10,
        0, 0.5f, RUBZOLENA_FIXED, 1.0f, 0.0f, 0.0f, 3, 0.25f, 0, lone, 1, 9, NULL, 0, NULL, 0, NULL, 0, NULL, 0), RUBZOLENA_LENGTHS);
    return failed;
}
