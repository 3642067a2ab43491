//! The C entries, called as the safe functions never call them: byte lengths that are not multiples of 4, flags above 1, unknown kinds of
//! threshold.
use rubzolena as _;

extern "C" {
    fn rubzolena_detect_im_peaks(
        rows: usize, cols: usize,
        data: *const u8, data_len: usize, data_raw: *const u8, data_raw_len: usize, scans: *const u8, scans_len: usize,
        tof_min: u32, tof_max: u32, tof_step: u32, num_bins: u32,
        rt_lo: u32, rt_hi: u32, frame_id_lo: u32, frame_id_hi: u32, group_flag: u32, window_group: u32,
        mobility: *const u8, mobility_len: usize,
        min_prom: f32, min_distance_scans: u32, min_width_scans: u32,
        weights: *const u8, weights_len: usize, first: u32, out: *mut u8, out_len: usize,
    ) -> u64;
    fn rubzolena_stitch_im_peaks(
        list: *const u32, list_len: usize,
        min_overlap_frames: u32, max_scan_delta: u32, jaccard_min: f32, max_tof_row_delta: u32,
        allow_cross_groups: u32, min_im_overlap_scans: u32, im_jaccard_min: f32, require_mutual_apex_inside: u32,
        out: *mut u32, out_len: usize, owners: *mut u32, owners_len: usize,
        order: *mut u32, order_len: usize, groups: *mut u32, groups_len: usize,
        keys: *mut u32, keys_len: usize, merged: *mut u32, merged_len: usize,
    ) -> u64;
    fn rubzolena_find_rt_peaks(
        y_smoothed: *const f32, y_smoothed_len: usize, y_raw: *const f32, y_raw_len: usize, times: *const f32, times_len: usize,
        min_prom_kind: u32, min_prom: f32, min_sep_sec: f32, min_width_sec: f32,
        out: *mut u32, out_len: usize, scratch: *mut u32, scratch_len: usize,
    ) -> u64;
    fn rubzolena_expand_window(
        peak: *const u32, peak_len: usize, ids: *const u32, ids_len: usize, times: *const f32, times_len: usize,
        bin_pad: u32, smooth_sigma_sec: f32, min_prom_kind: u32, min_prom: f32, min_sep_sec: f32, min_width_sec: f32,
        fallback_if_frames_lt: u32, fallback_frac_width: f32, rt_pad_frames: u32,
        out: *mut u32, out_len: usize,
    ) -> u64;
}

/// A grid of one row `0 4 0 8 0`, which has two peaks.
#[derive(Clone)]
struct Call {
    data: Vec<u8>,
    raw: Vec<u8>,
    scans: Vec<u8>,
    mobility: Vec<u8>,
    weights: Vec<u8>,
    flag: u32,
    room: usize,
}

fn bytes_of<const N: usize>(words: [u32; N]) -> Vec<u8> {
    words.iter().flat_map(|w| w.to_le_bytes()).collect()
}

fn plain() -> Call {
    Call {
        data: bytes_of([0.0f32, 4.0, 0.0, 8.0, 0.0].map(f32::to_bits)),
        raw: Vec::new(),
        scans: bytes_of([3, 4, 5, 6, 7]),
        mobility: bytes_of([1.0f32; 5].map(f32::to_bits)),
        weights: Vec::new(),
        flag: 1,
        room: 2 * 108,
    }
}

/// The result, and the bytes of the list, which held 0xa5 before.
fn answer(c: &Call) -> (u64, Vec<u8>) {
    let mut out = vec![0xa5u8; c.room];
    let r = unsafe {
        rubzolena_detect_im_peaks(
            1, 5, c.data.as_ptr(), c.data.len(), c.raw.as_ptr(), c.raw.len(), c.scans.as_ptr(), c.scans.len(),
            0, 0, 1, 1, 0, 0, 0, 0, c.flag, 9, c.mobility.as_ptr(), c.mobility.len(),
            1.0, 0, 0, c.weights.as_ptr(), c.weights.len(), 0, out.as_mut_ptr(), out.len(),
        )
    };
    (r, out)
}

fn refused(c: &Call, number: u64, what: &str) {
    let (r, out) = answer(c);
    assert_eq!(r, number, "{what}");
    assert!(out.iter().all(|b| *b == 0xa5), "{what}: the list was written");
}

#[test]
fn two_peaks() {
    let (r, out) = answer(&plain());
    assert_eq!(r, 2 * 64);
    assert_eq!([out[40], out[108 + 40]], [1, 3], "the scans of the two records");
    assert_eq!(answer(&Call { room: 2 * 108 + 40, ..plain() }).1[2 * 108..], [0xa5; 40]);
}

#[test]
fn bytes_that_are_no_words() {
    for odd in 1..4 {
        refused(&Call { data: vec![0; 20 + odd], ..plain() }, 1, "data");
        refused(&Call { raw: vec![0; 20 + odd], ..plain() }, 1, "raw data");
        refused(&Call { scans: vec![0; 20 - odd], ..plain() }, 1, "scans");
        refused(&Call { mobility: vec![0; 20 + odd], ..plain() }, 1, "mobility");
        refused(&Call { weights: vec![0; odd], ..plain() }, 1, "weights");
        refused(&Call { room: 2 * 108 + odd, ..plain() }, 1, "the list");
        // where raw data is present, the other list is not looked at
        let raw = plain().data;
        assert_eq!(answer(&Call { data: vec![0; odd], raw, ..plain() }).0, 2 * 64);
    }
}

#[test]
fn a_flag_above_one() {
    for flag in [2, 3, u32::MAX] {
        let c = Call { flag, ..plain() };
        refused(&c, 4, "the flag alone");
        refused(&Call { room: 0, ..c.clone() }, 4, "a short list is 20");
        refused(&Call { scans: bytes_of([3, 4, 5, 6, 65_536]), ..c.clone() }, 4, "a scan too high is 5");
        refused(&Call { data: bytes_of([0x8000_0000; 5]), ..c.clone() }, 3, "a reading out of range is lower");
        refused(&Call { mobility: vec![0; 3], ..c }, 1, "bytes that are no words are lower");
    }
}

/// The result of stitching for two equal peaks with those identities, flags and parameter, and whether its buffers, of that many
/// words each, are unchanged.
fn stitched(ids: [u32; 2], flags: [u32; 2], delta: u32, room: usize) -> (u64, bool) {
    let mut list = [0u32; 54];
    (list[26], list[53]) = (ids[0], ids[1]);
    let mut buffers = [[0xa5a5_a5a5u32; 54]; 6];
    let [out, owners, order, groups, keys, merged] = &mut buffers;
    let r = unsafe {
        rubzolena_stitch_im_peaks(
            list.as_ptr(), list.len(), 0, delta, 0.0, 0, flags[0], 0, 0.0, flags[1],
            out.as_mut_ptr(), room, owners.as_mut_ptr(), room, order.as_mut_ptr(), room,
            groups.as_mut_ptr(), room, keys.as_mut_ptr(), room, merged.as_mut_ptr(), room,
        )
    };
    (r, buffers.iter().flatten().all(|w| *w == 0xa5a5_a5a5))
}

#[test]
fn a_flag_of_stitching_above_one() {
    for flags in [[0, 0], [1, 0], [0, 1], [1, 1]] {
        assert_eq!(stitched([1, 2], flags, 0, 54), (64, false));
    }
    for high in [2, 3, u32::MAX] {
        for flags in [[high, 0], [1, high], [high, high]] {
            assert_eq!(stitched([1, 2], flags, 0, 54), (4, true), "the flag alone");
            assert_eq!(stitched([1, 2], flags, 65_536, 54), (4, true), "a parameter is 4 too");
            assert_eq!(stitched([1, 1], flags, 0, 54), (4, true), "an identity twice is 8");
            assert_eq!(stitched([1, 2], flags, 0, 0), (4, true), "short buffers are 20 and 21");
        }
    }
}

/// The result of a search of the trace `0 4 0` for a threshold, readings up to `high`, and an output list of that length.
fn searched(kind: u32, high: f32, room: usize) -> (u64, bool) {
    let (y, times, mut out, mut scratch) = ([0.0, high, 0.0], [1.0f32, 2.0, 3.0], [0xa5a5_a5a5u32; 13], [0xa5a5_a5a5u32; 3]);
    let r = unsafe {
        rubzolena_find_rt_peaks(
            y.as_ptr(), 3, y.as_ptr(), 3, times.as_ptr(), 3, kind, 1.0, 0.0, 0.0, out.as_mut_ptr(), room, scratch.as_mut_ptr(), 3,
        )
    };
    (r, out.iter().chain(&scratch).all(|w| *w == 0xa5a5_a5a5))
}

/// The result of the first call for a peak in a run of three frames, and whether its list is unchanged.
fn first_call(kind: u32, time: f32, room: usize) -> (u64, bool) {
    let (mut peak, ids, times, mut out) = ([0u32; 27], [5u32, 6, 7], [1.0f32, 2.0, time], [0xa5a5_a5a5u32; 3]);
    (peak[6], peak[7]) = (5, 7);
    let r = unsafe {
        rubzolena_expand_window(
            peak.as_ptr(), 27, ids.as_ptr(), 3, times.as_ptr(), 3, 0, 0.5, kind, 1.0, 0.0, 0.0, 3, 0.25, 0, out.as_mut_ptr(), room,
        )
    };
    (r, out.iter().all(|w| *w == 0xa5a5_a5a5))
}

#[test]
fn a_threshold_of_no_kind() {
    for kind in [0, 1] {
        assert_eq!(searched(kind, 4.0, 13), (64, false));
        assert_eq!(first_call(kind, 3.0, 3), (64, false));
        assert_eq!(first_call(kind, 3.0, 2), (20, true), "a short list");
    }
    for kind in [2, 3, u32::MAX] {
        assert_eq!(searched(kind, 4.0, 13), (4, true), "the kind alone");
        assert_eq!(searched(kind, 4.0, 0), (4, true), "a short list is 20");
        assert_eq!(searched(kind, -4.0, 13), (3, true), "a reading out of range is lower");
        assert_eq!(first_call(kind, 3.0, 3), (4, true), "the kind alone");
        assert_eq!(first_call(kind, 1.0, 3), (4, true), "times that fall are 7");
        assert_eq!(first_call(kind, 3.0, 0), (4, true), "a short list is 20");
    }
}
