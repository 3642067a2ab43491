//! Retention through the functions of the crate: noise, retention peaks of a trace, the fallback, windows and expansion, and refused input.
use rubzolena::*;

const FREE: RtSearch = RtSearch { min_prom: ThresholdMode::Fixed(0.0), min_sep_sec: 0.0, min_width_sec: 0.0 };

fn mobility_peak(frames: (u32, u32)) -> Peak {
    let mut w = [0; WORDS];
    (w[0], w[2], w[3], w[6], w[7], w[8], w[9], w[15], w[26]) = (4, 4, 4, frames.0, frames.1, 1, 6, 9, 77);
    Peak(w)
}

#[test]
fn noise() {
    assert_eq!(robust_noise_mad(&[]), Ok(0.0));
    assert_eq!(robust_noise_mad(&[1.0, 2.0, 4.0, 9.0]), Ok(3.0 * 1.4826));
    assert_eq!(robust_noise_mad(&[0.0; 16_385]), Err(2));
    assert_eq!(robust_noise_mad(&[1.0, -0.0]), Err(3));
}

#[test]
fn peaks_of_a_trace() {
    let (y, times) = ([0.0, 5.0, 0.0, 9.0, 0.0], [1.0; 5]);
    let mut out = [0xa5; 2 * LOCAL_WORDS + 1];
    let mut scratch = [0; 5];
    assert_eq!(find_rt_peaks_into(&y, &y, &times, FREE, &mut out, &mut scratch), Ok(2));
    assert_eq!((out[0], out[LOCAL_WORDS], out[2 * LOCAL_WORDS]), (3, 1, 0xa5), "of equal times the higher apex is the first");
    let mut answer = |y: &[f32], times: &[f32], asked, room: usize, space: usize| {
        let mut out = vec![0xa5; room];
        let answer = find_rt_peaks_into(y, y, times, asked, &mut out, &mut scratch[..space]);
        assert!(answer.is_ok() || out.iter().all(|w| *w == 0xa5));
        answer
    };
    let room = 2 * LOCAL_WORDS;
    assert_eq!(answer(&y, &times[..4], FREE, room, 5), Err(1));
    assert_eq!(answer(&[-1.0; 5], &times, FREE, room, 5), Err(3));
    assert_eq!(answer(&y, &times, RtSearch { min_prom: ThresholdMode::AdaptiveNoise(-1.0), ..FREE }, room, 5), Err(4));
    assert_eq!(answer(&y, &times, RtSearch { min_sep_sec: 1048577.0, ..FREE }, room, 5), Err(4));
    assert_eq!(answer(&y, &[1.0, 1.0, 2.0, 1.0, 2.0], FREE, room, 5), Err(7));
    assert_eq!(answer(&y, &times, FREE, room - 1, 5), Err(20));
    assert_eq!(answer(&y, &times, FREE, room, 4), Err(21));
}

#[test]
fn the_fallback() {
    let (ids, times) = ([100, 101, 102], [1.0, 2.0, 4.0]);
    let ctx = RtTraceCtx { frame_ids_sorted: &ids, rt_times_sec: &times };
    let peak = mobility_peak((100, 102));
    let found = fallback_rt_peak(&[10.0, 9.0, 8.0], ctx, &peak, 0.25, 5).unwrap().unwrap();
    assert_eq!((found.width_frames(), found.area_raw(), found.id(), found.parent_im_id()), (8, 9.5, 5, 77), "case (j)");
    assert_eq!((found.rt_bounds(), found.frame_id_bounds()), ((0, 2), (100, 102)));
    assert_eq!(fallback_rt_peak(&[0.0; 3], ctx, &peak, 0.25, 5), Ok(None));
    assert_eq!(fallback_rt_peak(&[1.0; 4], ctx, &peak, 0.25, 5), Err(1), "a time axis shorter than the trace");
    assert_eq!(fallback_rt_peak(&[1.0; 3], ctx, &peak, 1.5, 5), Err(4));
    assert_eq!(fallback_rt_peak(&[1.0; 3], ctx, &mobility_peak((2, 1)), 0.25, 5), Err(9));
}

#[test]
fn windows() {
    let (ids, times) = ([100, 101, 103, 104], [1.0, 1.5, 2.0, 2.5]);
    let ctx = RtTraceCtx { frame_ids_sorted: &ids, rt_times_sec: &times };
    let params = RtExpandParams { smooth_sigma_sec: 2.0, rt_pad_frames: 1, ..RtExpandParams::default() };
    assert_eq!(expand_window(&mobility_peak((103, 104)), ctx, params), Ok(Some(RtWindow { first: 1, last: 3, sigma: 4.0 })));
    assert_eq!(expand_window(&mobility_peak((102, 104)), ctx, params), Ok(None), "a frame number that is not there");
    assert_eq!(expand_window(&mobility_peak((104, 103)), ctx, params), Err(9));
    assert_eq!(expand_window(&mobility_peak((103, 104)), ctx, RtExpandParams { bin_pad: 65_536, ..params }), Err(4));
    assert_eq!(expand_window(&mobility_peak((103, 104)), RtTraceCtx { rt_times_sec: &times[1..], ..ctx }, params), Err(1));
    let mut short = [7; 2];
    assert_eq!((expand_window_into(&mobility_peak((103, 104)).0, ctx, params, &mut short), short), (Err(20), [7; 2]));
}

/// A run of frames with one point each, whose readings are a trace.
fn index(trace: &[f32]) -> FrameIndex {
    let mut index = FrameIndex::default();
    for v in trace {
        index.push(Frame { tofs: &[4], scans: &[3], readings: &[*v] }, SCALE, 10).unwrap();
    }
    index
}

const SCALE: TofScale = TofScale { tof_min: 0, tof_max: 9, tof_step: 1, num_bins: 10 };

#[test]
fn expansion() {
    let mut trace = [0.0; 24];
    trace[3..6].copy_from_slice(&[5.0, 50.0, 5.0]);
    trace[13..16].copy_from_slice(&[5.0, 50.0, 5.0]);
    let index = index(&trace);
    let ids: Vec<u32> = (100..124).collect();
    let times: Vec<f32> = (0..24).map(|k| 10.0 + k as f32).collect();
    let ctx = RtTraceCtx { frame_ids_sorted: &ids, rt_times_sec: &times };
    let params = RtExpandParams { bin_pad: 0, rt_pad_frames: 0, ..RtExpandParams::default() };
    let run = Run { index: (&index).into(), scale: SCALE, ctx, params };
    let peaks = [(100, 123), (99, 104), (113, 114), (119, 121)].map(mobility_peak);
    let (found, counts) = expand_im_peaks(&peaks, run, |_| vec![0.4, 1.0, 0.4], 9).unwrap();
    assert_eq!(counts, [2, 0, 1, 0], "two peaks; no window; too short, so the fallback's; zeros");
    assert_eq!(found.iter().map(|p| (p.rt_idx(), p.id(), p.parent_im_id())).collect::<Vec<_>>(), [(4, 9, 77), (14, 10, 77), (13, 11, 77)]);
    assert_eq!(found[2].rt_sec(), 10.5, "the fallback reads times from the start of the run");
    assert_eq!(expand_im_peaks(&peaks, run, |_| vec![0.4, 0.9, 0.4], 9), Err(6));
    assert_eq!(expand_im_peaks(&peaks, run, |_| vec![1.0], u32::MAX - 42), Err(4), "44 peaks could need more identities than there are");
    assert!(expand_im_peaks(&peaks, run, |_| vec![1.0], u32::MAX - 43).is_ok());
    assert_eq!(expand_im_peaks(&[], run, |_| vec![1.0], 9), Ok((vec![], vec![])));
    let broken = FrameIndex { bins: vec![4_194_304; 24], ..index.clone() };
    assert_eq!(expand_im_peaks(&peaks, Run { index: (&broken).into(), ..run }, |_| vec![1.0], 9), Err(23));
}
