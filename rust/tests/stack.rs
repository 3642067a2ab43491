//! The stack that each C entry takes at most, by the table in include/rubzolena.h. Each case runs in a thread with that much stack and what the
//! thread itself takes, on inputs that need the largest local lists: the widest rows, smoothed and not, with the maximum number of peaks;
//! long lists to stitch, with identities in no order; long traces and long runs, with the maximum number of peaks.
use rubzolena::*;

/// A line of the header's table: the function, its KiB, and a call that takes most of it.
struct Case {
    function: &'static str,
    kib: usize,
    call: fn(),
}

/// The KiB that a thread, its first functions and those of the Rust crate take besides, and what is lost by rounding to pages.
const BESIDES: usize = 16;

/// By rising stack: a new thread may be given the stack of an earlier one that has ended, where that is larger than what it asked for.
const CASES: [Case; 13] = [
    Case { function: "stitching of 1,024 peaks", kib: 64, call: || stitched(1_024) },
    Case { function: "stitching of peaks whose identities rise", kib: 64, call: rising },
    Case { function: "rows of 1,024 columns", kib: 64, call: || detected(1_024) },
    Case { function: "expansion over 1,024 frames", kib: 64, call: || expanded(1_024) },
    Case { function: "traces of 1,024 frames", kib: 64, call: || searched(1_024) },
    Case { function: "noise", kib: 64, call: noise },
    Case { function: "fallback and window", kib: 64, call: fallback_and_window },
    Case { function: "frame index, marginals and traces", kib: 64, call: index },
    Case { function: "traces of 4,096 frames", kib: 96, call: || searched(4_096) },
    Case { function: "traces of more than 4,096 frames", kib: 368, call: || searched(16_384) },
    Case { function: "expansion over more than 1,024 frames", kib: 448, call: || expanded(16_384) },
    Case { function: "rows of more than 1,024 columns", kib: 512, call: || detected(16_384) },
    Case { function: "stitching of more than 1,024 peaks", kib: 800, call: || stitched(65_536) },
];

#[test]
fn as_much_as_the_header_says_is_enough() {
    for case in &CASES {
        let thread = std::thread::Builder::new().name(case.function.into()).stack_size((case.kib + BESIDES) << 10);
        thread.spawn(case.call).unwrap().join().unwrap();
    }
}

fn stitched(n: u32) {
    let peak = |k: u32| {
        let mut w = [0; WORDS];
        (w[0], w[10], w[26]) = (k % 4_001, k % 13, k.wrapping_mul(0x9e37_79b1));
        Peak(w)
    };
    let peaks: Vec<Peak> = (0..n).map(peak).collect();
    for max_tof_row_delta in [0, 1, 65_535] {
        let (stitched, owners) = stitch(&peaks, StitchParams { max_tof_row_delta, ..StitchParams::default() }).expect("an accepted list");
        assert!(owners.iter().all(|k| (*k as usize) < stitched.len()));
    }
}

fn rising() {
    let peak = |k: u32| {
        let mut w = [0; WORDS];
        (w[0], w[10], w[26]) = (k.wrapping_mul(0x9e37_79b1) % 4_001, k % 13, k);
        Peak(w)
    };
    let peaks: Vec<Peak> = (0..65_536).map(peak).collect();
    for max_tof_row_delta in [0, 1, 65_535] {
        assert!(stitch(&peaks, StitchParams { max_tof_row_delta, ..StitchParams::default() }).is_ok());
    }
}

fn detected(cols: usize) {
    let staircase: Vec<f32> = (0..2 * cols).map(|k| (k % cols / 2 + 2 * (k % 2)) as f32).collect();
    let scans: Vec<u32> = (0..cols as u32).collect();
    let mobility: Vec<f32> = scans.iter().map(|s| *s as f32).collect();
    for weights in [&[0.01, 1.0, 0.01][..], &[]] {
        let grid = Grid {
            rows: 2,
            cols,
            data: &staircase,
            scans: &scans,
            mobility: &mobility,
            weights,
            scale: TofScale { tof_min: 0, tof_max: 1, tof_step: 1, num_bins: 2 },
            ..Grid::default()
        };
        let mut list = vec![0; grid.most_peaks() * WORDS];
        let peaks = grid.detect_into(&mut list).expect("an accepted grid");
        assert!(peaks > cols - cols / 32, "{peaks} peaks");
    }
}

fn saw(n: usize) -> (Vec<f32>, Vec<f32>) {
    ((0..n).map(|k| (k % 2) as f32 * 50.0).collect(), (0..n).map(|k| k as f32).collect())
}

fn searched(n: usize) {
    let (y, times) = saw(n);
    let asked = RtSearch { min_prom: ThresholdMode::Fixed(0.0), min_sep_sec: 0.0, min_width_sec: 0.0 };
    let (mut out, mut scratch) = (vec![0; (n - 1) / 2 * LOCAL_WORDS], vec![0; n]);
    assert_eq!(find_rt_peaks_into(&y, &y, &times, asked, &mut out, &mut scratch), Ok(0), "apexes of which none has a share");
    assert_eq!(find_rt_peaks_into(&y[..97], &y[..97], &times[..97], asked, &mut out, &mut scratch), Ok(0));
    assert_eq!(find_rt_peaks_into(&y[..65], &y[..65], &times[..65], asked, &mut out, &mut scratch), Ok(32));
}

fn noise() {
    assert!(robust_noise_mad(&saw(16_384).0).is_ok());
}

fn fallback_and_window() {
    let (y, times) = saw(16_384);
    let ids: Vec<u32> = (0..16_384).collect();
    let ctx = RtTraceCtx { frame_ids_sorted: &ids, rt_times_sec: &times };
    let mut whole = [0; WORDS];
    whole[7] = 16_383;
    assert!(fallback_rt_peak(&y, ctx, &Peak(whole), 0.25, 0).expect("an accepted trace").is_some());
    assert!(expand_window(&Peak(whole), ctx, RtExpandParams::default()).expect("an accepted run").is_some());
}

/// A run of n frames with one point each, and a mobility peak over all of it.
fn run_of(n: u32) -> (FrameIndex, TofScale, Vec<u32>, Vec<f32>, Peak) {
    let scale = TofScale { tof_min: 0, tof_max: 0, tof_step: 1, num_bins: 1 };
    let mut index = FrameIndex::default();
    for k in 0..n {
        index.push(Frame { tofs: &[0], scans: &[0], readings: &[(k % 2) as f32 * 50.0] }, scale, 1).unwrap();
    }
    let mut whole = [0; WORDS];
    whole[7] = n - 1;
    (index, scale, (0..n).collect(), (0..n).map(|k| k as f32).collect(), Peak(whole))
}

fn index() {
    let (index, scale, _, _, peak) = run_of(16_384);
    let frame: Vec<u32> = (0..65_536).map(|k: u32| k.wrapping_mul(0x9e37_79b1) >> 16).collect();
    let wide = TofScale { tof_min: 0, tof_max: 65_535, tof_step: 1, num_bins: 65_536 };
    let readings = vec![1.0; frame.len()];
    let mut other = FrameIndex::default();
    other.push(Frame { tofs: &frame, scans: &frame, readings: &readings }, wide, 65_535).unwrap();
    let block = Block { frames: (0, 16_383), bins: (0, 0), scans: (0, 65_535) };
    assert_eq!(index.rt_marginal(block).map(|sums| sums.len()), Ok(16_384));
    assert_eq!(index.im_marginal(block).map(|sums| sums.len()), Ok(65_536));
    assert_eq!(index.rt_trace(0, 2, (0, 65_535)).map(|sums| sums.len()), Ok(16_384));
    let mut trace = vec![0.0; 16_384];
    assert_eq!(rt_trace_for_im_peak_by_bounds_into((&index).into(), scale, (0, 0), 2, (0, 0), &mut trace), Ok(16_384));
    assert_eq!(index.rt_traces(scale, &[peak; 64], 2).map(|sums| sums.len()), Ok(64 * 16_384));
}

fn expanded(n: u32) {
    let (index, scale, ids, times, peak) = run_of(n);
    let ctx = RtTraceCtx { frame_ids_sorted: &ids, rt_times_sec: &times };
    let params = RtExpandParams { min_prom: ThresholdMode::Fixed(0.0), min_sep_sec: 0.0, min_width_sec: 0.0, ..RtExpandParams::default() };
    let run = Run { index: (&index).into(), scale, ctx, params };
    let frames = n as usize;
    let mut out = vec![0; most_rt_peaks(frames) * RT_WORDS];
    let (mut raw, mut smooth, mut order) = (vec![0.0; frames], vec![0.0; frames], vec![0; frames]);
    let scratch = ExpandScratch { raw: &mut raw, smooth: &mut smooth, order: &mut order };
    assert_eq!(expand_im_peak_into(&peak.0, run, &[0.5, 1.0, 0.5], 0, &mut out, scratch), Ok(1));
    let (found, counts) = expand_im_peaks(&[peak], run, |_| vec![0.5, 1.0, 0.5], 0).expect("an accepted run");
    assert_eq!((found.len(), &counts[..]), (1, &[1][..]), "no apex has a share, so that the fallback answers");
}
