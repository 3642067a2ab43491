//! Expansion and its parts, and their times, in one thread: 2,000 mobility peaks in runs of several kinds. The port goes through the C
//! entries, its lists made beforehand; of the Rust only the calls are timed, not the making of its frames. Both make or take the
//! same weights: the making is a part of the Rust's time, and is timed on the port's side as well, by the same expression.
use crate::bench::{by_turns, line, Side};
use crate::cluster::peak::{self as rust, expand_many_im_peaks_along_rt, find_rt_peaks};
use crate::cluster::utility::robust_noise_mad as rust_noise;
use crate::frames_level::rust_frames;
use crate::inputs::Rng;
use crate::retention_level::{rust_mode, rust_params};
use crate::row_level::{gaussian, most};
use crate::shapes::named;
use crate::stitch_level::peak;
use crate::tof_level::rust_scale;
use rubzolena::{
    expand_many_im_peaks_into, expand_window_into, find_rt_peaks_into, robust_noise_mad, ExpandScratch, FrameIndex, Index, RtExpandParams, RtSearch,
    RtTraceCtx, Run, ThresholdMode, TofScale, LOCAL_WORDS, RT_WORDS, WINDOW_WORDS, WORDS,
};
use std::hint::black_box;

const SCALE: TofScale = TofScale { tof_min: 0, tof_max: 9_999, tof_step: 1, num_bins: 10_000 };
const TRUNCATE: f32 = 3.0;

/// A run: the shape of each peak's trace, how many frames its window has, and points that belong to no peak, a frame.
struct Kind {
    name: &'static str,
    shape: fn(&mut Rng, usize) -> Vec<f32>,
    window: usize,
    beside: usize,
}

fn hump(n: usize, at: f32, reach: f32, height: f32) -> Vec<f32> {
    (0..n).map(|k| (height * (1.0 - (k as f32 - at).abs() / reach)).max(0.0).round()).collect()
}

fn sum(a: Vec<f32>, b: Vec<f32>) -> Vec<f32> {
    a.iter().zip(b).map(|(x, y)| x + y).collect()
}

const KINDS: [Kind; 9] = [
    Kind { name: "short elutions", shape: |r, n| hump(n, n as f32 / 2.0, 6.0, 500.0 + r.below(500) as f32), window: 20, beside: 50 },
    Kind { name: "short elutions, many points", shape: |r, n| hump(n, n as f32 / 2.0, 6.0, 500.0 + r.below(500) as f32), window: 20, beside: 500 },
    Kind { name: "short elutions, no other points", shape: |r, n| hump(n, n as f32 / 2.0, 6.0, 500.0 + r.below(500) as f32), window: 20, beside: 0 },
    Kind { name: "long elutions", shape: |r, n| hump(n, n as f32 / 2.0, n as f32 / 3.0, 500.0 + r.below(500) as f32), window: 300, beside: 50 },
    Kind { name: "two elutions in noise", shape: |r, n| sum(sum(hump(n, n as f32 / 4.0, 9.0, 900.0), hump(n, n as f32 * 0.7, 9.0, 700.0)), (0..n).map(|_| r.below(30) as f32).collect()), window: 120, beside: 50 },
    Kind { name: "flat traces", shape: |_, n| vec![50.0; n], window: 120, beside: 50 },
    Kind { name: "many equal heights", shape: |_, n| (0..n).map(|k| (k % 2) as f32 * 90.0).collect(), window: 120, beside: 50 },
    Kind { name: "noise", shape: |r, n| (0..n).map(|_| r.below(100) as f32).collect(), window: 120, beside: 50 },
    Kind { name: "a window over the whole run", shape: |r, n| sum(hump(n, n as f32 / 2.0, 30.0, 900.0), (0..n).map(|_| r.below(10) as f32).collect()), window: usize::MAX, beside: 50 },
];

struct Both {
    index: FrameIndex,
    list: Vec<u32>,
    ids: Vec<u32>,
    times: Vec<f32>,
    params: RtExpandParams,
}

/// A run of so many frames with so many peaks, a bin each, whose windows lie anywhere in `within` frames.
fn made(kind: &Kind, frames: usize, peaks: usize, within: usize) -> Both {
    let mut r = Rng::new(14);
    let window = kind.window.min(frames);
    let mut points: Vec<Vec<(u32, u32, f32)>> = vec![Vec::new(); frames];
    let ids: Vec<u32> = (0..frames as u32).map(|k| 1 + 3 * k).collect();
    let mut list = Vec::new();
    for p in 0..peaks {
        let start = r.below((within - window + 1).max(1) as u64) as usize;
        let (bin, scan) = ((p * 9_999 / peaks) as u32, r.below(900) as u32);
        for (k, v) in (kind.shape)(&mut r, window).into_iter().enumerate().filter(|(_, v)| *v > 0.0) {
            points[start + k].push((bin, scan + r.below(3) as u32, v));
        }
        let mut w = [0; WORDS];
        (w[2], w[3], w[6], w[7]) = (bin, bin, ids[start], ids[start + window - 1]);
        (w[14], w[15], w[26]) = (scan, scan + 2, p as u32);
        list.extend(w);
    }
    let mut index = FrameIndex::default();
    for own in &mut points {
        own.extend((0..kind.beside).map(|_| (r.below(10_000) as u32, r.below(917) as u32, 10.0 + r.below(100) as f32)));
        own.sort_by_key(|p| p.0);
        for (k, p) in own.iter().enumerate() {
            if k == 0 || own[k - 1].0 != p.0 {
                index.bins.push(p.0);
                index.offsets.push(0);
            }
            index.scans.push(p.1);
            index.readings.push(p.2);
            *index.offsets.last_mut().unwrap() = index.scans.len() as u32;
        }
        index.starts.push(index.bins.len() as u32);
    }
    let times = (0..frames).map(|k| k as f32 * 0.5).collect();
    let params = RtExpandParams { bin_pad: 0, rt_pad_frames: 0, ..RtExpandParams::default() };
    Both { index, list, ids, times, params }
}

/// Both calls of the port: windows, weights of their sigmas, expansion; then how many retention peaks there are.
struct Port {
    weights: Vec<f32>,
    lengths: Vec<u32>,
    out: Vec<u32>,
    counts: Vec<u32>,
    raw: Vec<f32>,
    smooth: Vec<f32>,
    order: Vec<u32>,
}

impl Port {
    fn new(b: &Both) -> Self {
        let (n, frames) = (b.list.len() / WORDS, b.ids.len());
        let out = vec![0; n * most(frames).max(1) * RT_WORDS];
        Port { weights: Vec::new(), lengths: Vec::new(), out, counts: vec![0; n], raw: vec![0.0; frames], smooth: vec![0.0; frames], order: vec![0; frames] }
    }

    fn weigh(&mut self, b: &Both, ctx: RtTraceCtx) {
        self.weights.clear();
        self.lengths.clear();
        for w in b.list.chunks_exact(WORDS) {
            let mut window = [0; WINDOW_WORDS];
            expand_window_into(w, ctx, b.params, &mut window).unwrap();
            let own = gaussian(f32::from_bits(window[2]), TRUNCATE);
            self.lengths.push(own.len() as u32);
            self.weights.extend(own);
        }
    }

    fn expand(&mut self, b: &Both) -> usize {
        let ctx = RtTraceCtx { frame_ids_sorted: &b.ids, rt_times_sec: &b.times };
        let run = Run { index: Index::from(&b.index), scale: SCALE, ctx, params: b.params };
        let scratch = ExpandScratch { raw: &mut self.raw, smooth: &mut self.smooth, order: &mut self.order };
        expand_many_im_peaks_into(&b.list, run, &self.weights, &self.lengths, 0, &mut self.out, &mut self.counts, scratch).unwrap()
    }
}

/// Times expansion of all peaks on both sides, and of the port also without the first calls.
fn expansion(what: &str, b: &Both) {
    let frames = rust_frames(&b.index);
    let peaks: Vec<_> = b.list.chunks_exact(WORDS).map(peak).collect();
    let scale = rust_scale(&SCALE);
    let ctx = rust::RtTraceCtx { frame_ids_sorted: &b.ids, rt_times_sec: &b.times };
    let lent = RtTraceCtx { frame_ids_sorted: &b.ids, rt_times_sec: &b.times };
    let mut port = Port::new(b);
    port.weigh(b, lent);
    let found = port.expand(b);
    let expected: usize = expand_many_im_peaks_along_rt(&peaks, &frames, ctx, &scale, rust_params(&b.params, TRUNCATE)).iter().map(Vec::len).sum();
    assert_eq!(found, expected, "{what}");
    let rust_side = Side::new(|| {
        black_box(expand_many_im_peaks_along_rt(black_box(&peaks), &frames, ctx, &scale, rust_params(&b.params, TRUNCATE)));
    });
    let port_side = Side::new(|| {
        port.weigh(black_box(b), lent);
        black_box(port.expand(b));
    });
    let mut sides = [rust_side, port_side];
    by_turns(&mut sides);
    line(what, Some(found as f64), sides[0].least, sides[1].least);
}

/// How the port's time grows with frames outside the windows, the second call alone.
fn growth(kind: &Kind) {
    let mut before = 0.0;
    for frames in [1_000, 2_000, 4_000, 8_000, 16_000] {
        let b = made(kind, frames, 2_000, 1_000);
        let mut port = Port::new(&b);
        port.weigh(&b, RtTraceCtx { frame_ids_sorted: &b.ids, rt_times_sec: &b.times });
        let mut side = [Side::new(|| {
            black_box(port.expand(black_box(&b)));
        })];
        by_turns(&mut side);
        let least = side[0].least;
        let more = if before > 0.0 { format!(", {:.2} ms more", (least - before) / 1e6) } else { String::new() };
        println!("growth: {}, 2000 peaks in the first 1000 of {frames} frames, {} points: {:.2} ms{more}", kind.name, b.index.scans.len(), least / 1e6);
        before = least;
    }
}

/// Times the search of one trace, and its noise.
fn search(what: &str, name: &str, n: usize, asked: RtSearch) {
    let raw = (named(name).make)(&mut Rng::new(15), n);
    let mut y = raw.clone();
    crate::cluster::utility::smooth_vector_gaussian(&mut y, 1.0, TRUNCATE);
    let times: Vec<f32> = (0..n).map(|k| k as f32 * 0.5).collect();
    let (mut out, mut scratch) = (vec![0; most(n) * LOCAL_WORDS], vec![0; n]);
    let found = find_rt_peaks_into(&y, &raw, &times, asked, &mut out, &mut scratch).unwrap();
    let rust_side = Side::new(|| {
        black_box(find_rt_peaks(black_box(&y), &raw, &times, rust_mode(asked.min_prom), asked.min_sep_sec, asked.min_width_sec));
    });
    let port_side = Side::new(|| {
        black_box(find_rt_peaks_into(black_box(&y), &raw, &times, asked, &mut out, &mut scratch)).unwrap();
    });
    let mut sides = [rust_side, port_side];
    by_turns(&mut sides);
    line(what, Some(found as f64), sides[0].least, sides[1].least);
}

fn noise(what: &str, name: &str, n: usize) {
    let y = (named(name).make)(&mut Rng::new(16), n);
    let rust_side = Side::new(|| {
        black_box(rust_noise(black_box(&y)));
    });
    let port_side = Side::new(|| {
        black_box(robust_noise_mad(black_box(&y))).unwrap();
    });
    let mut sides = [rust_side, port_side];
    by_turns(&mut sides);
    line(what, None, sides[0].least, sides[1].least);
}

/// The runs and traces whose name is asked for.
pub fn run(asked: impl Fn(&str) -> bool) {
    let free = RtSearch { min_prom: ThresholdMode::Fixed(0.0), min_sep_sec: 0.0, min_width_sec: 0.0 };
    let usual = RtSearch { min_prom: ThresholdMode::AdaptiveNoise(3.0), min_sep_sec: 1.0, min_width_sec: 0.5 };
    for n in [20, 120, 2_000, 16_384] {
        for name in ["sparse", "noise above 0", "few values", "equal apexes over 0", "hills with equal apexes", "zeros"] {
            for (how, search_for) in [("", usual), (", nothing asked", free)] {
                let what = format!("retention peaks of {n} frames, {name}{how}");
                if asked(&what) {
                    search(&what, name, n, search_for);
                }
            }
            let what = format!("noise of {n} frames, {name}");
            if asked(&what) {
                noise(&what, name, n);
            }
        }
    }
    for kind in &KINDS {
        let what = format!("expansion of 2000 peaks over 2000 frames, {}", kind.name);
        if asked(&what) {
            let peaks = if kind.window == usize::MAX { 200 } else { 2_000 };
            let what = if peaks < 2_000 { format!("expansion of {peaks} peaks over 2000 frames, {}", kind.name) } else { what };
            expansion(&what, &made(kind, 2_000, peaks, 2_000));
        }
    }
    if asked("growth of expansion") {
        growth(&KINDS[0]);
    }
}
