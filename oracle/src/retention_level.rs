//! Retention traces and the first call of expansion through the C entries: noise, retention peaks, the fallback, windows with their sigma;
//! answers and refusals, with all lent lists compared before and after. Thresholds of both kinds are compared in what they let pass.
//! A first identity stands for the Rust's hash, and a mobility peak's own identity is its record's.
use crate::cluster::peak::{self as rust, find_rt_peaks, ImPeak1D, RtLocalPeak, RtPeak1D};
use crate::cluster::utility::{self, fallback_rt_peak_from_trace};
use crate::inputs::{any, length, limit, reading, row, Rng};
use crate::leaves::in_range;
use crate::records::{record, sound, WORDS};
use crate::row_level::most;
use crate::stitch_level::peak;
use crate::{bits, making, shapes, unturned, Tally};
use rubzolena::{
    expand_window_into, fallback_rt_peak_into, find_rt_peaks_into, robust_noise_mad, RtExpandParams, RtSearch, RtTraceCtx, ThresholdMode,
    LOCAL_WORDS, RT_WORDS, WINDOW_WORDS,
};

const SECONDS: f32 = 1048576.0;
const HEIGHT: f32 = 8589934592.0;
const READING: f32 = 4294967296.0;

/// A start for a lent list.
pub fn lent(room: usize) -> Vec<u32> {
    (0..room).map(|k| k as u32 ^ 0x5555_5555).collect()
}

// ---- thresholds and parameters

pub fn rust_mode(m: ThresholdMode) -> rust::ThresholdMode {
    match m {
        ThresholdMode::Fixed(v) => rust::ThresholdMode::Fixed(v),
        ThresholdMode::AdaptiveNoise(s) => rust::ThresholdMode::AdaptiveNoise(s),
    }
}

fn payload(m: ThresholdMode) -> f32 {
    match m {
        ThresholdMode::Fixed(v) | ThresholdMode::AdaptiveNoise(v) => v,
    }
}

/// The Rust's parameters, with its own truncation.
pub fn rust_params(p: &RtExpandParams, truncate: f32) -> rust::RtExpandParams {
    rust::RtExpandParams {
        bin_pad: p.bin_pad as usize,
        smooth_sigma_sec: p.smooth_sigma_sec,
        smooth_trunc_k: truncate,
        min_prom: rust_mode(p.min_prom),
        min_sep_sec: p.min_sep_sec,
        min_width_sec: p.min_width_sec,
        fallback_if_frames_lt: p.fallback_if_frames_lt as usize,
        fallback_frac_width: p.fallback_frac_width,
        rt_pad_frames: p.rt_pad_frames as usize,
    }
}

/// Whether number 4 does not apply.
pub fn sound_params(p: &RtExpandParams) -> bool {
    [p.bin_pad, p.fallback_if_frames_lt, p.rt_pad_frames].iter().all(|c| *c <= 65_535)
        && [p.smooth_sigma_sec, p.min_sep_sec, p.min_width_sec].iter().all(|s| in_range(*s, SECONDS))
        && in_range(p.fallback_frac_width, 1.0)
        && in_range(payload(p.min_prom), HEIGHT)
}

/// The defaults of the Rust crate are the Rust's.
fn defaults(t: &mut Tally) {
    let (p, d) = (RtExpandParams::default(), rust::RtExpandParams::default());
    let port = rust_params(&p, d.smooth_trunc_k);
    t.same("default parameters", &(), format!("{port:?}"), format!("{d:?}"));
    t.same("default threshold", &(), format!("{:?}", rust_mode(ThresholdMode::default())), format!("{:?}", rust::ThresholdMode::default()));
}

/// A threshold for a trace: none, about its heights, of its noise, or at its limit.
fn threshold(r: &mut Rng, y: &[f32]) -> ThresholdMode {
    let some = if y.is_empty() { 1.0 } else { y[r.below(y.len() as u64) as usize] };
    match r.below(8) {
        0 | 1 => ThresholdMode::Fixed(0.0),
        2 => ThresholdMode::Fixed(some.min(HEIGHT)),
        3 => ThresholdMode::Fixed(r.below(20) as f32 / 2.0),
        4 => ThresholdMode::AdaptiveNoise(r.pick(&[0.0, 0.5, 1.0, 3.0, 1e-3])),
        5 => ThresholdMode::AdaptiveNoise(3.0),
        6 => ThresholdMode::Fixed(f32::from_bits(r.below(0x5000_0001) as u32)),
        _ => ThresholdMode::AdaptiveNoise(f32::from_bits(r.below(0x5000_0001) as u32)),
    }
}

/// A time in seconds for separation or width, about the steps of an axis.
fn span(r: &mut Rng, times: &[f32]) -> f32 {
    let step = if times.len() < 2 { 1.0 } else { times[1] - times[0] };
    match r.below(8) {
        0..=2 => 0.0,
        3 => step,
        4 => step * r.below(8) as f32 / 2.0,
        5 if times.len() > 2 => {
            let (i, j) = (r.below(times.len() as u64) as usize, r.below(times.len() as u64) as usize);
            (times[i] - times[j]).abs()
        }
        6 => f32::from_bits(r.below(0x4980_0001) as u32),
        _ => r.below(4) as f32 / 4.0,
    }
}

/// A time axis that does not fall.
pub fn axis(r: &mut Rng, n: usize) -> Vec<f32> {
    let kind = r.below(9);
    let (start, step) = (r.pick(&[0.0f32, 0.3, 17.25, 4096.0]), r.pick(&[0.1f32, 0.25, 0.5, 1.0, 1.7]));
    let mut at = start;
    let axis: Vec<f32> = (0..n)
        .map(|k| {
            match kind {
                // all equal
                0 => {}
                // even, added up or multiplied
                1 | 2 => at += step,
                3 => at = start + step * k as f32,
                // some equal
                4 => at += if r.one_in(3) { 0.0 } else { step },
                // uneven
                5 => at += r.below(1000) as f32 / 400.0,
                // neighbouring floats
                6 => at = f32::from_bits(at.to_bits() + r.below(3) as u32),
                // one long step
                7 => at += if r.one_in(9) { 900.0 } else { 0.001 },
                _ => at = SECONDS - (n - k) as f32 * 0.125,
            }
            at.clamp(0.0, SECONDS)
        })
        .collect();
    debug_assert!(axis.windows(2).all(|w| w[0] <= w[1]));
    axis
}

// ---- noise

/// A signal, and its noise or the number.
pub fn noise_call(r: &mut Rng) -> (Vec<f32>, Result<u32, u32>) {
    let n = if r.one_in(300) { r.pick(&[16_383, 16_384, 16_385]) } else if r.one_in(20) { limit(r) } else { length(r) };
    let mut y = match r.below(4) {
        0 => (0..n).map(|_| f32::from_bits(r.below(0x5000_0001) as u32)).collect(),
        1 => shapes::row(r, n),
        _ => row(r, n),
    };
    if n > 0 && r.one_in(6) {
        let at = r.below(n as u64) as usize;
        y[at] = if r.one_in(2) { any(r) } else { r.pick(&[HEIGHT, 8589935616.0, -0.0, f32::NAN]) };
    }
    let answer = noise_or_number(&y);
    (y, answer)
}

fn noise_or_number(y: &[f32]) -> Result<u32, u32> {
    if y.len() > 16_384 {
        Err(2)
    } else if !y.iter().all(|v| in_range(*v, HEIGHT)) {
        Err(3)
    } else {
        Ok(bits(utility::robust_noise_mad(y)))
    }
}

fn noise(t: &mut Tally, (y, expected): (Vec<f32>, Result<u32, u32>)) {
    let shown = if y.len() < 12 { &y[..] } else { &[] };
    t.same("noise", &(y.len(), shown), robust_noise_mad(&y).map(bits), expected);
}

// ---- retention peaks of a trace

/// The words of a peak of a trace.
fn local_words(p: &RtLocalPeak) -> Vec<u32> {
    let float = |x: Option<f32>| bits(x.expect("a time"));
    vec![
        p.rt_idx as u32,
        float(p.rt_sec),
        bits(p.apex_smoothed),
        bits(p.apex_raw),
        bits(p.prominence),
        bits(p.left_x),
        bits(p.right_x),
        p.width_frames as u32,
        bits(p.area_raw),
        bits(p.subframe),
        float(p.left_sec),
        float(p.right_sec),
        float(p.width_sec),
    ]
}

/// A call: the trace, smoothed and raw, its times, what is searched for, and the words of list and scratch that are lent.
#[derive(Clone, Debug)]
pub struct Search {
    pub smoothed: Vec<f32>,
    pub raw: Vec<f32>,
    pub times: Vec<f32>,
    pub asked: RtSearch,
    pub rooms: [usize; 2],
}

impl Search {
    pub fn new(smoothed: Vec<f32>, raw: Vec<f32>, times: Vec<f32>, asked: RtSearch) -> Self {
        let n = smoothed.len();
        Search { smoothed, raw, times, asked, rooms: [most(n) * LOCAL_WORDS, n] }
    }

    /// Document 01's number, 0 for none.
    pub fn number(&self) -> u32 {
        let (n, a) = (self.smoothed.len(), &self.asked);
        if self.raw.len() != n || self.times.len() != n {
            return 1;
        }
        if n > 16_384 {
            return 2;
        }
        if !self.smoothed.iter().all(|v| in_range(*v, HEIGHT)) || !self.raw.iter().all(|v| in_range(*v, READING)) {
            return 3;
        }
        let seconds = |v: &f32| in_range(*v, SECONDS);
        if !in_range(payload(a.min_prom), HEIGHT) || !seconds(&a.min_sep_sec) || !seconds(&a.min_width_sec) || !self.times.iter().all(seconds) {
            return 4;
        }
        if self.times.windows(2).any(|w| w[1] < w[0]) {
            return 7;
        }
        if self.rooms[0] < most(n) * LOCAL_WORDS {
            return 20;
        }
        if self.rooms[1] < n { 21 } else { 0 }
    }

    pub fn rust(&self) -> Vec<Vec<u32>> {
        let a = &self.asked;
        let found = find_rt_peaks(&self.smoothed, &self.raw, &self.times, rust_mode(a.min_prom), a.min_sep_sec, a.min_width_sec);
        found.iter().map(local_words).collect()
    }
}

/// Compares a call. What scratch holds within its first n words is left open where the call is accepted.
pub fn search(t: &mut Tally, c: &Search) {
    let (mut out, mut scratch) = (lent(c.rooms[0]), lent(c.rooms[1]));
    let answer = find_rt_peaks_into(&c.smoothed, &c.raw, &c.times, c.asked, &mut out, &mut scratch);
    let (n, number) = (c.smoothed.len(), c.number());
    let (mut expected, mut kept) = (lent(c.rooms[0]), lent(c.rooms[1]));
    let mut said = Err(number);
    if number == 0 {
        let peaks = c.rust();
        said = Ok(peaks.len());
        for (k, w) in peaks.iter().enumerate() {
            expected[k * LOCAL_WORDS..][..LOCAL_WORDS].copy_from_slice(w);
        }
        kept[..n].copy_from_slice(&scratch[..n]);
    }
    let shown = (n, c.asked, c.rooms, if n < 10 { (&c.smoothed[..], &c.raw[..], &c.times[..]) } else { Default::default() });
    t.same("retention peaks: count or number", &shown, answer, said);
    t.same("retention peaks: list", &shown, out, expected);
    t.same("retention peaks: scratch", &shown, scratch, kept);
}

/// How many frames a trace has.
fn frames(r: &mut Rng) -> usize {
    match r.below(12) {
        0 => limit(r).min(3_000),
        1 => length(r),
        _ => 3 + r.below(30) as usize,
    }
}

/// A trace of teeth, one of which has just a least share, of the trace or of the best one, or misses it by a unit in the last place.
fn shares(r: &mut Rng) -> Vec<f32> {
    let small = 2.0f32.powi(r.below(12) as i32) * (1 + r.below(9)) as f32;
    let mut heights = vec![small];
    if r.one_in(2) {
        // its half-height area is 3/4 of its height, the trace's that of all heights
        let rest = 36.5 * small;
        let first = (20.0 - r.below(3) as f32 / 2.0) * small;
        heights.extend([first, rest - first]);
    } else {
        heights.extend([20.0 * small, (1 + r.below(20)) as f32 * small]);
    }
    if r.one_in(2) {
        let k = r.below(3) as usize;
        heights[k] = f32::from_bits(heights[k].to_bits() + r.below(3) as u32 - 1);
    }
    let k = r.below(3) as usize;
    heights.swap(0, k);
    let mut y = vec![0.0];
    for h in heights {
        y.extend([h, 0.0]);
        y.resize(y.len() + r.below(3) as usize, 0.0);
    }
    y.push(0.0);
    y
}

pub fn sample(r: &mut Rng) -> Search {
    if r.one_in(8) {
        let (y, free) = (shares(r), RtSearch { min_prom: ThresholdMode::Fixed(0.0), min_sep_sec: 0.0, min_width_sec: 0.0 });
        let times = axis(r, y.len());
        return Search::new(y.clone(), y, times, free);
    }
    let n = if r.one_in(4_000) { 16_384 } else { frames(r) };
    let raw = if r.one_in(2) { shapes::row(r, n) } else { row(r, n) };
    let smoothed = match r.below(4) {
        // as the Rust smooths it, raw, or another trace
        0 | 1 => {
            let mut y = raw.clone();
            unturned::utility::smooth_vector_gaussian(&mut y, r.pick(&[0.75, 1.0, 1.3, 3.0]), 3.0);
            y
        }
        2 => raw.clone(),
        _ => row(r, n),
    };
    let times = axis(r, n);
    let asked = RtSearch { min_prom: threshold(r, &smoothed), min_sep_sec: span(r, &times), min_width_sec: span(r, &times) };
    let mut c = Search::new(smoothed, raw, times, asked);
    if !c.raw.is_empty() && r.one_in(3) {
        near_share(r, &mut c);
    }
    c
}

/// Sets separation and width about those of the peaks that the trace has without them, and a raw area about a share.
fn near_share(r: &mut Rng, c: &mut Search) {
    let peaks = unturned::peak::find_rt_peaks(&c.smoothed, &c.raw, &c.times, unturned::peak::ThresholdMode::Fixed(0.0), 0.0, 0.0);
    if peaks.is_empty() {
        return;
    }
    let some = &peaks[r.below(peaks.len() as u64) as usize];
    let other = &peaks[r.below(peaks.len() as u64) as usize];
    let beside = |r: &mut Rng, x: f32| f32::from_bits((x.to_bits() + r.below(3) as u32).saturating_sub(1)).clamp(0.0, SECONDS);
    match r.below(3) {
        0 => c.asked.min_sep_sec = beside(r, (some.rt_sec.unwrap() - other.rt_sec.unwrap()).abs()),
        1 => c.asked.min_width_sec = beside(r, some.width_sec.unwrap()),
        _ => c.asked.min_prom = ThresholdMode::Fixed(beside(r, some.prominence.min(SECONDS))),
    }
}

pub fn spoil(r: &mut Rng, c: &mut Search) {
    let n = c.smoothed.len();
    let at = r.below(n.max(1) as u64) as usize;
    let bad = any(r);
    match r.below(13) {
        0 => c.raw.push(0.0),
        1 => c.times.truncate(n.saturating_sub(1)),
        2 => c.smoothed.push(0.0),
        3 => c.asked.min_prom = if r.one_in(2) { ThresholdMode::Fixed(bad) } else { ThresholdMode::AdaptiveNoise(bad) },
        4 => c.asked.min_sep_sec = r.pick(&[bad, -0.0, SECONDS, 1048576.1]),
        5 => c.asked.min_width_sec = r.pick(&[bad, -0.0, SECONDS, 1048576.1]),
        6 => c.rooms[0] = r.pick(&[0, c.rooms[0].saturating_sub(1)]),
        7 => c.rooms[1] = r.pick(&[0, c.rooms[1].saturating_sub(1)]),
        _ if n == 0 => {}
        8 => c.smoothed[at] = r.pick(&[bad, HEIGHT, 8589935616.0, -0.0]),
        9 => {
            if let Some(v) = c.raw.get_mut(at) {
                *v = r.pick(&[bad, READING, 4294967808.0, -0.0]);
            }
        }
        _ => {
            if let Some(v) = c.times.get_mut(at) {
                *v = r.pick(&[bad, 0.0, SECONDS, 1048576.1, -0.0]);
            }
        }
    }
}

/// Traces with the corners of document 01 and of docs/DIFFERENCES.md.
pub fn corners() -> Vec<(&'static str, Search)> {
    let c = |y: &[f32], t: &[f32], prom: f32, sep: f32, width: f32| {
        let asked = RtSearch { min_prom: ThresholdMode::Fixed(prom), min_sep_sec: sep, min_width_sec: width };
        Search::new(y.to_vec(), y.to_vec(), t.to_vec(), asked)
    };
    let even: Vec<f32> = (0..9).map(|k| k as f32).collect();
    vec![
        ("no frames", c(&[], &[], 0.0, 0.0, 0.0)),
        ("two frames", c(&[0.0, 5.0], &[0.0, 1.0], 0.0, 0.0, 0.0)),
        ("equal times: by height", c(&[0.0, 5.0, 0.0, 9.0, 0.0], &[1.0; 5], 0.0, 0.0, 0.0)),
        ("equal times and heights: by index", c(&[0.0, 9.0, 0.0, 9.0, 0.0], &[1.0; 5], 0.0, 0.0, 0.0)),
        ("a later apex with an earlier time", c(&[1.0, 7.0, 1.0, 9.0, 2.0], &[4.9; 5], 0.0, 0.0, 0.0)),
        ("equal heights just as far apart as asked", c(&[0.0, 9.0, 0.0, 9.0, 0.0, 0.0, 0.0, 0.0, 0.0], &even, 0.0, 2.0, 0.0)),
        ("equal heights closer than asked: the first", c(&[0.0, 9.0, 0.0, 9.0, 0.0, 0.0, 0.0, 0.0, 0.0], &even, 0.0, 2.0000002, 0.0)),
        ("just as wide as asked", c(&[0.0, 4.0, 0.0], &even[..3], 0.0, 0.0, 1.0)),
        ("a share of the best just met, and just not", c(&[0.0, 5.0, 0.0, 100.0, 0.0, 4.9999995, 0.0, 0.0, 0.0], &even, 0.0, 0.0, 0.0)),
        ("a small apex beside a large area", c(&[90.0, 91.0, 90.0, 0.0, 2.0, 0.0, 90.0, 91.0, 90.0], &even, 0.0, 0.0, 0.0)),
        ("an adaptive floor of 1 without noise", Search {
            asked: RtSearch { min_prom: ThresholdMode::AdaptiveNoise(3.0), min_sep_sec: 0.0, min_width_sec: 0.0 },
            ..c(&[0.0, 0.5, 0.0, 1.0, 0.0, 0.0, 0.0, 0.0, 0.0], &even, 0.0, 0.0, 0.0)
        }),
    ]
}

/// Traces on both sides of a rule, or at a limit and one past it.
pub fn edges() -> Vec<(&'static str, Search)> {
    let even: Vec<f32> = (0..9).map(|k| k as f32).collect();
    let asked = |min_prom| RtSearch { min_prom, min_sep_sec: 0.0, min_width_sec: 0.0 };
    let of = |y: &[f32], mode| Search::new(y.to_vec(), y.to_vec(), even[..y.len()].to_vec(), asked(mode));
    let free = |y: &[f32]| of(y, ThresholdMode::Fixed(0.0));
    let with = |change: &dyn Fn(&mut Search)| {
        let mut c = free(&[0.0, 5.0, 0.0, 9.0, 0.0]);
        change(&mut c);
        c
    };
    // a fixed threshold is raised to 3 times the noise
    let (fixed, none) = (ThresholdMode::Fixed, ThresholdMode::AdaptiveNoise(0.0));
    vec![
        ("a raw maximum at the threshold, and a prominence at it", of(&[0.0, 4.0, 0.0], fixed(4.0))),
        ("one past it", of(&[0.0, 4.0, 0.0], fixed(4.0000005))),
        ("a raw maximum below the threshold, the smoothed one above", Search { raw: vec![0.0, 3.0, 0.0], ..of(&[0.0, 8.0, 0.0], fixed(4.0)) }),
        ("a plateau counts at its first frame", of(&[0.0, 5.0, 5.0, 0.0], none)),
        ("a width of 2.5 frames is rounded up", of(&[0.0, 4.0, 4.0, 2.0, 0.0], none)),
        ("a subframe that is held to 0.5", of(&[16777211.0, 16777216.0, 16777216.0, 0.0], none)),
        ("the area of the trace has its last segment: no peak", of(&[0.0, 1.0, 0.0, 74.0], none)),
        ("a share of the trace just met", of(&[0.0, 1.0, 0.0, 73.0], none)),
        ("just not", of(&[0.0, 1.0, 0.0, 73.00001], none)),
        ("a share of the best just met", free(&[0.0, 1.0, 0.0, 0.05, 0.0])),
        ("just not", free(&[0.0, 1.0, 0.0, 0.049999997, 0.0])),
        ("the best area is raised to 1e-6", free(&[0.0, 4e-8, 0.0])),
        ("both divisors are raised to 1e-6, not more", free(&[0.0, 1.3e-7, 0.0])),
        ("raw readings of 0", Search { raw: vec![0.0; 3], ..free(&[0.0, 4.0, 0.0]) }),
        ("a smoothed reading too many", with(&|c| c.smoothed.push(0.0))),
        ("a raw reading too few", with(&|c| c.raw.truncate(4))),
        ("a raw reading too many", with(&|c| c.raw.push(0.0))),
        ("a time too few", with(&|c| c.times.truncate(4))),
        ("a time too many", with(&|c| c.times.push(9.0))),
        ("the highest smoothed reading", with(&|c| c.smoothed[3] = HEIGHT)),
        ("one past it", with(&|c| c.smoothed[3] = 8589935616.0)),
        ("the highest raw reading", with(&|c| c.raw[3] = READING)),
        ("one past it", with(&|c| c.raw[3] = 4294967808.0)),
        ("the highest fixed threshold", with(&|c| c.asked.min_prom = fixed(HEIGHT))),
        ("one past it", with(&|c| c.asked.min_prom = fixed(8589935616.0))),
        ("the highest adaptive threshold", with(&|c| c.asked.min_prom = ThresholdMode::AdaptiveNoise(HEIGHT))),
        ("one past it", with(&|c| c.asked.min_prom = ThresholdMode::AdaptiveNoise(8589935616.0))),
        ("the greatest separation", with(&|c| c.asked.min_sep_sec = SECONDS)),
        ("one past it", with(&|c| c.asked.min_sep_sec = 1048576.1)),
        ("the greatest width", with(&|c| c.asked.min_width_sec = SECONDS)),
        ("one past it", with(&|c| c.asked.min_width_sec = 1048576.1)),
        ("the highest time", with(&|c| c.times[4] = SECONDS)),
        ("one past it", with(&|c| c.times[4] = 1048576.1)),
        ("equal times", with(&|c| c.times[4] = 3.0)),
        ("times that fall", with(&|c| c.times[4] = 2.9999998)),
        ("a word too few", with(&|c| c.rooms[0] -= 1)),
        ("a word of scratch too few", with(&|c| c.rooms[1] -= 1)),
    ]
}

/// Signals whose middles are of an even count, and samples at the limit and past it, with their noise or the number.
pub fn noise_edges() -> Vec<(Vec<f32>, Result<u32, u32>)> {
    let signals = [vec![1.0, 2.0, 4.0, 9.0], vec![1.0, 2.0], vec![1.0, 2.0, 4.0], vec![1.0, HEIGHT, 0.0], vec![1.0, 8589935616.0, 0.0], vec![-0.0]];
    signals.into_iter().map(|y| (y.clone(), noise_or_number(&y))).collect()
}

fn traces(t: &mut Tally, r: &mut Rng) {
    let mut c = sample(r);
    c.rooms = c.rooms.map(|room| room + r.below(3) as usize * r.below(5) as usize);
    while r.one_in(5) {
        spoil(r, &mut c);
    }
    search(t, &c);
}

// ---- the fallback

/// The words of a retention peak, with an identity and its mobility peak's.
pub fn rt_words(p: &RtPeak1D, parent: u32, id: u32) -> Vec<u32> {
    let mut w = vec![
        p.rt_idx as u32,
        bits(p.rt_sec.expect("a time")),
        bits(p.apex_smoothed),
        bits(p.apex_raw),
        bits(p.prominence),
        bits(p.left_x),
        bits(p.right_x),
        p.width_frames as u32,
        bits(p.area_raw),
        bits(p.subframe),
    ];
    w.extend([p.rt_bounds_frames.0 as u32, p.rt_bounds_frames.1 as u32, p.frame_id_bounds.0, p.frame_id_bounds.1]);
    w.extend([p.window_group.is_some() as u32, p.window_group.unwrap_or(0)]);
    w.extend([p.tof_row as u32, p.tof_center as u32, p.tof_bounds.0 as u32, p.tof_bounds.1 as u32, parent, id]);
    w
}

/// Strictly rising frame numbers.
pub fn numbers(r: &mut Rng, n: usize) -> Vec<u32> {
    let gap = r.pick(&[1u64, 1, 2, 9]);
    let most = n as u64 * gap;
    let start = r.pick(&[0, 1, 1_000, u32::MAX as u64 - most]);
    let mut at = start;
    (0..n)
        .map(|_| {
            at += 1 + r.below(gap);
            (at - 1).min(u32::MAX as u64) as u32
        })
        .collect()
}

/// A call of the fallback.
#[derive(Clone, Debug)]
pub struct Lone {
    pub trace: Vec<f32>,
    pub ids: Vec<u32>,
    pub times: Vec<f32>,
    pub peak: Vec<u32>,
    pub frac: f32,
    pub first: u32,
    pub room: usize,
}

impl Lone {
    pub fn number(&self) -> u32 {
        if self.peak.len() != WORDS || self.times.len() < self.trace.len() {
            return 1;
        }
        if self.trace.len() > 16_384 || self.times.len() > 16_384 || self.ids.len() > 16_384 {
            return 2;
        }
        if !self.trace.iter().all(|v| in_range(*v, READING)) {
            return 3;
        }
        if !in_range(self.frac, 1.0) || !self.times.iter().all(|v| in_range(*v, SECONDS)) {
            return 4;
        }
        if self.ids.windows(2).any(|w| w[0] >= w[1]) || self.times.windows(2).any(|w| w[1] < w[0]) {
            return 7;
        }
        if !sound(&self.peak) {
            return 9;
        }
        if self.room < RT_WORDS { 20 } else { 0 }
    }

    pub fn rust(&self) -> Option<Vec<u32>> {
        let ctx = rust::RtTraceCtx { frame_ids_sorted: &self.ids, rt_times_sec: &self.times };
        let found = fallback_rt_peak_from_trace(&self.trace, ctx, &peak(&self.peak), self.frac);
        found.map(|p| rt_words(&p, self.peak[26], self.first))
    }
}

pub fn lone(t: &mut Tally, c: &Lone) {
    let (mut out, mut expected) = (lent(c.room), lent(c.room));
    let ctx = RtTraceCtx { frame_ids_sorted: &c.ids, rt_times_sec: &c.times };
    let answer = fallback_rt_peak_into(&c.trace, ctx, &c.peak, c.frac, c.first, &mut out);
    let number = c.number();
    let mut said = Err(number);
    if number == 0 {
        let found = c.rust();
        said = Ok(found.is_some());
        if let Some(w) = found {
            expected[..RT_WORDS].copy_from_slice(&w);
        }
    }
    t.same("fallback: answer", c, answer, said);
    t.same("fallback: list", c, out, expected);
}

/// A record that is sound, but for a few.
pub fn sound_record(r: &mut Rng) -> Vec<u32> {
    loop {
        let w = record(r);
        if making(|| sound(&w)) || r.one_in(40) {
            return w;
        }
    }
}

pub fn fallback_call(r: &mut Rng) -> Lone {
    let n = if r.one_in(5_000) { 16_384 } else if r.one_in(10) { limit(r).min(300) } else { r.below(9) as usize };
    let trace = match r.below(5) {
        0 => shapes::row(r, n),
        // near its highest all over, so that no end is reached
        1 => (0..n).map(|_| 8.0 + r.below(9) as f32 / 4.0).collect(),
        2 => vec![reading(r, 1); n],
        _ => row(r, n),
    };
    let longer = (n + r.below(4) as usize * r.below(4) as usize).min(16_384);
    let times = axis(r, longer);
    let count = r.pick(&[0, n, times.len(), n.saturating_sub(2), n + 3]).min(16_384);
    let share = f32::from_bits(r.below(0x3f80_0001) as u32);
    let frac = r.pick(&[0.0, 0.1, 0.25, 0.5, 1.0, share]);
    let mut c = Lone { trace, ids: numbers(r, count), times, peak: sound_record(r), frac, first: r.next() as u32, room: RT_WORDS + r.below(3) as usize };
    while r.one_in(6) {
        let at = r.below(n.max(1) as u64) as usize;
        let bad = any(r);
        match r.below(8) {
            0 => c.peak.truncate(WORDS - 1),
            1 => c.times.truncate(n.saturating_sub(1)),
            2 => c.frac = r.pick(&[bad, 1.0000001, -0.0]),
            3 => c.room = r.pick(&[0, RT_WORDS - 1]),
            4 if c.ids.len() > 1 => c.ids[1] = c.ids[0],
            5 if !c.times.is_empty() => {
                let k = r.below(c.times.len() as u64) as usize;
                c.times[k] = r.pick(&[bad, SECONDS, 0.0]);
            }
            6 if n > 0 => c.trace[at] = r.pick(&[bad, 4294967808.0, -0.0]),
            _ => c.first = r.pick(&[0, u32::MAX]),
        }
    }
    c
}

/// A sound record of those frame numbers.
pub fn record_of(lo: u32, hi: u32) -> Vec<u32> {
    let mut w = vec![0; WORDS];
    (w[0], w[2], w[3], w[6], w[7], w[8], w[9], w[15], w[26]) = (4, 4, 4, lo, hi, 1, 6, 9, 77);
    w
}

/// Calls of the fallback at a limit and one past it.
pub fn lone_edges() -> Vec<(&'static str, Lone)> {
    let with = |change: &dyn Fn(&mut Lone)| {
        let (trace, times) = (vec![0.0, 5.0, 9.0, 1.0], vec![0.0, 1.0, 2.0, 3.0]);
        let mut c = Lone { trace, ids: (5..9).collect(), times, peak: record_of(5, 8), frac: 0.25, first: 3, room: RT_WORDS };
        change(&mut c);
        c
    };
    vec![
        ("as many times as readings", with(&|_| {})),
        ("a time too few", with(&|c| c.times.truncate(3))),
        ("less than a record", with(&|c| c.peak.truncate(26))),
        ("more than a record", with(&|c| c.peak.push(0))),
        ("the highest reading", with(&|c| c.trace[2] = READING)),
        ("one past it", with(&|c| c.trace[2] = 4294967808.0)),
        ("a fraction of 1", with(&|c| c.frac = 1.0)),
        ("one past it", with(&|c| c.frac = 1.0000001)),
        ("the highest time", with(&|c| c.times[3] = SECONDS)),
        ("one past it", with(&|c| c.times[3] = 1048576.1)),
        ("equal times", with(&|c| c.times[3] = 2.0)),
        ("times that fall", with(&|c| c.times[3] = 1.9999999)),
        ("a frame number twice", with(&|c| c.ids[3] = 7)),
        ("a record that number 9 refuses", with(&|c| c.peak[0] = 4_194_304)),
        ("a word too few", with(&|c| c.room -= 1)),
        ("equal readings at the left end", with(&|c| c.trace = vec![8.0, 8.0, 9.0, 1.0])),
        ("equal readings at the right end", with(&|c| c.trace = vec![1.0, 9.0, 8.0, 8.0])),
        ("readings at the threshold, two on either side", with(&|c| c.trace = vec![2.25, 2.25, 9.0, 2.25])),
        ("the same to the right", with(&|c| c.trace = vec![2.25, 9.0, 2.25, 2.25])),
    ]
}

// ---- the first call

/// First calls at a limit and one past it, and one whose middle step is that of an even count.
pub fn window_edges() -> Vec<(&'static str, Windowed)> {
    let with = |change: &dyn Fn(&mut Windowed)| {
        let params = RtExpandParams { rt_pad_frames: 1, ..RtExpandParams::default() };
        let times = vec![0.0, 0.25, 0.5, 1.0, 2.0];
        let mut c = Windowed { peak: record_of(7, 8), ids: (5..10).collect(), times, params, room: WINDOW_WORDS };
        change(&mut c);
        c
    };
    let p = |change: &dyn Fn(&mut RtExpandParams)| with(&|c| change(&mut c.params));
    let mut edges = vec![
        ("the middle step of an even count is the upper one", with(&|c| {
            (c.peak, c.ids, c.times) = (record_of(5, 7), vec![5, 6, 7], vec![0.0, 4.0, 5.0]);
            c.params.smooth_sigma_sec = 4.0;
        })),
        ("a padded window inside of the run", with(&|_| {})),
        ("a lower frame number that is not there", with(&|c| c.peak = record_of(4, 8))),
        ("a higher frame number that is not there", with(&|c| c.peak = record_of(7, 11))),
        ("two frames have a step", with(&|c| (c.peak, c.params.rt_pad_frames, c.params.smooth_sigma_sec) = (record_of(8, 9), 0, 3.0))),
        ("one frame", with(&|c| (c.peak, c.params.rt_pad_frames, c.params.smooth_sigma_sec) = (record_of(8, 8), 0, 3.0))),
        ("equal times", with(&|c| (c.times, c.params.smooth_sigma_sec) = (vec![1.0; 5], 0.01))),
        ("a pad past both ends", p(&|p| p.rt_pad_frames = 4)),
        ("less than a record", with(&|c| c.peak.truncate(26))),
        ("more than a record", with(&|c| c.peak.push(0))),
        ("a frame number too few", with(&|c| c.ids.truncate(4))),
        ("a time too few", with(&|c| c.times.truncate(4))),
        ("the highest time", with(&|c| c.times[4] = SECONDS)),
        ("one past it", with(&|c| c.times[4] = 1048576.1)),
        ("times that fall", with(&|c| c.times[4] = 0.99999994)),
        ("a frame number twice", with(&|c| c.ids[4] = 8)),
        ("a record that number 9 refuses", with(&|c| c.peak[0] = 4_194_304)),
        ("a word too few", with(&|c| c.room -= 1)),
        ("the greatest seconds", p(&|p| (p.smooth_sigma_sec, p.min_sep_sec, p.min_width_sec) = (SECONDS, SECONDS, SECONDS))),
        ("one past it, sigma", p(&|p| p.smooth_sigma_sec = 1048576.1)),
        ("one past it, separation", p(&|p| p.min_sep_sec = 1048576.1)),
        ("one past it, width", p(&|p| p.min_width_sec = 1048576.1)),
        ("a fraction of 1", p(&|p| p.fallback_frac_width = 1.0)),
        ("one past it", p(&|p| p.fallback_frac_width = 1.0000001)),
    ];
    let counts = [("the highest counts", 65_535, 65_535, 65_535), ("one past it, bin_pad", 65_536, 0, 0), ("one past it, fallback", 0, 65_536, 0), ("one past it, pad", 0, 0, 65_536)];
    edges.extend(counts.map(|(what, a, b, c)| (what, p(&|p| (p.bin_pad, p.fallback_if_frames_lt, p.rt_pad_frames) = (a, b, c)))));
    for (fixed, adaptive, v) in [("the highest thresholds, fixed", "adaptive", HEIGHT), ("one past it, fixed", "one past it, adaptive", 8589935616.0)] {
        edges.push((fixed, p(&|p| p.min_prom = ThresholdMode::Fixed(v))));
        edges.push((adaptive, p(&|p| p.min_prom = ThresholdMode::AdaptiveNoise(v))));
    }
    edges
}

/// Parameters of expansion for a run with that time axis.
pub fn params(r: &mut Rng, times: &[f32], y: &[f32]) -> RtExpandParams {
    RtExpandParams {
        bin_pad: r.pick(&[0, 0, 1, 2, 5, 65_535]),
        smooth_sigma_sec: r.pick(&[0.0, 0.1, 0.5, 1.0, 2.5]),
        min_prom: threshold(r, y),
        min_sep_sec: span(r, times),
        min_width_sec: span(r, times),
        fallback_if_frames_lt: r.pick(&[0, 1, 2, 3, 3, 4, 8, 65_535]),
        fallback_frac_width: r.pick(&[0.0, 0.1, 0.25, 0.5, 1.0]),
        rt_pad_frames: r.pick(&[0, 1, 2, 5, 40, 65_535]),
    }
}

/// Makes a parameter wrong, or brings it to its limit.
pub fn spoil_params(r: &mut Rng, p: &mut RtExpandParams) {
    let (bad, high) = (any(r), r.pick(&[65_535, 65_536, u32::MAX]));
    match r.below(8) {
        0 => p.bin_pad = high,
        1 => p.smooth_sigma_sec = r.pick(&[bad, SECONDS, 1048576.1, -0.0]),
        2 => p.min_prom = if r.one_in(2) { ThresholdMode::Fixed(bad) } else { ThresholdMode::AdaptiveNoise(bad) },
        3 => p.min_sep_sec = r.pick(&[bad, SECONDS, -0.0]),
        4 => p.min_width_sec = r.pick(&[bad, SECONDS, -0.0]),
        5 => p.fallback_if_frames_lt = high,
        6 => p.fallback_frac_width = r.pick(&[bad, 1.0000001, -0.0]),
        _ => p.rt_pad_frames = high,
    }
}

/// Frame numbers of a peak: mostly two of the run, at its ends at times, seldom one that is not there.
pub fn frame_bounds(r: &mut Rng, ids: &[u32]) -> (u32, u32) {
    let some = r.next() as u32;
    if ids.is_empty() || r.one_in(12) {
        let other = r.next() as u32;
        return (some.min(other), some.max(other));
    }
    let n = ids.len();
    let lo = match r.below(4) {
        0 => 0,
        1 => n - 1,
        _ => r.below(n as u64) as usize,
    };
    let hi = match r.below(4) {
        0 => n - 1,
        _ => (lo + r.below(12) as usize).min(n - 1),
    };
    let missing = |id: u32, r: &mut Rng| if r.one_in(20) { id ^ 1 } else { id };
    let (a, b) = (missing(ids[lo], r), missing(ids[hi], r));
    (a.min(b), a.max(b))
}

/// The window and the sigma that the Rust forms: those of its `expand_im_peak_along_rt`, whose steps before the trace are these.
pub fn window(p: &ImPeak1D, ids: &[u32], times: &[f32], e: &RtExpandParams) -> Option<(usize, usize, f32)> {
    window_by(p, ids, times, e, rust::within::effective_dt)
}

/// The same with that time step of an axis.
fn window_by(p: &ImPeak1D, ids: &[u32], times: &[f32], e: &RtExpandParams, step: fn(&[f32]) -> f32) -> Option<(usize, usize, f32)> {
    let n = ids.len();
    let lo = ids.binary_search(&p.frame_id_bounds.0).ok()?;
    let hi = ids.binary_search(&p.frame_id_bounds.1).ok()?;
    let pad = (e.rt_pad_frames as usize).min(n - 1);
    let (lo, hi) = (lo.saturating_sub(pad), (hi + pad).min(n - 1));
    let dt = step(&times[lo..=hi]);
    Some((lo, hi, (e.smooth_sigma_sec / dt).max(0.75)))
}

/// A first call.
#[derive(Clone, Debug)]
pub struct Windowed {
    pub peak: Vec<u32>,
    pub ids: Vec<u32>,
    pub times: Vec<f32>,
    pub params: RtExpandParams,
    pub room: usize,
}

impl Windowed {
    /// Document 01's number, 0 for none.
    pub fn number(&self) -> u32 {
        if self.peak.len() != WORDS || self.ids.len() != self.times.len() {
            1
        } else if self.ids.len() > 16_384 {
            2
        } else if !sound_params(&self.params) || !self.times.iter().all(|v| in_range(*v, SECONDS)) {
            4
        } else if self.ids.windows(2).any(|w| w[0] >= w[1]) || self.times.windows(2).any(|w| w[1] < w[0]) {
            7
        } else if !sound(&self.peak) {
            9
        } else if self.room < WINDOW_WORDS {
            20
        } else {
            0
        }
    }

    pub fn rust(&self) -> Option<[u32; WINDOW_WORDS]> {
        let found = window(&peak(&self.peak), &self.ids, &self.times, &self.params);
        found.map(|(lo, hi, sigma)| [lo as u32, hi as u32, bits(sigma)])
    }

    /// The sigma, 0 where there is no window or where the call is refused. An input is made of it.
    pub fn sigma(&self) -> f32 {
        let found = || window_by(&peak(&self.peak), &self.ids, &self.times, &self.params, unturned::peak::within::effective_dt);
        making(|| if self.number() == 0 { found().map_or(0.0, |w| w.2) } else { 0.0 })
    }
}

pub fn call_window(r: &mut Rng) -> Windowed {
    let n = if r.one_in(3_000) { r.pick(&[16_384, 16_385]) } else if r.one_in(10) { limit(r).min(200) } else { r.below(14) as usize };
    let (ids, times) = (numbers(r, n), axis(r, n));
    let params = params(r, &times, &[5.0]);
    let mut c = Windowed { peak: sound_record(r), ids, times, params, room: WINDOW_WORDS + r.below(2) as usize };
    (c.peak[6], c.peak[7]) = frame_bounds(r, &c.ids);
    while r.one_in(6) {
        let at = r.below(n.max(1) as u64) as usize;
        let bad = any(r);
        match r.below(7) {
            0 => c.peak.truncate(WORDS - 1),
            1 => c.times.truncate(n.saturating_sub(1)),
            2 | 3 => spoil_params(r, &mut c.params),
            4 => c.room = r.pick(&[0, 1, 2]),
            5 if at < c.times.len() => c.times[at] = r.pick(&[bad, 0.0, SECONDS]),
            6 if n > 1 => c.ids[n / 2] = c.ids[0],
            _ => c.peak[5] = 0,
        }
    }
    c
}

fn windowed(t: &mut Tally, c: &Windowed) {
    let (mut out, mut expected) = (lent(c.room), lent(c.room));
    let ctx = RtTraceCtx { frame_ids_sorted: &c.ids, rt_times_sec: &c.times };
    let answer = expand_window_into(&c.peak, ctx, c.params, &mut out);
    let number = c.number();
    let mut said = Err(number);
    if number == 0 {
        let found = c.rust();
        said = Ok(found.is_some());
        if let Some(w) = found {
            expected[..WINDOW_WORDS].copy_from_slice(&w);
        }
    }
    let n = c.ids.len();
    let shown = (n, c.params, c.room, c.peak.get(6), c.peak.get(7), if n < 10 { (&c.ids[..], &c.times[..]) } else { Default::default() });
    t.same("first call: answer", &shown, answer, said);
    t.same("first call: list", &shown, out, expected);
}

pub fn compare(t: &mut Tally, count: u64) {
    let mut r = Rng::new(12);
    defaults(t);
    for (_, call) in corners().into_iter().chain(edges()) {
        search(t, &call);
        t.corners += 1;
    }
    for call in noise_edges() {
        noise(t, call);
        t.corners += 1;
    }
    for (_, call) in lone_edges() {
        lone(t, &call);
        t.corners += 1;
    }
    for (_, call) in window_edges() {
        windowed(t, &call);
        t.corners += 1;
    }
    for _ in 0..count {
        traces(t, &mut r);
        lone(t, &fallback_call(&mut r));
        windowed(t, &call_window(&mut r));
        if r.one_in(2) {
            noise(t, noise_call(&mut r));
        }
    }
}
