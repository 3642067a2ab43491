//! Expansion through the C entries, of one mobility peak and of many: all ways that a peak can take, answers and refusals, with all lent
//! lists compared before and after. The Rust makes its weights itself, of the sigma of a peak's window and its truncation; the port is
//! handed the same ones, made here by the same expression of the Rust's sigma, which the port's first call must give too. The Rust's
//! identities are hashes: the port's stand in their place, and a mobility peak's own identity is its record's.
use crate::cluster::peak::{
    self as rust, expand_im_peak_along_rt, expand_many_im_peaks_along_rt, expand_many_im_peaks_along_rt_flat, find_rt_peaks, RtPeak1D,
};
use crate::frames_level::{index_numbers_or_lengths, rust_frames, sound_ends, sound_step, spoil_scale};
use crate::inputs::{any, limit, row, Rng};
use crate::leaves::in_range;
use crate::records::{sound, WORDS};
use crate::retention_level::{
    axis, frame_bounds, lent, numbers, params, record_of, rt_words, rust_mode, rust_params, sound_params, sound_record, spoil_params, window,
    Windowed,
};
use crate::row_level::{gaussian, most, sound_weights, weighted_means};
use crate::stitch_level::peak;
use crate::tof_level::{disagrees, rust_scale};
use crate::{bits, making, shapes, Tally};
use rubzolena::{
    expand_im_peak_into, expand_many_im_peaks_into, expand_window_into, ExpandScratch, FrameIndex, Index, RtExpandParams, RtTraceCtx, Run,
    ThresholdMode, TofScale, RT_WORDS, WINDOW_WORDS,
};

/// A call: records, the run that they are followed in, and the places of list, count column and the three scratch lists that are lent.
#[derive(Clone, Debug)]
pub struct Expand {
    pub list: Vec<u32>,
    pub index: FrameIndex,
    pub ids: Vec<u32>,
    pub times: Vec<f32>,
    pub scale: TofScale,
    pub params: RtExpandParams,
    pub truncate: f32,
    pub weights: Vec<f32>,
    pub lengths: Vec<u32>,
    pub first: u32,
    pub rooms: [usize; 5],
}

/// What the lists hold: the list, the count column, and scratch, floats as bits.
type Lists = [Vec<u32>; 5];

impl Expand {
    /// With the Rust's weights and just as much room as is asked for.
    pub fn new(list: Vec<u32>, index: FrameIndex, ids: Vec<u32>, times: Vec<f32>, scale: TofScale, params: RtExpandParams, truncate: f32) -> Self {
        let mut c = Expand { list, index, ids, times, scale, params, truncate, weights: Vec::new(), lengths: Vec::new(), first: 0, rooms: [0; 5] };
        c.weigh();
        let frames = c.frames();
        let most = most(frames).max(1);
        c.rooms = [c.count() * most * RT_WORDS, c.count(), frames, frames, frames];
        c
    }

    /// Gives each peak the weights that the Rust makes for it.
    pub fn weigh(&mut self) {
        let sigmas = self.sigmas();
        // the most weights are 257
        let widest = sigmas.iter().copied().fold(0.75, f32::max);
        if (self.truncate * widest).ceil() > 128.0 {
            self.truncate = 127.0 / widest;
        }
        (self.weights, self.lengths) = (Vec::new(), Vec::new());
        for sigma in sigmas {
            let own = if sigma == 0.0 { vec![1.0] } else { gaussian(sigma, self.truncate) };
            self.lengths.push(own.len() as u32);
            self.weights.extend(own);
        }
    }

    pub fn count(&self) -> usize {
        self.list.len() / WORDS
    }

    pub fn frames(&self) -> usize {
        self.index.starts.len().saturating_sub(1)
    }

    pub fn ctx(&self) -> RtTraceCtx<'_> {
        RtTraceCtx { frame_ids_sorted: &self.ids, rt_times_sec: &self.times }
    }

    pub fn run(&self) -> Run<'_> {
        Run { index: Index::from(&self.index), scale: self.scale, ctx: self.ctx(), params: self.params }
    }

    /// The first call for each peak.
    fn windows(&self) -> impl Iterator<Item = Windowed> + '_ {
        let call = |w: &[u32]| Windowed { peak: w.to_vec(), ids: self.ids.clone(), times: self.times.clone(), params: self.params, room: WINDOW_WORDS };
        self.list.chunks_exact(WORDS).map(call)
    }

    /// The Rust's sigma of each peak; 0 for a peak without a window, or one that is refused.
    fn sigmas(&self) -> Vec<f32> {
        self.windows().map(|c| c.sigma()).collect()
    }

    /// The same by the port's first call.
    fn port_sigmas(&self) -> Vec<f32> {
        let sigma = |w: &[u32]| {
            let mut out = [0; WINDOW_WORDS];
            match expand_window_into(w, self.ctx(), self.params, &mut out) {
                Ok(true) => f32::from_bits(out[2]),
                _ => 0.0,
            }
        };
        self.list.chunks_exact(WORDS).map(sigma).collect()
    }

    /// Document 01's number, 0 for none; of the one-peak entry, or of that for many.
    pub fn number(&self, one: bool) -> u32 {
        let (n, frames, p) = (self.count(), self.frames(), &self.params);
        let peaks = n as u128 * most(frames).max(1) as u128;
        let [lengths, sizes, readings, scans, form] = index_numbers_or_lengths(&self.index);
        let joined = self.lengths.iter().map(|k| *k as u128).sum::<u128>() == self.weights.len() as u128;
        let agree = if one { self.list.len() == WORDS } else { self.list.len() % WORDS == 0 && self.lengths.len() == n && joined };
        let axes = self.ids.len() == frames && self.times.len() == frames;
        let own = || {
            let mut at = 0;
            self.lengths.iter().all(|k| {
                let from = at;
                at += *k as usize;
                sound_weights(&self.weights[from..at])
            })
        };
        let times = self.times.iter().all(|t| in_range(*t, 1048576.0));
        let [out, counts, raw, smooth, order] = self.rooms;
        let checks: [(u32, &dyn Fn() -> bool); 12] = [
            (1, &|| lengths || !agree || !axes),
            (2, &|| sizes || n > 65_536),
            (3, &|| readings),
            (4, &|| !sound_params(p) || !times || !sound_step(&self.scale) || self.first as u128 + peaks > 1 << 32),
            (5, &|| scans || !sound_ends(&self.scale)),
            (6, &|| if one { !sound_weights(&self.weights) } else { !own() }),
            (7, &|| self.ids.windows(2).any(|w| w[0] >= w[1]) || self.times.windows(2).any(|w| w[1] < w[0])),
            (9, &|| !self.list.chunks_exact(WORDS).all(sound)),
            (20, &|| (out as u128) < peaks * RT_WORDS as u128 || (!one && counts < n)),
            (21, &|| raw < frames || smooth < frames || order < frames),
            (22, &|| disagrees(&self.scale)),
            (23, &|| form),
        ];
        checks.iter().find(|c| c.1()).map_or(0, |c| c.0)
    }

    /// A start for each lent list.
    fn lists(&self) -> Lists {
        self.rooms.map(lent)
    }

    fn port(&self, one: bool, lists: &mut Lists) -> Result<usize, u32> {
        let [out, counts, raw, smooth, order] = lists;
        let floats = |l: &[u32]| l.iter().map(|w| f32::from_bits(*w)).collect::<Vec<f32>>();
        let (mut x, mut y) = (floats(raw), floats(smooth));
        let scratch = ExpandScratch { raw: &mut x, smooth: &mut y, order };
        let answer = if one {
            expand_im_peak_into(&self.list, self.run(), &self.weights, self.first, out, scratch)
        } else {
            expand_many_im_peaks_into(&self.list, self.run(), &self.weights, &self.lengths, self.first, out, counts, scratch)
        };
        *raw = x.iter().map(|v| v.to_bits()).collect();
        *smooth = y.iter().map(|v| v.to_bits()).collect();
        answer
    }

    /// The Rust's retention peaks, by mobility peak.
    pub fn rust(&self) -> Vec<Vec<RtPeak1D>> {
        let peaks: Vec<_> = self.list.chunks_exact(WORDS).map(peak).collect();
        let frames = rust_frames(&self.index);
        let ctx = rust::RtTraceCtx { frame_ids_sorted: &self.ids, rt_times_sec: &self.times };
        expand_many_im_peaks_along_rt(&peaks, &frames, ctx, &rust_scale(&self.scale), rust_params(&self.params, self.truncate))
    }

    /// The words of all peaks, identities running on, and the counts.
    pub fn words(&self, found: &[Vec<RtPeak1D>]) -> (Vec<u32>, Vec<u32>) {
        let parents = self.list.chunks_exact(WORDS).map(|w| w[26]);
        let all = parents.zip(found).flat_map(|(parent, own)| own.iter().map(move |p| (parent, p)));
        let words = all.enumerate().flat_map(|(k, (parent, p))| rt_words(p, parent, self.first.wrapping_add(k as u32))).collect();
        (words, found.iter().map(|own| own.len() as u32).collect())
    }
}

fn words_of(list: &[f32]) -> Vec<u32> {
    list.iter().map(|x| bits(*x)).collect()
}

/// Which way the Rust's answer went, for the counts of ways.
pub struct Ways(pub [u64; 5]);

/// Compares a call. What scratch holds within its first places, one a frame, is left open where the call is accepted.
fn one(t: &mut Tally, c: &Expand, single: bool, ways: &mut Ways) {
    let (mut after, mut expected) = (c.lists(), c.lists());
    let port = c.port(single, &mut after);
    let number = c.number(single);
    let mut answer = Err(number);
    if number == 0 {
        let found = c.rust();
        let (words, counts) = c.words(&found);
        answer = Ok(words.len() / RT_WORDS);
        t.same("expansion: sigmas by the first call", &(c.frames(), c.count(), c.params), words_of(&c.port_sigmas()), words_of(&c.sigmas()));
        expected[0][..words.len()].copy_from_slice(&words);
        if !single {
            expected[1][..counts.len()].copy_from_slice(&counts);
        }
        for k in 2..5 {
            expected[k][..c.frames()].copy_from_slice(&after[k][..c.frames()]);
        }
        note(c, &found, ways);
    }
    let small = c.frames() < 9 && c.count() < 2;
    let shown = (c.frames(), c.count(), c.params, c.truncate, c.rooms, c.first, if small { Some(c) } else { None });
    t.same("expansion: count or number", &shown, port, answer);
    let names = ["list", "counts", "raw", "smooth", "order"];
    for k in 0..5 {
        t.same(names[k], &shown, &after[k], &expected[k]);
    }
}

/// Counts the ways that the peaks of a call took.
fn note(c: &Expand, found: &[Vec<RtPeak1D>], ways: &mut Ways) {
    for (w, own) in c.list.chunks_exact(WORDS).zip(found) {
        let way = match (window(&peak(w), &c.ids, &c.times, &c.params), own.len()) {
            (None, _) => 0,
            (Some(_), 0) => 1,
            (Some((lo, hi, _)), _) if hi + 1 - lo < c.params.fallback_if_frames_lt as usize => 2,
            // the fallback's two heights are the same raw one; a searched peak's seldom are
            (Some(_), 1) if own[0].apex_smoothed == own[0].apex_raw => 3,
            _ => 4,
        };
        ways.0[way] += 1;
    }
}

/// The Rust's flat form, and its one-peak form, have the same peaks as its form for many.
fn forms(t: &mut Tally, c: &Expand) {
    let peaks: Vec<_> = c.list.chunks_exact(WORDS).map(peak).collect();
    let (frames, scale, p) = (rust_frames(&c.index), rust_scale(&c.scale), rust_params(&c.params, c.truncate));
    let ctx = rust::RtTraceCtx { frame_ids_sorted: &c.ids, rt_times_sec: &c.times };
    let many = c.words(&c.rust());
    let flat = expand_many_im_peaks_along_rt_flat(&peaks, &frames, ctx, &scale, p);
    t.same("the Rust's flat form: places", &c.count(), flat.iter().map(|f| f.im_index).collect::<Vec<_>>(), (0..c.count()).collect());
    let flat: Vec<_> = flat.into_iter().map(|f| f.peaks).collect();
    t.same("the Rust's flat form", &c.count(), c.words(&flat), many.clone());
    let alone: Vec<_> = peaks.iter().map(|p1| expand_im_peak_along_rt(p1, &frames, ctx, &scale, p)).collect();
    t.same("the Rust's one-peak form", &c.count(), c.words(&alone), many);
}

/// Any weights: the Rust cannot be handed them, but its search can be handed the trace that they smooth, and finds the same apexes.
fn other_weights(t: &mut Tally, r: &mut Rng, c: &Expand) {
    if c.count() != 1 || c.number(true) != 0 {
        return;
    }
    let mut c = c.clone();
    let radius = r.below(5) as usize;
    c.weights = (0..2 * radius + 1).map(|k| if k == radius { 1.0 } else { r.below(1_001) as f32 / 1_000.0 }).collect();
    let mut lists = c.lists();
    let count = c.port(true, &mut lists).expect("accepted");
    let Some((lo, hi, _)) = window(&peak(&c.list), &c.ids, &c.times, &c.params) else { return };
    if hi + 1 - lo < c.params.fallback_if_frames_lt as usize {
        return;
    }
    let w = &c.list;
    let bounds = (w[2] as i32, w[3] as i32);
    let trace = rust::rt_trace_for_im_peak_by_bounds(
        &rust_frames(&c.index), &rust_scale(&c.scale), bounds, c.params.bin_pad as usize, w[14] as usize, w[15] as usize,
    );
    let (raw, p) = (&trace[lo..=hi], &c.params);
    let found = find_rt_peaks(&weighted_means(raw, &c.weights), raw, &c.times[lo..=hi], rust_mode(p.min_prom), p.min_sep_sec, p.min_width_sec);
    if found.is_empty() {
        return;
    }
    let port: Vec<&[u32]> = lists[0][..count * RT_WORDS].chunks_exact(RT_WORDS).map(|w| &w[..10]).collect();
    let words: Vec<[u32; 10]> = found
        .iter()
        .map(|p| {
            let (left, right) = (p.left_x + lo as f32, p.right_x + lo as f32);
            let heights = [bits(p.rt_sec.unwrap()), bits(p.apex_smoothed), bits(p.apex_raw), bits(p.prominence), bits(left), bits(right)];
            let [a, b, c, d, e, f] = heights;
            [(lo + p.rt_idx) as u32, a, b, c, d, e, f, p.width_frames as u32, bits(p.area_raw), bits(p.subframe)]
        })
        .collect();
    t.same("expansion with other weights", &(c.frames(), lo, hi, &c.weights), port, words.iter().map(|w| &w[..]).collect());
}

// ---- inputs

/// A run whose frames have a trace at some bin and scan, and points beside it.
fn run(r: &mut Rng, frames: usize, trace: &[f32], scale: TofScale, bin: u32, scan: u32) -> FrameIndex {
    let mut i = FrameIndex::default();
    let beside = r.pick(&[0, 0, 1, 3]);
    for v in trace.iter().take(frames) {
        let mut points: Vec<(u32, u32, f32)> = Vec::new();
        let next = (bin + 1).min(scale.num_bins - 1);
        match r.below(4) {
            _ if *v == 0.0 && r.one_in(2) => {}
            0 => points.extend([(bin, scan, *v / 2.0), (next, scan + 1, *v / 2.0)]),
            1 => points.extend([(bin, scan + 1, 0.0), (bin, scan, *v)]),
            _ => points.push((bin, scan, *v)),
        }
        for _ in 0..r.below(beside + 1) {
            let anywhere = r.below(scale.num_bins as u64 + 3) as u32;
            let far = (scan + r.pick(&[2, 3, 40, 900])).min(65_535);
            points.push((r.pick(&[bin, anywhere, bin.saturating_sub(2)]), far, r.below(1_000) as f32));
        }
        points.sort_by_key(|p| p.0);
        for (k, p) in points.iter().enumerate() {
            if k == 0 || points[k - 1].0 != p.0 {
                if k > 0 {
                    i.offsets.push(i.scans.len() as u32);
                }
                i.bins.push(p.0);
            }
            i.scans.push(p.1);
            i.readings.push(p.2);
        }
        if !points.is_empty() {
            i.offsets.push(i.scans.len() as u32);
        }
        i.starts.push(i.bins.len() as u32);
    }
    i
}

/// A trace: shapes and rows, flat ones, zeros, one that stays near its highest.
fn trace(r: &mut Rng, n: usize) -> Vec<f32> {
    match r.below(12) {
        0 => vec![0.0; n],
        1 => vec![7.0; n],
        2 => (0..n).map(|_| 8.0 + r.below(9) as f32 / 4.0).collect(),
        3 => (0..n).map(|k| if k % 2 == 1 { 90.0 } else { 0.0 }).collect(),
        4..=6 => row(r, n).into_iter().map(|v| v.min(4294967296.0)).collect(),
        _ => shapes::row(r, n),
    }
}

pub fn sample(r: &mut Rng) -> Expand {
    let frames = match r.below(3_000) {
        0 => 16_384,
        1..=9 => limit(r),
        10..=299 => 20 + r.below(60) as usize,
        300..=599 => r.below(4) as usize,
        _ => 1 + r.below(24) as usize,
    };
    let (step, first) = (r.pick(&[1, 1, 2, 10]), r.below(300) as u32);
    let count = 1 + r.below(40) as u32;
    let scale = TofScale { tof_min: first * step, tof_max: (first + count - 1) * step, tof_step: step, num_bins: count };
    let (bin, scan) = (r.below(count as u64) as u32, r.below(1_000) as u32);
    let y = trace(r, frames);
    let index = run(r, frames, &y, scale, bin, scan);
    let (ids, times) = (numbers(r, frames), axis(r, frames));
    let params = params(r, &times, &y);
    let peaks = match r.below(8) {
        0 => 0,
        1 | 2 => 1 + r.below(6) as usize,
        _ => 1,
    };
    let list: Vec<u32> = (0..peaks)
        .flat_map(|_| {
            let mut w = sound_record(r);
            if making(|| sound(&w)) {
                let low = scale.tof_min + bin * step;
                (w[2], w[3]) = (low, low + step * r.below(3) as u32);
                if r.one_in(10) {
                    (w[2], w[3]) = (low.saturating_sub(1 + r.below(50) as u32), low.saturating_sub(1));
                }
                (w[14], w[15]) = (scan, (scan + r.below(3) as u32).min(65_535));
                (w[6], w[7]) = frame_bounds(r, &ids);
            }
            w
        })
        .collect();
    let truncate = r.pick(&[0.0, 0.5, 1.0, 2.0, 3.0, 4.0]);
    let mut c = Expand::new(list, index, ids, times, scale, params, truncate);
    c.first = r.pick(&[0, 7, 1 << 31]);
    c
}

/// Makes something wrong, or brings it to its limit.
pub fn spoil(r: &mut Rng, c: &mut Expand) {
    let at = |r: &mut Rng, n: usize| r.below(n.max(1) as u64) as usize;
    let i = &mut c.index;
    let (s, b, o, p) = (at(r, i.starts.len()), at(r, i.bins.len()), at(r, i.offsets.len()), at(r, i.scans.len()));
    let (t, w) = (at(r, c.times.len()), at(r, c.weights.len()));
    let (word, bad) = (r.next() as u32 >> r.below(32), any(r));
    match r.below(26) {
        0 => i.starts.truncate(r.below(2) as usize),
        1 => i.offsets.push(i.scans.len() as u32),
        2 => i.readings.push(1.0),
        3 => i.starts.get_mut(s).into_iter().for_each(|x| *x = r.pick(&[word, x.wrapping_add(1), x.saturating_sub(1)])),
        4 => i.offsets.get_mut(o).into_iter().for_each(|x| *x = r.pick(&[word, x.wrapping_add(1), x.saturating_sub(1)])),
        5 => i.bins.get_mut(b).into_iter().for_each(|x| *x = r.pick(&[word, x.wrapping_add(1), 4_194_303, 4_194_304])),
        6 => i.scans.get_mut(p).into_iter().for_each(|x| *x = r.pick(&[65_535, 65_536, u32::MAX])),
        7 => i.readings.get_mut(p).into_iter().for_each(|x| *x = r.pick(&[bad, -0.0, 4294967296.0, 4294967808.0, f32::NAN])),
        8 => c.ids.push(u32::MAX),
        9 => c.times.truncate(t),
        10 => c.times.get_mut(t).into_iter().for_each(|x| *x = r.pick(&[bad, 0.0, 1048576.0, 1048576.1, -0.0])),
        11 if c.ids.len() > 1 => c.ids[1] = c.ids[0],
        12 | 13 => spoil_params(r, &mut c.params),
        14 => spoil_scale(r, &mut c.scale),
        15 => c.weights.push(1.0),
        16 => c.weights.get_mut(w).into_iter().for_each(|x| *x = r.pick(&[bad, 1.0000001, -0.0, 0.0])),
        17 => c.lengths.push(1),
        18 if c.lengths.len() > 1 => {
            c.lengths[0] = c.lengths[0].wrapping_add(1);
            c.lengths[1] = c.lengths[1].wrapping_sub(1);
        }
        19 => {
            c.weights = vec![1.0; r.pick(&[0, 2, 257, 259])];
            c.lengths = vec![c.weights.len() as u32];
        }
        20 => c.first = r.pick(&[u32::MAX, u32::MAX - most(c.frames()).max(1) as u32, u32::MAX - most(c.frames()).max(1) as u32 + 1]),
        21 | 22 => {
            let k = r.below(5) as usize;
            c.rooms[k] = r.pick(&[0, c.rooms[k].saturating_sub(1)]);
        }
        23 => c.list.truncate(c.list.len().saturating_sub(1 + r.below(30) as usize)),
        24 if r.one_in(200) => {
            c.list = vec![0; 65_537 * WORDS];
            (c.weights, c.lengths) = (vec![1.0; 65_537], vec![1; 65_537]);
        }
        _ if c.list.is_empty() => {}
        _ => {
            let k = r.below(c.list.len() as u64) as usize;
            c.list[k] = r.pick(&[word, 0, 4_259_840, 65_536, u32::MAX]);
        }
    }
}

/// Calls with the corners of document 01 and of docs/DIFFERENCES.md, with what each shows.
pub fn corners() -> Vec<(&'static str, Expand)> {
    let scale = TofScale { tof_min: 0, tof_max: 9, tof_step: 1, num_bins: 10 };
    let call = |y: &[f32], lo: u32, hi: u32, params: RtExpandParams| {
        let mut i = FrameIndex::default();
        for v in y {
            i.bins.push(4);
            i.scans.push(3);
            i.readings.push(*v);
            i.offsets.push(i.scans.len() as u32);
            i.starts.push(i.bins.len() as u32);
        }
        let n = y.len() as u32;
        let times = (0..n).map(|k| 10.0 + k as f32).collect();
        Expand::new(record_of(lo, hi), i, (100..100 + n).collect(), times, scale, params, 3.0)
    };
    let plain = RtExpandParams { bin_pad: 0, rt_pad_frames: 0, ..RtExpandParams::default() };
    let hills = [0.0, 5.0, 50.0, 5.0, 0.0, 0.0, 5.0, 50.0, 5.0, 0.0, 0.0, 0.0];
    vec![
        ("an ordinary peak", call(&hills, 100, 104, plain)),
        ("two peaks over the whole run", call(&hills, 100, 111, plain)),
        ("pads past both ends of the run", call(&hills, 105, 105, RtExpandParams { rt_pad_frames: 65_535, ..plain })),
        ("a frame number that is not there", call(&hills, 99, 104, plain)),
        ("a window of zeros", call(&hills, 109, 111, plain)),
        ("too short: the fallback, with times from the start of the run", call(&hills, 106, 107, plain)),
        ("one frame", call(&hills, 102, 102, plain)),
        ("a run of one frame", call(&[4.0], 100, 100, plain)),
        ("no frames", call(&[], 100, 100, plain)),
        ("no apex: the fallback after a search", call(&[0.0, 0.0, 0.0, 1.0, 2.0, 3.0, 4.0, 5.0], 103, 107, plain)),
        ("the second of two frames has the time of the first", call(&[0.0, 4.0], 101, 101, plain)),
        ("fallback bounds reversed, 3 and 2", call(&[5.0, 4.0, 6.0, 6.0], 100, 103, RtExpandParams { fallback_if_frames_lt: 9, ..plain })),
        ("fallback bounds reversed, 7 and 3", call(&[10.0, 9.0, 10.5, 1.0, 0.0, 0.0, 0.0, 0.0], 100, 107, RtExpandParams { fallback_if_frames_lt: 9, ..plain })),
        ("a least length of 0: two frames are searched, then left to the fallback", call(&hills, 101, 102, RtExpandParams { fallback_if_frames_lt: 0, ..plain })),
        ("a trace of one height", call(&[7.0; 9], 100, 108, plain)),
    ]
}

/// Calls on both sides of a rule, or at a limit and one past it.
pub fn edges() -> Vec<(&'static str, Expand)> {
    let scale = TofScale { tof_min: 0, tof_max: 9, tof_step: 1, num_bins: 10 };
    let run = |y: &[f32], times: &[f32], list: Vec<u32>, params: RtExpandParams| {
        let n = y.len() as u32;
        let index = FrameIndex { starts: (0..=n).collect(), bins: vec![4; y.len()], offsets: (0..=n).collect(), scans: vec![3; y.len()], readings: y.to_vec() };
        Expand::new(list, index, (100..100 + n).collect(), times.to_vec(), scale, params, 3.0)
    };
    let plain = RtExpandParams { bin_pad: 0, rt_pad_frames: 0, min_prom: ThresholdMode::Fixed(0.0), ..RtExpandParams::default() };
    let even: Vec<f32> = (0..9).map(|k| k as f32).collect();
    let hill = [5.0, 50.0, 5.0];
    let whole = |y: &[f32], params| run(y, &even[..y.len()], record_of(100, 99 + y.len() as u32), params);
    let with = |change: &dyn Fn(&mut Expand)| {
        let mut c = whole(&hill, plain);
        change(&mut c);
        c
    };
    let other_scale = |tof_min, tof_max, tof_step, num_bins| with(&|c| c.scale = TofScale { tof_min, tof_max, tof_step, num_bins });
    let high = RtExpandParams { min_prom: ThresholdMode::Fixed(1000.0), fallback_if_frames_lt: 0, ..plain };
    let mut edges = vec![
        ("a window of the least length is searched", whole(&hill, plain)),
        ("one shorter is not", whole(&hill[..2], plain)),
        ("no apex: fallback bounds reversed, 7 and 3", whole(&[20.0, 18.0, 21.0, 2.0, 0.0, 0.0, 0.0, 0.0], high)),
        ("the middle step of an even count is the upper one", run(&hill, &[0.0, 4.0, 5.0], record_of(100, 102), RtExpandParams { smooth_sigma_sec: 4.0, ..plain })),
        ("a pad to the left alone", run(&[0.0, 5.0, 50.0, 5.0, 0.0], &even[..5], record_of(103, 104), RtExpandParams { rt_pad_frames: 2, ..plain })),
        ("a pad to the right alone", run(&[0.0, 5.0, 50.0, 5.0, 0.0], &even[..5], record_of(100, 101), RtExpandParams { rt_pad_frames: 2, ..plain })),
        ("a run of one frame has one place", whole(&[4.0], plain)),
        ("a word too few", {
            let mut c = whole(&[4.0], plain);
            c.rooms[0] -= 1;
            c
        }),
        ("too short, behind others: the fallback's time is of the start", run(&[0.0, 4.0], &even[..2], record_of(101, 101), plain)),
        ("a higher frame number that is not there", run(&hill, &even[..3], record_of(100, 103), plain)),
        ("less than a record", with(&|c| c.list.truncate(26))),
        ("more than a record", with(&|c| c.list.push(0))),
        ("a weight length too few", with(&|c| (c.lengths, c.weights) = (Vec::new(), Vec::new()))),
        ("a weight length too many", with(&|c| c.lengths.push(0))),
        ("a weight too many", with(&|c| c.weights.push(0.0))),
        ("a weight too few", with(&|c| c.weights.truncate(c.weights.len() - 1))),
        ("a frame number too few", with(&|c| c.ids.truncate(2))),
        ("a frame number too many", with(&|c| c.ids.push(103))),
        ("a time too few", with(&|c| c.times.truncate(2))),
        ("a time too many", with(&|c| c.times.push(3.0))),
        ("a reading past the highest", with(&|c| c.index.readings[0] = 4294967808.0)),
        ("a parameter past its limit", with(&|c| c.params.rt_pad_frames = 65_536)),
        ("the highest time", run(&hill, &[0.0, 1.0, 1048576.0], record_of(100, 102), plain)),
        ("one past it", with(&|c| c.times[2] = 1048576.1)),
        ("the last identities", with(&|c| c.first = u32::MAX)),
        ("a step of 0", other_scale(0, 9, 0, 10)),
        ("the greatest step", other_scale(0, 65_536, 65_536, 2)),
        ("one past it", other_scale(0, 65_537, 65_537, 2)),
        ("a scan past the highest", with(&|c| c.index.scans[0] = 65_536)),
        ("the highest end of a scale", other_scale(4_194_303, 4_194_303, 1, 1)),
        ("one past it", other_scale(4_194_303, 4_194_304, 1, 2)),
        ("an even count of weights", with(&|c| (c.weights, c.lengths) = (vec![1.0; 2], vec![2]))),
        ("no weights", with(&|c| (c.weights, c.lengths) = (Vec::new(), vec![0]))),
        ("a frame number twice", with(&|c| c.ids[2] = 101)),
        ("times that fall", with(&|c| c.times[2] = 0.99999994)),
        ("a record that number 9 refuses", with(&|c| c.list[0] = 4_194_304)),
        ("a scale that disagrees", other_scale(0, 9, 1, 9)),
        ("a bin past the highest", with(&|c| c.index.bins[0] = 4_194_304)),
        ("starts that end too low", with(&|c| c.index.starts[3] = 2)),
    ];
    // the sums of a trace are held to no limit
    let sums = |params| {
        let mut c = whole(&hill, params);
        let half = 4294967296.0;
        (c.index.offsets, c.index.scans, c.index.readings) = (vec![0, 1, 3, 4], vec![3; 4], vec![half, half, half, half]);
        c
    };
    edges.push(("sums past the highest reading, searched", sums(plain)));
    edges.push(("sums past the highest reading, too short", sums(RtExpandParams { fallback_if_frames_lt: 4, ..plain })));
    // five frames allow two retention peaks
    let five = |first: u32| Expand { first, ..whole(&[0.0, 5.0, 50.0, 5.0, 0.0], plain) };
    edges.extend([("the last identities of two", five(u32::MAX - 1)), ("one past them", five(u32::MAX))]);
    let lent = |k: usize| with(&|c| c.rooms[k] -= 1);
    edges.extend(["a word of the list", "a count", "raw", "smooth", "order"].into_iter().enumerate().map(|(k, name)| (name, lent(k))));
    edges
}

/// Runs of many frames, ways counted.
pub fn compare(t: &mut Tally, count: u64) {
    let mut r = Rng::new(13);
    let mut ways = Ways([0; 5]);
    for (_, call) in corners().into_iter().chain(edges()) {
        one(t, &call, true, &mut ways);
        one(t, &call, false, &mut ways);
        t.corners += 2;
    }
    for _ in 0..count {
        let mut c = sample(&mut r);
        c.rooms = c.rooms.map(|room| room + r.below(3) as usize * r.below(5) as usize);
        let fine = !r.one_in(3);
        while !fine && r.one_in(2) {
            spoil(&mut r, &mut c);
        }
        let single = c.list.len() / WORDS == 1 && r.one_in(2);
        // what was changed may be accepted, with another sigma
        if !fine && c.number(single) == 0 {
            c.weigh();
        }
        one(t, &c, single, &mut ways);
        if fine && c.frames() < 100 && r.one_in(6) {
            if c.number(false) == 0 {
                forms(t, &c);
            }
            other_weights(t, &mut r, &c);
        }
    }
    let [none, zero, short, fallback, searched] = ways.0;
    println!("oracle: mobility peaks without a window {none}, with no retention peak {zero}, too short {short}, by the fallback after a search {fallback}, searched {searched}");
}
