//! The row level: smoothing and the mobility peaks of one TOF row, answers and refusals, with every lent buffer compared
//! before and after.
use crate::cluster::peak::ImPeak1D;
use crate::cluster::utility::{find_im_peaks_row, smooth_vector_gaussian};
use crate::inputs::{any, length, limit, row, Rng};
use crate::leaves::in_range;
use crate::rows::unfiltered;
use crate::{bits, probe, shapes, unturned, words, Tally};

pub const WORDS: usize = 27;

/// What the row finder is handed.
#[derive(Clone, Debug)]
pub struct Row {
    pub smoothed: Vec<f32>,
    pub raw: Vec<f32>,
    pub place: [u32; 4],
    pub bounds: [u32; 4],
    pub group: Option<u32>,
    pub mobility: Vec<f32>,
    pub min_prom: f32,
    pub min_distance: u32,
    pub min_width: u32,
    pub axis: Vec<u32>,
    pub first: u32,
    pub room: usize,
}

/// The peaks that n samples allow.
pub fn most(n: usize) -> usize {
    n.saturating_sub(1) / 2
}

impl Row {
    /// Document 01's number, 0 for none.
    pub fn number(&self) -> u32 {
        let n = self.smoothed.len();
        let mobility = &self.mobility;
        if self.raw.len() != n || self.axis.len() != n || !(mobility.is_empty() || mobility.len() == n) {
            return 1;
        }
        if n > 16_384 {
            return 2;
        }
        if !(self.smoothed.iter().all(|v| in_range(*v, 8589934592.0)) && self.raw.iter().all(|v| in_range(*v, 4294967296.0))) {
            return 3;
        }
        let [rt_lo, rt_hi, id_lo, id_hi] = self.bounds;
        if !in_range(self.min_prom, 8589934592.0)
            || self.min_distance > 65_535
            || self.min_width > 65_535
            || !mobility.iter().all(|v| in_range(*v, 1048576.0))
            || rt_lo > rt_hi
            || rt_hi > 16_383
            || id_lo > id_hi
            || self.place[0] > 4_194_303
            || self.first as u64 + most(n) as u64 > 1 << 32
        {
            return 4;
        }
        if self.axis.iter().any(|s| *s > 65_535) || self.place[1..].iter().any(|t| *t > 4_259_839) {
            return 5;
        }
        if self.axis.windows(2).any(|w| w[0] >= w[1]) {
            return 7;
        }
        if self.room < WORDS * most(n) {
            return 20;
        }
        0
    }

    /// The Rust's list, as words.
    pub fn peaks(&self) -> Vec<u32> {
        let [tof_row, center, lo, hi] = self.place;
        let [rt_lo, rt_hi, id_lo, id_hi] = self.bounds;
        let axis: Vec<usize> = self.axis.iter().map(|s| *s as usize).collect();
        let peaks = find_im_peaks_row(
            &self.smoothed,
            &self.raw,
            tof_row as usize,
            center as i32,
            (lo as i32, hi as i32),
            (rt_lo as usize, rt_hi as usize),
            (id_lo, id_hi),
            self.group,
            words::mobility(&self.mobility),
            self.min_prom,
            self.min_distance as usize,
            self.min_width as usize,
            &axis,
        );
        words::list(&peaks, self.first)
    }
}

/// A floor: none, at the scale of the row, at random or at its limit.
fn floor(r: &mut Rng, y: &[f32]) -> f32 {
    match r.below(6) {
        0 | 1 => 0.0,
        2 if !y.is_empty() => y[r.below(y.len() as u64) as usize],
        3 => r.below(10) as f32,
        4 => f32::from_bits(r.below(0x5000_0001) as u32),
        _ => r.pick(&[1e-45, 1.0, 8589934592.0]),
    }
}

/// Weights as the Rust makes them of sigma and truncation, before division by their sum.
pub fn gaussian(sigma: f32, truncate: f32) -> Vec<f32> {
    let radius = (truncate * sigma).ceil() as i32;
    (-radius..=radius).map(|dx| (-((dx * dx) as f32) / (2.0 * sigma * sigma)).exp()).collect()
}

pub fn sigma(r: &mut Rng) -> (f32, f32) {
    let sigma = r.pick(&[0.25, 0.5, 1.0, 1.5, 3.0, 10.0]) + r.below(1000) as f32 / 1000.0;
    (sigma, r.pick(&[0.5, 1.0, 2.0, 3.0, 4.0]))
}

/// Sigma and truncation of 3, 19, 255 or 257 weights.
pub fn counted(r: &mut Rng) -> (f32, f32) {
    r.pick(&[(1.0, 1.0), (3.0, 3.0), (31.75, 4.0), (32.0, 4.0)])
}

/// Floor, least distance and least width: none, or at or beside those of peaks that are there.
pub fn near(r: &mut Rng, peaks: &[ImPeak1D]) -> (f32, u32, u32) {
    let beside = |r: &mut Rng, x: u32| (x + r.below(3) as u32).saturating_sub(1);
    let one = |r: &mut Rng| peaks.get(r.below(peaks.len().max(1) as u64) as usize).filter(|_| !r.one_in(3));
    let floor = one(r).map_or(0, |p| beside(r, p.prominence.to_bits()));
    let apart = |p: &ImPeak1D| peaks.iter().map(|q| q.scan.abs_diff(p.scan) as u32).filter(|d| *d > 0).min();
    let distance = one(r).and_then(apart).map_or(0, |d| beside(r, d));
    let width = one(r).map_or(0, |p| beside(r, p.width_scans as u32));
    (f32::from_bits(floor), distance, width)
}

/// One of document 01's cases: an unsmoothed row over scans from 0, least width 0.
pub fn case(raw: Vec<f32>, min_prom: f32, min_distance: u32) -> Row {
    let n = raw.len();
    Row {
        smoothed: raw.clone(),
        raw,
        place: [0, 1, 0, 1],
        bounds: [0; 4],
        group: None,
        mobility: Vec::new(),
        min_prom,
        min_distance,
        min_width: 0,
        axis: (0..n as u32).collect(),
        first: 0,
        room: WORDS * most(n),
    }
}

pub fn sample(r: &mut Rng) -> Row {
    let n = if r.one_in(4_000) { 16_383 + r.below(3) as usize } else { length(r) };
    let raw = row(r, n);
    let mut smoothed = raw.clone();
    if r.one_in(2) {
        let (s, t) = sigma(r);
        unturned::utility::smooth_vector_gaussian(&mut smoothed, s, t);
    }
    around(r, smoothed, raw)
}

/// A row of one of the shapes, smoothed or not, the raw one the same or another, with limits near those of its peaks.
fn shaped(r: &mut Rng) -> Row {
    let n = limit(r);
    let mut smoothed = shapes::row(r, n);
    let raw = if r.one_in(4) { shapes::row(r, n) } else { smoothed.clone() };
    if r.one_in(2) {
        let (s, t) = counted(r);
        smooth_vector_gaussian(&mut smoothed, s, t);
    }
    let mut row = around(r, smoothed, raw);
    if r.one_in(2) {
        (row.min_prom, row.min_distance, row.min_width) = near(r, &unfiltered(&row.smoothed));
    }
    row
}

/// What else the row finder is handed.
fn around(r: &mut Rng, smoothed: Vec<f32>, raw: Vec<f32>) -> Row {
    let n = raw.len();
    let mut next = r.below(100) as u32;
    let axis = (0..n)
        .map(|_| {
            next += 1 + if r.one_in(5) { r.below(3) as u32 } else { 0 };
            next
        })
        .collect();
    let mobility = if r.one_in(2) { (0..n).map(|_| r.below(2048) as f32 / 1024.0).collect() } else { Vec::new() };
    let (rt, ids) = (r.below(16_384) as u32, r.next() as u32);
    let min_prom = floor(r, &smoothed);
    let any_first = r.next() as u32;
    let first = r.pick(&[0, 1, any_first, u32::MAX - most(n).max(1) as u32 + 1]);
    Row {
        place: [r.below(4_194_304) as u32, r.below(4_259_840) as u32, r.below(4_259_840) as u32, r.below(4_259_840) as u32],
        bounds: [rt, rt + r.below(16_384 - rt as u64) as u32, ids, ids + r.below(u32::MAX as u64 - ids as u64 + 1) as u32],
        group: r.one_in(2).then(|| r.next() as u32),
        min_distance: r.pick(&[0, 0, 1, 2, 3, 4, 7, 65_535]),
        min_width: r.pick(&[0, 0, 0, 1, 2, 3, 65_535]),
        first,
        room: WORDS * most(n) + r.below(3) as usize,
        smoothed,
        raw,
        mobility,
        min_prom,
        axis,
    }
}

/// Spoils one thing, so that a number applies as a rule.
pub fn spoil(r: &mut Rng, row: &mut Row) {
    let n = row.smoothed.len();
    let at = r.below(n.max(1) as u64) as usize;
    match r.below(16) {
        0 => row.raw.push(1.0),
        1 => row.axis.push(65_535),
        2 => row.mobility.push(1.0),
        3 if n > 0 => row.smoothed[at] = any(r),
        4 if at < row.raw.len() => row.raw[at] = any(r),
        5 => row.min_prom = any(r),
        6 => row.min_distance = r.pick(&[65_535, 65_536, u32::MAX]),
        7 => row.min_width = r.pick(&[65_535, 65_536, u32::MAX]),
        8 if at < row.mobility.len() => row.mobility[at] = any(r),
        9 => row.bounds[r.below(4) as usize] = r.next() as u32,
        10 => row.place[r.below(4) as usize] = r.pick(&[4_194_303, 4_194_304, 4_259_839, 4_259_840, u32::MAX]),
        11 => row.first = u32::MAX - r.below(4) as u32,
        12 if at < row.axis.len() => row.axis[at] = r.pick(&[0, 65_535, 65_536]),
        13 if at < row.axis.len() => row.axis.swap(at, 0),
        14 => row.room = row.room.saturating_sub(1 + r.below(40) as usize),
        _ => {}
    }
}

/// Rows on both sides of a rule, or at a limit and one past it.
pub fn edges() -> Vec<(&'static str, Row)> {
    let row = |change: &dyn Fn(&mut Row)| {
        let mut row = case(vec![0.0, 4.0, 0.0, 8.0, 0.0], 0.0, 0);
        row.mobility = vec![1.0; 5];
        change(&mut row);
        row
    };
    vec![
        ("a raw maximum at the floor, and above it", row(&|w| w.min_prom = 8.0)),
        ("the same one past it", row(&|w| w.min_prom = 8.000001)),
        ("a raw maximum below the floor, the smoothed one above", row(&|w| (w.raw, w.min_prom) = (vec![3.0; 5], 4.0))),
        ("a smoothed row that is longer", row(&|w| w.smoothed.push(0.0))),
        ("a raw row that is shorter", row(&|w| w.raw.truncate(4))),
        ("a raw row that is longer", row(&|w| w.raw.push(0.0))),
        ("a scan axis that is shorter", row(&|w| w.axis.truncate(4))),
        ("a scan axis that is longer", row(&|w| w.axis.push(9))),
        ("a mobility table that is shorter", row(&|w| w.mobility.truncate(4))),
        ("a mobility table that is longer", row(&|w| w.mobility.push(1.0))),
        ("the highest smoothed reading", row(&|w| w.smoothed[3] = 8589934592.0)),
        ("one past it", row(&|w| w.smoothed[3] = 8589935616.0)),
        ("the highest raw reading", row(&|w| w.raw[3] = 4294967296.0)),
        ("one past it", row(&|w| w.raw[3] = 4294967808.0)),
        ("the highest floor", row(&|w| w.min_prom = 8589934592.0)),
        ("one past it", row(&|w| w.min_prom = 8589935616.0)),
        ("the greatest least distance", row(&|w| w.min_distance = 65_535)),
        ("one past it", row(&|w| w.min_distance = 65_536)),
        ("the greatest least width", row(&|w| w.min_width = 65_535)),
        ("one past it", row(&|w| w.min_width = 65_536)),
        ("the highest mobility", row(&|w| w.mobility[3] = 1048576.0)),
        ("one past it", row(&|w| w.mobility[4] = 1048576.1)),
        ("equal frames and frame numbers", row(&|w| w.bounds = [5, 5, 6, 6])),
        ("reversed frames", row(&|w| w.bounds = [6, 5, 6, 6])),
        ("reversed frame numbers", row(&|w| w.bounds = [5, 5, 7, 6])),
        ("the highest frame", row(&|w| w.bounds[1] = 16_383)),
        ("one past it", row(&|w| w.bounds[1] = 16_384)),
        ("the highest TOF row, centre and bounds", row(&|w| w.place = [4_194_303, 4_259_839, 4_259_839, 4_259_839])),
        ("one past it, the row", row(&|w| w.place[0] = 4_194_304)),
        ("one past it, the centre", row(&|w| w.place[1] = 4_259_840)),
        ("one past it, the higher bound", row(&|w| w.place[3] = 4_259_840)),
        ("the last identities", row(&|w| w.first = u32::MAX - 1)),
        ("one past them", row(&|w| w.first = u32::MAX)),
        ("the highest scan", row(&|w| w.axis[4] = 65_535)),
        ("one past it", row(&|w| w.axis[4] = 65_536)),
        ("equal scans", row(&|w| w.axis[3] = 2)),
        ("a place too few", row(&|w| w.room -= WORDS)),
    ]
}

/// Rows to smooth, at a limit and one past it: the row, weights, the sigma and the truncation that make them, and scratch.
pub fn smoothing_edges() -> Vec<(Vec<f32>, Vec<f32>, f32, f32, usize)> {
    let (s, k) = (1.0, 2.0);
    let five = gaussian(s, k);
    let with = |at: usize, w: f32| {
        let mut weights = five.clone();
        weights[at] = w;
        weights
    };
    let row = |top: f32| vec![1.0, top, 3.0];
    vec![
        (row(4294967296.0), five.clone(), s, k, 3),
        (row(4294967808.0), five.clone(), s, k, 3),
        (row(2.0), five.clone(), s, k, 2),
        (row(2.0), five[..4].to_vec(), s, k, 3),
        (row(2.0), [&five[..], &five[..1]].concat(), s, k, 3),
        (row(2.0), vec![1.0; 3], 1e6, 1e-6, 3),
        (row(2.0), with(0, 1.0000001), s, k, 3),
        (row(2.0), with(2, 0.99999994), s, k, 3),
        (row(2.0), Vec::new(), s, k, 3),
        (row(2.0), [1.0, 0.5, 0.5, 0.5].to_vec(), s, k, 3),
        (row(2.0), [0.5, 0.5, 1.0, 0.5].to_vec(), s, k, 3),
    ]
}

pub fn compare(t: &mut Tally, count: u64) {
    let mut r = Rng::new(5);
    for (_, row) in edges() {
        same_row(t, &mut Rng::new(0), &row);
        t.corners += 1;
    }
    for (v, weights, s, k, scratch) in smoothing_edges() {
        same_smoothed(t, v, weights, s, k, vec![0.5; scratch]);
        t.corners += 1;
    }
    for _ in 0..count {
        let mut row = if r.one_in(20) { shaped(&mut r) } else { sample(&mut r) };
        while r.one_in(3) {
            spoil(&mut r, &mut row);
        }
        same_row(t, &mut r, &row);
    }
    for _ in 0..count / 4 {
        same_smoothing(t, &mut r);
    }
}

fn same_row(t: &mut Tally, r: &mut Rng, row: &Row) {
    let before: Vec<u32> = (0..row.room).map(|_| r.next() as u32).collect();
    let mut out = before.clone();
    let port = probe::find_im_peaks_row(row, &mut out);
    let shown = Row { smoothed: row.smoothed[..row.smoothed.len().min(24)].to_vec(), raw: Vec::new(), axis: Vec::new(), ..row.clone() };
    let (number, mut expected) = (row.number(), before);
    let mut count = 0;
    if number == 0 {
        let list = row.peaks();
        count = list.len() / WORDS;
        expected[..list.len()].copy_from_slice(&list);
    }
    t.same("row: number and count", &shown, port, (number, count));
    t.same("row: list", &shown, out, expected);
}

fn same_smoothing(t: &mut Tally, r: &mut Rng) {
    let shaped = r.one_in(20);
    let n = if r.one_in(2_000) { 16_383 + r.below(3) as usize } else if shaped { limit(r) } else { length(r) };
    let mut v = if shaped { shapes::row(r, n) } else { row(r, n) };
    let (s, k) = if shaped { counted(r) } else { sigma(r) };
    let mut weights = gaussian(s, k);
    let mut scratch: Vec<f32> = (0..n + r.below(3) as usize).map(|_| r.below(100) as f32).collect();
    if r.one_in(6) {
        let middle = weights.len() / 2;
        match r.below(8) {
            0 if n > 0 => v[r.below(n as u64) as usize] = any(r),
            1 => weights.push(0.0),
            2 => weights.clear(),
            3 => weights = vec![1.0; 259],
            4 => weights[middle] = r.pick(&[0.99999994, 1.0000001, 0.0, -0.0]),
            5 => weights[0] = any(r),
            6 => scratch.truncate(n.saturating_sub(1)),
            _ => {}
        }
    }
    same_smoothed(t, v, weights, s, k, scratch);
}

/// Compares a row that is smoothed by weights, which sigma and truncation make, or others.
fn same_smoothed(t: &mut Tally, mut v: Vec<f32>, weights: Vec<f32>, s: f32, k: f32, mut scratch: Vec<f32>) {
    let n = v.len();
    let number = smooth_number(&v, &weights, scratch.len());
    let (mut port_v, mut port_scratch) = (v.clone(), scratch.clone());
    let port = probe::smooth_vector_gaussian(&mut port_v, &weights, &mut port_scratch);
    if number == 0 {
        let mut rust = weighted_means(&v, &weights);
        if weights == gaussian(s, k) {
            rust = v.clone();
            smooth_vector_gaussian(&mut rust, s, k);
        }
        scratch[..n].copy_from_slice(&rust);
        v = rust;
    }
    let words = |l: &[f32]| l.iter().map(|x| bits(*x)).collect::<Vec<_>>();
    let shown = (n, s, k, weights.len());
    t.same("smoothing: number", &shown, port, number);
    t.same("smoothing: row", &shown, words(&port_v), words(&v));
    t.same("smoothing: scratch", &shown, words(&port_scratch), words(&scratch));
}

/// What the Rust does with its weights, for weights that it would not make.
pub fn weighted_means(v: &[f32], weights: &[f32]) -> Vec<f32> {
    let sum = weights.iter().fold(0.0f32, |a, w| a + w);
    let radius = weights.len() / 2;
    let mean = |i: usize| {
        let (mut acc, mut norm) = (0.0f32, 0.0f32);
        for (k, w) in weights.iter().enumerate() {
            if i + k >= radius && i + k - radius < v.len() {
                acc += w / sum * v[i + k - radius];
                norm += w / sum;
            }
        }
        acc / norm
    };
    (0..v.len()).map(mean).collect()
}

/// Document 01's number for a row to smooth, 0 for none.
pub fn smooth_number(v: &[f32], weights: &[f32], scratch: usize) -> u32 {
    if v.len() > 16_384 {
        2
    } else if !v.iter().all(|x| in_range(*x, 4294967296.0)) {
        3
    } else if !sound_weights(weights) {
        6
    } else if scratch < v.len() {
        21
    } else {
        0
    }
}

pub fn sound_weights(weights: &[f32]) -> bool {
    weights.len() % 2 == 1 && weights.len() <= 257 && weights.iter().all(|w| in_range(*w, 1.0)) && weights[weights.len() / 2] == 1.0
}
