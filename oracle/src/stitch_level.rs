//! Stitching through the C entry, answers and refusals, with all six lent buffers compared before and after. The Rust has no
//! owner column; which peak went where it tells by marks (`owned`).
use crate::cluster::peak::ImPeak1D;
use crate::cluster::utility::{self, stitch_im_peaks_flat_unordered_impl};
use crate::inputs::{any, Rng};
use crate::leaves::in_range;
use crate::records::{sound, WORDS};
use crate::{words, Tally};
use rubzolena::{stitch_into, Scratch, StitchParams};
use std::collections::HashSet;
use std::sync::Arc;

/// A call: records, parameters, and the words of list, owner column and the four scratch buffers that are lent.
#[derive(Clone, Debug)]
pub struct Call {
    pub list: Vec<u32>,
    pub params: StitchParams,
    pub rooms: [usize; 6],
}

impl Call {
    /// With just as much room as is asked for.
    pub fn new(list: Vec<u32>, params: StitchParams) -> Self {
        let n = list.len() / WORDS;
        Call { list, params, rooms: [n * WORDS, n, n, n, n * WORDS, n * WORDS] }
    }

    pub fn count(&self) -> usize {
        self.list.len() / WORDS
    }

    fn records(&self) -> impl Iterator<Item = &[u32]> {
        self.list.chunks_exact(WORDS)
    }

    /// Document 01's number, 0 for none.
    pub fn number(&self) -> u32 {
        let (n, p, [out, owners, order, groups, keys, merged]) = (self.count(), &self.params, self.rooms);
        let counts = [p.min_overlap_frames, p.max_scan_delta, p.max_tof_row_delta, p.min_im_overlap_scans];
        if self.list.len() % WORDS != 0 {
            return 1;
        }
        if n > 65_536 {
            return 2;
        }
        if counts.iter().any(|c| *c > 65_535) || !in_range(p.jaccard_min, 1.0) || !in_range(p.im_jaccard_min, 1.0) {
            return 4;
        }
        if self.records().map(|w| w[26]).collect::<HashSet<u32>>().len() != n {
            return 8;
        }
        if !self.records().all(sound) {
            return 9;
        }
        if out < n * WORDS || owners < n {
            return 20;
        }
        if order < n || groups < n || keys < n * WORDS || merged < n * WORDS {
            return 21;
        }
        0
    }

    pub fn peaks(&self) -> Vec<ImPeak1D> {
        self.records().map(peak).collect()
    }

    /// The words of the peaks that the Rust gives.
    pub fn stitched(&self) -> Vec<u32> {
        stitched(&self.peaks(), &self.params).iter().flat_map(|p| words::words(p, p.id as u32)).collect()
    }

    pub fn owners(&self) -> Vec<u32> {
        owners(self.peaks(), &self.params)
    }

    /// A start for each lent buffer.
    pub fn buffers(&self) -> [Vec<u32>; 6] {
        self.rooms.map(|n| (0..n).map(|k| k as u32 ^ 0x5555_5555).collect())
    }

    pub fn port(&self, buffers: &mut [Vec<u32>; 6]) -> Result<usize, u32> {
        let [out, owners, order, groups, keys, merged] = buffers;
        stitch_into(&self.list, self.params, out, owners, Scratch { order, groups, keys, merged })
    }
}

/// The Rust's peak of a record.
pub fn peak(w: &[u32]) -> ImPeak1D {
    let has = |bit: u32| w[8] & bit != 0;
    let float = |k: usize| f32::from_bits(w[k]);
    ImPeak1D {
        tof_row: w[0] as usize,
        tof_center: w[1] as i32,
        tof_bounds: (w[2] as i32, w[3] as i32),
        rt_bounds: (w[4] as usize, w[5] as usize),
        frame_id_bounds: (w[6], w[7]),
        window_group: has(1).then_some(w[9]),
        scan: w[10] as usize,
        left: w[11] as usize,
        right: w[12] as usize,
        scan_abs: w[13] as usize,
        left_abs: w[14] as usize,
        right_abs: w[15] as usize,
        scan_sigma: has(4).then_some(float(16)),
        mobility: has(2).then_some(float(17)),
        apex_smoothed: float(18),
        apex_raw: float(19),
        prominence: float(20),
        left_x: float(21),
        right_x: float(22),
        width_scans: w[23] as usize,
        area_raw: float(24),
        subscan: float(25),
        id: w[26] as i64,
    }
}

pub fn rust_params(p: &StitchParams) -> utility::StitchParams {
    utility::StitchParams {
        min_overlap_frames: p.min_overlap_frames as usize,
        max_scan_delta: p.max_scan_delta as usize,
        jaccard_min: p.jaccard_min,
        max_tof_row_delta: p.max_tof_row_delta as usize,
        allow_cross_groups: p.allow_cross_groups,
        min_im_overlap_scans: p.min_im_overlap_scans as usize,
        im_jaccard_min: p.im_jaccard_min,
        require_mutual_apex_inside: p.require_mutual_apex_inside,
    }
}

fn stitched(peaks: &[ImPeak1D], p: &StitchParams) -> Vec<ImPeak1D> {
    stitch_im_peaks_flat_unordered_impl(peaks.iter().cloned().map(Arc::new).collect(), &rust_params(p))
}

/// The lowest and the highest mark of each stitched peak's members. The Rust decides nothing by frame numbers, and gives a
/// stitched peak the lowest and the highest of its members', so that they can bear the marks.
fn marks(peaks: &mut [ImPeak1D], p: &StitchParams, mark: impl Fn(usize) -> (u32, u32)) -> Vec<(u32, u32)> {
    for (k, peak) in peaks.iter_mut().enumerate() {
        peak.frame_id_bounds = mark(k);
    }
    stitched(peaks, p).iter().map(|s| s.frame_id_bounds).collect()
}

/// For each peak the place of its stitched one, for short lists: each peak bears its place as a mark, so that a stitched peak
/// names two members; these then lose their marks, and so on, till all are named.
fn owners(mut peaks: Vec<ImPeak1D>, p: &StitchParams) -> Vec<u32> {
    const NONE: u32 = u32::MAX;
    let mut owners = vec![NONE; peaks.len()];
    while owners.contains(&NONE) {
        let named = marks(&mut peaks, p, |k| if owners[k] == NONE { (k as u32, k as u32) } else { (NONE, 0) });
        for (j, (a, b)) in named.into_iter().enumerate() {
            if a <= b {
                (owners[a as usize], owners[b as usize]) = (j as u32, j as u32);
            }
        }
    }
    owners
}

/// Whether those are the owners, for lists of any length: each peak bears its owner as a mark, and then every member of the
/// stitched peak j must have borne j.
fn owned(mut peaks: Vec<ImPeak1D>, p: &StitchParams, owners: &[u32]) -> bool {
    marks(&mut peaks, p, |k| (owners[k], owners[k])).into_iter().enumerate().all(|(j, m)| m == (j as u32, j as u32))
}

/// How the peaks of a list lie: a few clusters, each with a place of its own and a reach about it.
struct Cluster {
    row: u32,
    scan: u32,
    scan_abs: u32,
    rt: u32,
    group: u32,
}

/// A place from 0 to top, mostly with that much room above it: at an end, about a multiple of a width, or anywhere.
fn place(r: &mut Rng, top: u32, width: u32, reach: u32) -> u32 {
    let last = top.saturating_sub(reach) as u64;
    let at = match r.below(6) {
        0 => r.below(3),
        1 => last + r.below(3),
        2 | 3 => (1 + r.below(top as u64 / width as u64 + 1)) * width as u64 - r.below(reach as u64 + 1),
        _ => r.below(last + 1),
    };
    at.min(top as u64) as u32
}

/// A share that overlaps of a few frames or scans meet exactly, or that they just miss or just pass; or 0, mostly.
fn share(r: &mut Rng) -> f32 {
    let union = 1 + r.below(9);
    let met = (1 + r.below(union)) as f32 / union as f32;
    match r.below(12) {
        0..=6 => 0.0,
        7..=9 => met,
        10 => f32::from_bits(met.to_bits() - 1),
        _ => r.pick(&[f32::from_bits(met.to_bits() + 1).min(1.0), 1.0, f32::from_bits(1)]),
    }
}

pub fn params(r: &mut Rng) -> StitchParams {
    let overlap = |r: &mut Rng| if r.one_in(40) { 65_535 } else { r.pick(&[0, 0, 0, 1, 1, 1, 2, 3, 5]) };
    let delta = |r: &mut Rng| r.pick(&[0, 0, 1, 1, 2, 3, 4, 7, 30, 1_000, 65_535]);
    StitchParams {
        min_overlap_frames: overlap(r),
        max_scan_delta: delta(r),
        jaccard_min: share(r),
        max_tof_row_delta: delta(r),
        allow_cross_groups: r.one_in(3),
        min_im_overlap_scans: overlap(r),
        im_jaccard_min: share(r),
        require_mutual_apex_inside: r.one_in(4),
    }
}

/// Identities, all different: rising, from the highest down, or in no order.
fn identities(r: &mut Rng, n: usize) -> Vec<u32> {
    let (kind, start, odd) = (r.below(4), r.next() as u32, r.next() as u32 | 1);
    let mut ids: Vec<u32> = (0..n as u32)
        .map(|k| match kind {
            0 => k,
            1 => u32::MAX - k,
            _ => k.wrapping_mul(odd).wrapping_add(start),
        })
        .collect();
    if kind == 3 {
        ids.sort_unstable();
    }
    ids
}

/// Two ends about a place, mostly with it between them, from 0 to top.
fn ends(r: &mut Rng, at: u32, reach: u64, top: u32) -> [u32; 2] {
    let (a, b) = (at.saturating_sub(r.below(reach + 1) as u32), (at + r.below(reach + 1) as u32).min(top));
    match r.below(12) {
        0 => [b, b],
        1 => [a, a],
        _ => [a, b],
    }
}

/// An area: below 1, small, of any size, or about a value.
fn area(r: &mut Rng, kind: u64) -> f32 {
    match kind {
        0 => r.pick(&[0.0, 1e-45, 0.25, 0.5, 0.99999994, 1.0, 1.0000001]),
        1 => r.below(40) as f32 / 4.0,
        2 => f32::from_bits(r.below(0x5880_0001) as u32),
        3 => 7.0,
        4 => r.below(1 << 40) as f32 / 1024.0,
        _ => {
            let kind = r.below(5);
            area(r, kind)
        }
    }
}

/// A list of n sound records whose peaks lie in clusters, so that some may be joined in the first pass, some in the second.
pub fn list(r: &mut Rng, n: usize, p: &StitchParams) -> Vec<u32> {
    let reach = |r: &mut Rng, delta: u32| r.pick(&[0, 1, 2, 4, 9, delta, delta.saturating_add(1), 2 * delta.min(9) + 1]).min(9_000);
    let (rows, scans) = (reach(r, p.max_tof_row_delta), reach(r, p.max_scan_delta));
    let (frames, length) = (r.below(4), r.below(9));
    let (wide, wide_abs) = (r.pick(&[0, 2, 4, 7, 12]), r.pick(&[0, 2, 4, 7, 12]));
    let (stride, shift) = (r.pick(&[1, 1, 2, 3]), r.below(4));
    let (areas, groups, values) = (r.below(6), r.below(4), 1 + r.below(50));
    let count = match r.below(6) {
        0 | 1 => 1,
        2 => 2 + r.below(3) as usize,
        3 | 4 => 1 + n / 6,
        _ => 1 + n / 3,
    };
    let far = r.next() as u32;
    let clusters: Vec<Cluster> = (0..count)
        .map(|_| Cluster {
            row: place(r, 4_194_303, p.max_tof_row_delta.saturating_add(1), rows),
            scan: place(r, 16_383, p.max_scan_delta.max(1), scans),
            scan_abs: place(r, 65_535, p.max_scan_delta.max(1), scans),
            rt: place(r, 16_383, 1, 8),
            group: r.pick(&[0, 1, far, u32::MAX]),
        })
        .collect();
    let mut ids = identities(r, n).into_iter();
    let mut records: Vec<Vec<u32>> = (0..n)
        .map(|_| {
            let c = &clusters[r.below(count as u64) as usize];
            let up = r.below(scans as u64 + 1) as u32;
            let scan = (c.scan + up).min(16_383);
            let scan_abs = (c.scan_abs + up * stride + r.below(shift + 1) as u32).min(65_535);
            let rt = (c.rt + r.below(frames + 1) as u32).min(16_383);
            let rt_hi = (rt + r.below(length + 1) as u32).min(16_383);
            let grouped = if groups == 0 { r.one_in(2) } else { groups > 1 };
            let group = if groups == 3 { r.pick(&[0, 1]) } else { c.group };
            let flags = grouped as u32 | r.below(4) as u32 * 2;
            // the word of a missing field is not looked at, whatever it holds
            let float = |r: &mut Rng, there: bool| match r.below(2) {
                _ if !there => r.next() as u32,
                0 => r.below(0x4980_0001) as u32,
                _ => (r.below(1 << 20) as f32 / 1024.0).to_bits(),
            };
            let height = |r: &mut Rng| if r.one_in(2) { (r.below(values) as f32).to_bits() } else { r.below(0x5000_0001) as u32 };
            let rows = (c.row + r.below(rows as u64 + 1) as u32).min(4_194_303);
            let anywhere = r.below(4_259_840) as u32;
            let tof = r.pick(&[rows, anywhere, 4_259_839]);
            let tofs = ends(r, tof, 5, 4_259_839);
            let frame = r.next() as u32 >> r.below(32);
            let mut w = vec![rows, tof, tofs[0], tofs[1], rt, rt_hi, frame, frame.saturating_add(r.below(9) as u32)];
            let rubbish = r.next() as u32;
            w.extend([flags, if grouped { group } else { r.pick(&[0, group, rubbish]) }, scan]);
            w.extend(ends(r, scan, wide, 16_383));
            w.push(scan_abs);
            w.extend(ends(r, scan_abs, wide_abs, 65_535));
            w.extend([float(r, flags & 4 != 0), float(r, flags & 2 != 0)]);
            w.extend([height(r), height(r), height(r)]);
            let x = r.below(0x477f_ff01) as u32;
            w.extend([x, x + r.below(0x477f_ff01 - x as u64) as u32, r.below(65_537) as u32]);
            let (part, tiny) = ((r.below(1_001) as f32 / 2_000.0).to_bits(), r.below(0x3f00_0001) as u32);
            let subscan = r.pick(&[0, 0x3f00_0000, part, part, part, tiny]) | r.pick(&[0, 1 << 31]);
            w.extend([area(r, areas).to_bits(), subscan, ids.next().unwrap()]);
            w
        })
        .collect();
    if r.one_in(4) {
        records.sort_by_key(|w| (w[0], w[10]));
    }
    records.concat()
}

/// How many peaks a list has: mostly few, at times hundreds, seldom about a size at which the port may change its way.
fn size(r: &mut Rng) -> usize {
    match r.below(2_000) {
        0..=9 => 0,
        10..=49 => 1,
        50..=1_399 => 2 + r.below(9) as usize,
        1_400..=1_899 => 11 + r.below(40) as usize,
        1_900..=1_989 => 51 + r.below(250) as usize,
        1_990..=1_996 => r.pick(&[63, 64, 65, 127, 128, 129, 255, 256, 257, 511, 512, 513]),
        1_997..=1_998 => r.pick(&[1_023, 1_024, 1_025, 2_047, 2_048, 2_049]),
        _ => 300 + r.below(3_000) as usize,
    }
}

pub fn sample(r: &mut Rng, n: usize) -> Call {
    let params = params(r);
    let mut call = Call::new(list(r, n, &params), params);
    call.rooms = call.rooms.map(|room| room + r.below(4) as usize * r.below(14) as usize);
    call
}

/// The highest value of each word.
pub const TOPS: [u32; WORDS] = [
    4_194_303, 4_259_839, 4_259_839, 4_259_839, 16_383, 16_383, u32::MAX, u32::MAX, 7, u32::MAX, 16_383, 16_383, 16_383, 65_535,
    65_535, 65_535, 0x4980_0000, 0x4980_0000, 0x5000_0000, 0x5000_0000, 0x5000_0000, 0x477f_ff00, 0x477f_ff00, 65_536, 0x5880_0000,
    0x3f00_0000, u32::MAX,
];

pub fn spoil(r: &mut Rng, c: &mut Call) {
    let (n, p) = (c.count() as u64, &mut c.params);
    let at = r.below(n.max(1)) as usize * WORDS;
    let (high, bad) = (r.pick(&[65_536, 65_536, u32::MAX]), any(r));
    match r.below(20) {
        0 => c.list.truncate(c.list.len().saturating_sub(1 + r.below(30) as usize)),
        1 => c.list.extend(0..r.below(30) as u32),
        2 if r.one_in(30) => c.list = vec![0; 65_537 * WORDS],
        2 => p.min_overlap_frames = high,
        3 => p.max_scan_delta = high,
        4 => p.max_tof_row_delta = high,
        5 => p.min_im_overlap_scans = high,
        6 => p.jaccard_min = r.pick(&[bad, -0.0, 1.0000001]),
        7 => p.im_jaccard_min = r.pick(&[bad, -0.0, 1.0000001]),
        8 => c.rooms[0] = r.pick(&[0, (c.rooms[0]).saturating_sub(1), (n as usize * WORDS).saturating_sub(1)]),
        9 => c.rooms[1] = r.pick(&[0, (n as usize).saturating_sub(1)]),
        10 | 11 => {
            let k = 2 + r.below(4) as usize;
            let enough = if k < 4 { n as usize } else { n as usize * WORDS };
            c.rooms[k] = r.pick(&[0, enough.saturating_sub(1)]);
        }
        _ if n == 0 => {}
        12 | 13 => c.list[r.below(n) as usize * WORDS + 26] = c.list[at + 26],
        14 => {
            let k = r.pick(&[2, 4, 6, 11, 14, 21]);
            c.list.swap(at + k, at + k + 1);
        }
        _ => {
            let k = r.below(WORDS as u64) as usize;
            c.list[at + k] = match r.below(5) {
                0 => r.next() as u32,
                1 => any(r).to_bits(),
                2 => TOPS[k],
                3 => 0,
                _ => TOPS[k].wrapping_add(1),
            };
        }
    }
}

/// Compares a call: the answer, and what each buffer holds afterwards. What scratch holds within the words that are asked for is
/// left open where the call is accepted.
fn one(t: &mut Tally, c: &Call) {
    let (mut after, mut expected) = (c.buffers(), c.buffers());
    let port = c.port(&mut after);
    let (n, number) = (c.count(), c.number());
    let mut answer = Err(number);
    if number == 0 {
        let stitched = c.stitched();
        answer = Ok(stitched.len() / WORDS);
        expected[0][..stitched.len()].copy_from_slice(&stitched);
        if port.is_ok() {
            t.same("stitching: owners", &c.params, owned(c.peaks(), &c.params, &after[1][..n]), true);
        }
        for (k, open) in [(1, n), (2, n), (3, n), (4, n * WORDS), (5, n * WORDS)] {
            expected[k][..open].copy_from_slice(&after[k][..open]);
        }
    }
    let shown = (n, &c.params, c.rooms, if n < 4 { &c.list[..] } else { &[] });
    t.same("stitching: count or number", &shown, port, answer);
    let names = ["list", "past the owners", "order", "groups", "keys", "merged"];
    let changed: Vec<&str> = (0..6).filter(|k| after[*k] != expected[*k]).map(|k| names[k]).collect();
    t.same("stitching: buffers that are not as they should be", &shown, changed, Vec::new());
}

/// Lists with the corners of document 01 and of docs/DIFFERENCES.md, with what each shows.
pub fn corners() -> Vec<(&'static str, Call)> {
    let all = StitchParams { max_scan_delta: 100, max_tof_row_delta: 100, ..StitchParams::default() };
    let peak = |id: u32, change: &dyn Fn(&mut Vec<u32>)| {
        let mut w = vec![0; WORDS];
        (w[24], w[26]) = (1f32.to_bits(), id);
        change(&mut w);
        w
    };
    let call = |list: &[Vec<u32>]| Call::new(list.concat(), all);
    let rows = |a: [u32; 2], b: [u32; 2]| call(&[peak(1, &|w| [w[0], w[24]] = a), peak(2, &|w| [w[0], w[24]] = b)]);
    let top = 1125899906842624f32.to_bits();
    vec![
        ("a row that no member has: 0 and 2 give 1", rows([0, 0], [2, 0])),
        ("a row that lies outside of its members': 4,190,001 twice gives 4,190,002", rows([4_190_001, 65f32.to_bits()], [4_190_001, 1f32.to_bits()])),
        ("a row that number 9 refuses: 4,194,303 twice gives 4,194,304", rows([4_194_303, 0x491a_fa85], [4_194_303, 0x4995_ce30])),
        ("an area that number 9 refuses: 2^50 twice gives 2^51", rows([0, top], [0, top])),
        (
            "a scan outside of both members' bounds: 0 and 10 give 5",
            call(&[peak(1, &|w| w[12] = 1), peak(2, &|w| (w[10], w[11], w[12]) = (10, 9, 10))]),
        ),
        (
            "a lone peak: left_x, right_x and the width come from the absolute bounds, and minus zero becomes plus zero",
            call(&[peak(1, &|w| (w[14], w[15], w[22], w[25]) = (3, 5, 1f32.to_bits(), 1 << 31))]),
        ),
        ("a lone peak whose centre moves: 4,200,714 gives 4,200,715", call(&[peak(1, &|w| (w[1], w[24]) = (4_200_714, 0x537f_a16e))])),
        (
            "an absolute scan that number 9 refuses: 65,535, 511 times, gives 65,536",
            call(&(0..511).map(|id| peak(id, &|w| w[13] = 65_535)).collect::<Vec<_>>()),
        ),
        (
            "a row delta of 0: rows apart in the first pass, any row in the second",
            Call::new(rows([5, 0], [9, 0]).list, StitchParams { max_tof_row_delta: 0, ..all }),
        ),
    ]
}

/// Calls on both sides of a rule, or at a limit and one past it.
pub fn edges() -> Vec<(&'static str, Call)> {
    let near = StitchParams { max_scan_delta: 100, max_tof_row_delta: 100, ..StitchParams::default() };
    let peak = |id: u32, words: &[(usize, u32)]| {
        let mut w = vec![0; WORDS];
        (w[15], w[24], w[26]) = (9, 1f32.to_bits(), id);
        words.iter().for_each(|(k, v)| w[*k] = *v);
        w
    };
    let two = |a: &[(usize, u32)], b: &[(usize, u32)], change: &dyn Fn(&mut StitchParams)| {
        let mut params = near;
        change(&mut params);
        Call::new([peak(1, a), peak(2, b)].concat(), params)
    };
    let plain = || two(&[], &[], &|_| {});
    let count = |change: &dyn Fn(&mut StitchParams)| two(&[], &[], change);
    let inside = |a: [u32; 3], b: [u32; 3]| {
        let words = |[left, apex, right]: [u32; 3]| [(14, left), (13, apex), (15, right)];
        two(&words(a), &words(b), &|p| p.require_mutual_apex_inside = true)
    };
    let lent = |k: usize| {
        let mut call = plain();
        call.rooms[k] -= 1;
        call
    };
    let mut edges = vec![
        ("an apex to the left of the other peak", inside([0, 3, 10], [5, 6, 12])),
        ("an apex to the right of the other peak", inside([0, 3, 5], [0, 7, 10])),
        ("apexes at both ends of what overlaps", inside([0, 5, 9], [5, 9, 12])),
        ("the same, the other way round", inside([5, 9, 12], [0, 5, 9])),
        ("absolute spans that share one scan", inside([0, 5, 5], [5, 5, 9])),
        ("a merged scan of 2.5 is rounded up", two(&[(10, 2)], &[(10, 3)], &|_| {})),
        (
            "equal in all keys of the second pass but the identity, and the other way round after the first",
            Call::new(
                [peak(8, &[(0, 2)]), peak(9, &[(10, 1), (24, 3f32.to_bits())]), peak(3, &[(0, 1), (10, 1), (13, 50)])].concat(),
                StitchParams { max_scan_delta: 10, max_tof_row_delta: 2, ..near },
            ),
        ),
        (
            "rows 0, 2 and 4 in the second pass: neighbours match, the span of all does not",
            Call::new(
                [peak(1, &[]), peak(2, &[(0, 2), (10, 1)]), peak(3, &[(0, 4), (10, 2)])].concat(),
                StitchParams { max_scan_delta: 1, max_tof_row_delta: 2, ..near },
            ),
        ),
        ("a word too many", Call { list: [plain().list, vec![0]].concat(), ..plain() }),
        ("an identity twice", Call::new([peak(1, &[]), peak(1, &[])].concat(), near)),
        ("a record that number 9 refuses", two(&[(0, 4_194_304)], &[], &|_| {})),
        ("the highest min_overlap_frames", count(&|p| p.min_overlap_frames = 65_535)),
        ("one past it", count(&|p| p.min_overlap_frames = 65_536)),
        ("the highest max_scan_delta", count(&|p| p.max_scan_delta = 65_535)),
        ("one past it", count(&|p| p.max_scan_delta = 65_536)),
        ("the highest max_tof_row_delta", count(&|p| p.max_tof_row_delta = 65_535)),
        ("one past it", count(&|p| p.max_tof_row_delta = 65_536)),
        ("the highest min_im_overlap_scans", count(&|p| p.min_im_overlap_scans = 65_535)),
        ("one past it", count(&|p| p.min_im_overlap_scans = 65_536)),
        ("a share of frames of 1", count(&|p| p.jaccard_min = 1.0)),
        ("one past it", count(&|p| p.jaccard_min = 1.0000001)),
        ("a share of scans of 1", count(&|p| p.im_jaccard_min = 1.0)),
        ("one past it", count(&|p| p.im_jaccard_min = 1.0000001)),
    ];
    edges.extend(["the list", "owners", "order", "groups", "keys", "merged"].into_iter().enumerate().map(|(k, name)| (name, lent(k))));
    edges
}

pub fn compare(t: &mut Tally, count: u64) {
    for (_, call) in corners().into_iter().chain(edges()) {
        one(t, &call);
        t.corners += 1;
    }
    let mut r = Rng::new(8);
    for turn in 0..count {
        let longest = turn % 25_000 == 24_999;
        let n = if longest { 65_536 } else { size(&mut r) };
        let mut call = sample(&mut r, n);
        if longest {
            one(t, &call);
            let at = |r: &mut Rng| r.below(n as u64) as usize * WORDS + 26;
            let (a, b) = (at(&mut r), at(&mut r));
            call.list[a] = call.list[b];
        }
        while !longest && r.one_in(4) {
            spoil(&mut r, &mut call);
        }
        one(t, &call);
    }
}
