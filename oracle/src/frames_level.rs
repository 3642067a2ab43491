//! The frame index, marginals and traces through the C entries: frames, runs of frames and sums over them, answers and refusals, with all
//! lent buffers compared before and after. The Rust's own sort leaves the order of the points of a bin open, so that frames of more than
//! 20 points are compared with the Rust whose sort keeps it (`stable`, see build.rs); up to 20 points both are.
use crate::cluster::peak::{self as plain, FrameBinView};
use crate::cluster::utility::{build_im_marginal, build_rt_marginal};
use crate::inputs::{any, reading, Rng};
use crate::leaves::in_range;
use crate::records::sound;
use crate::stitch_level;
use crate::stable;
use crate::tof_level::{disagrees, rust_scale};
use crate::{bits, unturned, Tally};
use mscore::timstof::frame::{ImsFrame, TimsFrame};
use rubzolena::*;

/// The most points for which the Rust's own sort keeps their order.
const KEPT: usize = 20;

const HIGHEST: u32 = 4_194_303;

// ---- a frame

/// A call: points, scale, the count of scans, the points that the index has already, and the words of the seven lists that are lent.
#[derive(Clone, Debug)]
pub struct View {
    pub tofs: Vec<u32>,
    pub scans: Vec<u32>,
    pub readings: Vec<f32>,
    pub scale: TofScale,
    pub count: u32,
    pub base: usize,
    pub rooms: [usize; 7],
}

/// The seven lists: bins, offsets, scans, readings (as bits), and three of scratch.
pub type Buffers = [Vec<u32>; 7];

/// What an index has of a frame: bins, offsets, scans and readings, as bits.
pub type Part = [Vec<u32>; 4];

fn part(bins: &[usize], offsets: &[usize], scans: &[u32], readings: &[f32], base: usize) -> Part {
    [
        bins.iter().map(|b| *b as u32).collect(),
        offsets.iter().map(|o| (base + o) as u32).collect(),
        scans.to_vec(),
        readings.iter().map(|x| bits(*x)).collect(),
    ]
}

impl View {
    /// With just as much room as is asked for.
    pub fn new(points: &[(u32, u32, f32)], scale: TofScale, count: u32, base: usize) -> Self {
        let n = points.len();
        View {
            tofs: points.iter().map(|p| p.0).collect(),
            scans: points.iter().map(|p| p.1).collect(),
            readings: points.iter().map(|p| p.2).collect(),
            scale,
            count,
            base,
            rooms: [n, n + 1, n, n, n, n, n],
        }
    }

    pub fn frame(&self) -> Frame<'_> {
        Frame { tofs: &self.tofs, scans: &self.scans, readings: &self.readings }
    }

    /// Document 01's number, 0 for none.
    pub fn number(&self) -> u32 {
        let (n, s) = (self.tofs.len(), &self.scale);
        let [bins, offsets, scans, readings, keys, order, spare] = self.rooms;
        if self.scans.len() != n || self.readings.len() != n {
            return 1;
        }
        if self.base > 16_777_216 || self.base + n > 16_777_216 {
            return 2;
        }
        if !self.readings.iter().all(|x| in_range(*x, 4294967296.0)) {
            return 3;
        }
        if !(1..=65_536).contains(&s.tof_step) || self.count > 65_535 {
            return 4;
        }
        let tof = |t: &u32| *t <= HIGHEST;
        if !self.tofs.iter().all(tof) || !self.scans.iter().all(|s| *s <= 65_535) || !tof(&s.tof_min) || !tof(&s.tof_max) {
            return 5;
        }
        if bins < n || scans < n || readings < n || offsets < n + 1 {
            return 20;
        }
        if keys < n || order < n || spare < n {
            return 21;
        }
        if disagrees(s) { 22 } else { 0 }
    }

    pub fn rust_frame(&self) -> TimsFrame {
        TimsFrame {
            frame_id: 1,
            scan: self.scans.iter().map(|s| *s as i32).collect(),
            tof: self.tofs.iter().map(|t| *t as i32).collect(),
            ims_frame: ImsFrame { intensity: self.readings.iter().map(|x| *x as f64).collect() },
        }
    }

    /// The Rust's, with the sort that keeps the order.
    pub fn stable(&self) -> Part {
        let (s, r) = (rust_scale(&self.scale), self.rust_frame());
        let s = stable::utility::TofScale { tof_min: s.tof_min, tof_max: s.tof_max, tof_step: s.tof_step, edges: s.edges, centers: s.centers };
        let v = stable::peak::build_frame_bin_view(r, &s, self.count as usize);
        part(&v.unique_bins, &v.offsets, &v.scan_idx, &v.intensity, self.base)
    }

    /// The same, for an input that is made of it.
    fn part(&self) -> Part {
        let s = &self.scale;
        let edges: Vec<f32> = (0..=s.num_bins).map(|i| (s.tof_min + i * s.tof_step) as f32).collect();
        let centers = edges.windows(2).map(|e| 0.5 * (e[0] + e[1])).collect();
        let (tof_min, tof_max, tof_step) = (s.tof_min as i32, s.tof_max as i32, s.tof_step as i32);
        let s = unturned::utility::TofScale { tof_min, tof_max, tof_step, edges, centers };
        let v = unturned::peak::build_frame_bin_view(self.rust_frame(), &s, self.count as usize);
        part(&v.unique_bins, &v.offsets, &v.scan_idx, &v.intensity, self.base)
    }

    /// The Rust's, unchanged.
    fn plain(&self) -> Part {
        let v = plain::build_frame_bin_view(self.rust_frame(), &rust_scale(&self.scale), self.count as usize);
        part(&v.unique_bins, &v.offsets, &v.scan_idx, &v.intensity, self.base)
    }

    /// A start for each lent buffer.
    pub fn buffers(&self) -> Buffers {
        self.rooms.map(|n| (0..n).map(|k| k as u32 ^ 0x5555_5555).collect())
    }

    /// The port's answer, and what the buffers hold then.
    pub fn port(&self, buffers: &mut Buffers) -> Result<(usize, usize), u32> {
        let [bins, offsets, scans, readings, keys, order, spare] = buffers;
        let mut floats: Vec<f32> = readings.iter().map(|w| f32::from_bits(*w)).collect();
        let room = FrameRoom { bins, offsets, scans, readings: &mut floats };
        let answer = build_frame_bin_view_into(self.frame(), self.scale, self.count, self.base, room, FrameScratch { keys, order, spare });
        *readings = floats.iter().map(|x| x.to_bits()).collect();
        answer
    }
}

/// Compares a call: the answer, and what each buffer holds afterwards. What scratch holds within the words that are asked for is
/// left open where the call is accepted.
fn one(t: &mut Tally, c: &View) {
    let (mut after, mut expected) = (c.buffers(), c.buffers());
    let port = c.port(&mut after);
    let (n, number) = (c.tofs.len(), c.number());
    let shown = (n, c.scale, c.count, c.base, c.rooms, if n < 8 { (&c.tofs[..], &c.scans[..], &c.readings[..]) } else { Default::default() });
    let mut answer = Err(number);
    if number == 0 {
        let part = c.stable();
        answer = Ok((part[0].len(), part[2].len()));
        if part[2].len() <= KEPT {
            t.same("frame: the Rust's two sorts", &shown, &c.plain(), &part);
        }
        for (k, list) in part.iter().enumerate() {
            expected[k][..list.len()].copy_from_slice(list);
        }
        for k in 4..7 {
            expected[k][..n].copy_from_slice(&after[k][..n]);
        }
    }
    t.same("frame: counts or number", &shown, port, answer);
    let names = ["bins", "offsets", "scans", "readings", "keys", "order", "spare"];
    let changed: Vec<&str> = (0..7).filter(|k| after[*k] != expected[*k]).map(|k| names[k]).collect();
    t.same("frame: buffers that are not as they should be", &shown, changed, Vec::new());
}

// ---- inputs

/// A scale: mostly of few bins, at times up to the limits.
pub fn scale(r: &mut Rng) -> TofScale {
    let tof_step = match r.below(8) {
        0..=3 => 1,
        4 | 5 => 2 + r.below(6) as u32,
        6 => r.pick(&[1_000, 65_535, 65_536]),
        _ => 1 + r.below(65_536) as u32,
    };
    let most = HIGHEST / tof_step;
    let last = match r.below(6) {
        0 => 0,
        1 => r.below(most as u64 + 1).min(5_000) as u32,
        2 if r.one_in(200) => most,
        _ => r.below(40).min(most as u64) as u32,
    };
    let first = match r.below(4) {
        0 => 0,
        1 => most - last,
        _ => r.below((most - last) as u64 + 1) as u32,
    };
    TofScale { tof_min: first * tof_step, tof_max: (first + last) * tof_step, tof_step, num_bins: last + 1 }
}

/// TOF values of n points: how they lie to the bins and to one another.
fn tofs(r: &mut Rng, n: usize, s: &TofScale) -> Vec<u32> {
    let kind = r.below(8);
    let (low, high) = (s.tof_min, s.tof_max);
    let some = low + r.below((high - low) as u64 + 1) as u32;
    let few = 1 + r.below(4);
    (0..n)
        .map(|k| {
            let k = k as u32;
            match kind {
                // all in one bin
                0 => some - some % s.tof_step + r.below(s.tof_step as u64) as u32,
                // falling, rising
                1 => high.saturating_sub(k * s.tof_step / 2).max(low),
                2 => low.saturating_add(k * s.tof_step / 2).min(high),
                // a few bins
                3 => low + (r.below(few) as u32 * s.tof_step).min(high - low),
                // about the ends, in and out
                4 => r.pick(&[low, high]).saturating_add(r.below(3) as u32).saturating_sub(r.below(3) as u32).min(HIGHEST),
                // most without a bin
                5 if !r.one_in(6) => r.below(HIGHEST as u64 + 1) as u32,
                // anywhere in the scale, its last bin's upper part too
                _ => low + r.below((high - low) as u64 + s.tof_step as u64) as u32,
            }
            .min(HIGHEST)
        })
        .collect()
}

/// How many points a frame has.
pub fn size(r: &mut Rng) -> usize {
    match r.below(400) {
        0..=39 => r.below(3) as usize,
        40..=279 => 3 + r.below(18) as usize,
        280..=379 => 21 + r.below(80) as usize,
        380..=389 => r.pick(&[63, 64, 65, 127, 128, 129, 255, 256, 257]),
        390..=397 => 100 + r.below(200) as usize,
        398 => r.pick(&[511, 512, 513, 1_023, 1_024, 1_025, 2_047, 2_048, 2_049]),
        _ => 300 + r.below(3_000) as usize,
    }
}

/// A frame of n points.
pub fn sample(r: &mut Rng, n: usize, scale: TofScale, base: usize) -> View {
    let tofs = tofs(r, n, &scale);
    let count: u32 = r.pick(&[0, 1, 2, 10, 50, 700, 917, 65_534, 65_535]);
    let (wide, kind) = (r.pick(&[1, 3, 30, count as u64 + 2, 65_536]), r.below(11));
    let points: Vec<(u32, u32, f32)> = tofs
        .into_iter()
        .map(|t| {
            let edge = r.pick(&[count, count.saturating_sub(1), count + 1, 0, 65_535]);
            let scan = if r.one_in(8) { edge } else { r.below(wide) as u32 };
            let k = if kind == 10 { r.below(9) } else { kind.min(8) };
            (t, scan.min(65_535), reading(r, k))
        })
        .collect();
    View::new(&points, scale, count, base)
}

/// Makes something wrong, or brings it to its limit.
pub fn spoil(r: &mut Rng, c: &mut View) {
    let n = c.tofs.len();
    let at = r.below(n.max(1) as u64) as usize;
    match r.below(14) {
        0 => c.scans.truncate(n.saturating_sub(1)),
        1 => c.readings.extend([0.0]),
        2 => c.tofs.extend([0]),
        3 => c.base = r.pick(&[16_777_216, 16_777_217, 16_777_216usize.saturating_sub(n), 16_777_217usize.saturating_sub(n), usize::MAX]),
        4 => c.scale.tof_step = r.pick(&[0, 65_536, 65_537, u32::MAX, c.scale.tof_step + 1]),
        5 => c.count = r.pick(&[65_535, 65_536, u32::MAX]),
        6 => c.scale.tof_min = r.pick(&[c.scale.tof_min + 1, HIGHEST, HIGHEST + 1, u32::MAX, 0]),
        7 => c.scale.tof_max = r.pick(&[c.scale.tof_max + 1, HIGHEST, HIGHEST + 1, u32::MAX, 0]),
        8 => c.scale.num_bins = r.pick(&[c.scale.num_bins + 1, c.scale.num_bins - c.scale.num_bins.min(1), 0, u32::MAX]),
        9 | 10 => {
            let k = r.below(7) as usize;
            c.rooms[k] = r.pick(&[0, n.saturating_sub(1), n, n + (k == 1) as usize]);
        }
        _ if n == 0 => {}
        11 => c.tofs[at] = r.pick(&[HIGHEST, HIGHEST + 1, u32::MAX, 1 << 31]),
        12 => {
            if let Some(s) = c.scans.get_mut(at) {
                *s = r.pick(&[65_535, 65_536, u32::MAX]);
            }
        }
        _ => {
            let bad = any(r);
            if let Some(x) = c.readings.get_mut(at) {
                *x = r.pick(&[bad, -0.0, 4294967296.0, 4294967808.0, f32::NAN]);
            }
        }
    }
}

/// Frames with the corners of document 01 and of docs/DIFFERENCES.md, with what each shows.
pub fn corners() -> Vec<(&'static str, View)> {
    let s = |tof_min, tof_max, tof_step, num_bins| TofScale { tof_min, tof_max, tof_step, num_bins };
    let steps = s(0, 8, 4, 3);
    vec![
        ("no points", View::new(&[], s(0, 0, 1, 1), 0, 0)),
        ("no points behind others", View::new(&[], s(0, 0, 1, 1), 0, 16_777_216)),
        ("the lowest and the highest TOF of a scale, and those beside it", View::new(&[(8, 1, 1.0), (3, 2, 2.0), (9, 3, 4.0), (4, 4, 8.0), (0, 5, 16.0)], steps, 10, 0)),
        ("a reading in the last bin above its lower edge has no bin", View::new(&[(9, 1, 1.0), (10, 1, 1.0), (11, 1, 1.0)], steps, 10, 7)),
        ("scans at and above the count", View::new(&[(0, 8, 1.0), (0, 9, 1.0), (0, 10, 1.0), (0, 65_535, 1.0)], steps, 10, 0)),
        ("a count of 0 sends every scan to 0", View::new(&[(0, 5, 1.0), (4, 65_535, 1.0)], steps, 0, 0)),
        ("the highest count of scans moves the highest scan", View::new(&[(0, 65_534, 1.0), (0, 65_535, 1.0)], steps, 65_535, 0)),
        ("points of a bin keep their order", View::new(&[(1, 0, 3.0), (5, 0, 1.0), (0, 0, 16777216.0), (2, 0, 1.0), (1, 0, 1.0)], steps, 10, 2)),
        ("one point too many behind others", View::new(&[(0, 0, 1.0)], steps, 10, 16_777_216)),
        ("a reading above 2^32 of a point that has no bin", View::new(&[(9, 0, 4294967808.0)], steps, 10, 0)),
        ("no room for the end of the last bin", View { rooms: [1; 7], ..View::new(&[(0, 0, 1.0)], steps, 10, 0) }),
        ("the highest TOF there is", View::new(&[(4_194_303, 0, 4294967296.0), (4_194_302, 0, 0.0)], s(4_194_303, 4_194_303, 1, 1), 1, 16_777_214)),
    ]
}

/// Frames at a limit and one past it.
pub fn edges() -> Vec<(&'static str, View)> {
    let plain = View::new(&[(0, 1, 1.0), (5, 2, 2.0)], TofScale { tof_min: 0, tof_max: 8, tof_step: 4, num_bins: 3 }, 10, 0);
    let with = |change: &dyn Fn(&mut View)| {
        let mut call = plain.clone();
        change(&mut call);
        call
    };
    let scale = |tof_min, tof_max, tof_step, num_bins| with(&|c| c.scale = TofScale { tof_min, tof_max, tof_step, num_bins });
    let mut edges = vec![
        ("a scan too few", with(&|c| c.scans.truncate(1))),
        ("a scan too many", with(&|c| c.scans.push(0))),
        ("a reading too few", with(&|c| c.readings.truncate(1))),
        ("a reading too many", with(&|c| c.readings.push(0.0))),
        ("the most points", with(&|c| c.base = 16_777_214)),
        ("one past it", with(&|c| c.base = 16_777_215)),
        ("the highest reading", with(&|c| c.readings[1] = 4294967296.0)),
        ("one past it", with(&|c| c.readings[1] = 4294967808.0)),
        ("a step of 0", scale(0, 8, 0, 3)),
        ("the greatest step", scale(0, 65_536, 65_536, 2)),
        ("one past it", scale(0, 65_537, 65_537, 2)),
        ("the highest count of scans", with(&|c| c.count = 65_535)),
        ("one past it", with(&|c| c.count = 65_536)),
        ("the highest TOF", with(&|c| c.tofs[1] = HIGHEST)),
        ("one past it", with(&|c| c.tofs[1] = HIGHEST + 1)),
        ("the highest scan", with(&|c| c.scans[1] = 65_535)),
        ("one past it", with(&|c| c.scans[1] = 65_536)),
        ("the highest TOF of a scale", scale(HIGHEST, HIGHEST, 1, 1)),
        ("one past it", scale(0, HIGHEST + 1, 4, 3)),
        ("a lowest TOF past it", scale(HIGHEST + 1, 8, 4, 3)),
        ("a scale that disagrees", scale(0, 8, 4, 2)),
    ];
    // the Rust's own sort keeps the order of 20, not of these
    let turned: Vec<(u32, u32, f32)> = (0..21).map(|k| (if k == 0 { 4 } else { 0 }, k, k as f32)).collect();
    edges.push(("21 points in two bins keep their order", View::new(&turned, plain.scale, 21, 0)));
    let lent = |k: usize| with(&|c| c.rooms[k] -= 1);
    let names = ["bins", "offsets", "scans", "readings", "keys", "order", "spare"];
    edges.extend(names.into_iter().enumerate().map(|(k, name)| (name, lent(k))));
    edges
}

fn frames(t: &mut Tally, r: &mut Rng, count: u64) {
    for (_, call) in corners().into_iter().chain(edges()) {
        one(t, &call);
        t.corners += 1;
    }
    for _ in 0..count {
        let (n, scale) = (size(r), scale(r));
        let base = if r.one_in(2) { 0 } else { r.below(16_777_216 - n as u64) as usize };
        let mut call = sample(r, n, scale, base);
        call.rooms = call.rooms.map(|room| room + r.below(3) as usize * r.below(5) as usize);
        while r.one_in(4) {
            spoil(r, &mut call);
        }
        one(t, &call);
    }
}

// ---- a run of frames

/// Adds the Rust's part of a frame to an index.
fn join(index: &mut FrameIndex, c: &View) {
    let [bins, offsets, scans, readings] = c.part();
    let points = index.scans.len() as u32;
    index.bins.extend(bins);
    index.offsets.extend(offsets[1..].iter().map(|o| o + points));
    index.scans.extend(scans);
    index.readings.extend(readings.iter().map(|w| f32::from_bits(*w)));
    index.starts.push(index.bins.len() as u32);
}

/// Joins frames with the port, one after another, and compares the index with the Rust's frames; some frames are refused on the way.
fn run(t: &mut Tally, r: &mut Rng) {
    let (scale, frames) = (scale(r), r.below(7));
    let (mut index, mut expected) = (FrameIndex::default(), FrameIndex::default());
    for _ in 0..frames {
        let n = if r.one_in(4) { 0 } else { size(r).min(120) };
        let mut call = sample(r, n, scale, 0);
        if r.one_in(5) {
            spoil(r, &mut call);
            call.rooms = View::new(&[], scale, 0, 0).rooms.map(|k| k + call.tofs.len());
            call.base = 0;
        }
        let (number, pushed) = (call.number(), index.push(call.frame(), call.scale, call.count));
        t.same("run: number of a frame", &(n, call.scale, call.count), pushed.err().unwrap_or(0), number);
        if number == 0 {
            join(&mut expected, &call);
        }
    }
    t.same("run: index", &(scale, frames), &index, &expected);
}

// ---- sums

/// What is asked of an index, with the code of the function in the replayed lines.
#[derive(Clone, Debug)]
pub enum Asked {
    Rt(Block),
    Im(Block),
    Row(u32, u32, (u32, u32)),
    Bounds(TofScale, (u32, u32), u32, (u32, u32)),
    Many(TofScale, Vec<u32>, u32),
}

/// A call: an index, what is asked of it, and the floats and words of the two lists that are lent.
#[derive(Clone, Debug)]
pub struct Sums {
    pub index: FrameIndex,
    pub asked: Asked,
    pub rooms: [usize; 2],
}

fn climbs(list: &[u32], last: usize) -> bool {
    list.first() == Some(&0) && list.last().is_some_and(|l| *l as usize == last) && list.windows(2).all(|w| w[0] <= w[1])
}

/// The first number of an index that applies and its number 23.
fn index_numbers(i: &FrameIndex) -> [bool; 5] {
    let (bins, points) = (i.bins.len(), i.scans.len());
    let lengths = i.starts.is_empty() || i.offsets.len() != bins + 1 || i.readings.len() != points;
    let sizes = i.starts.len() > 16_385 || points > 16_777_216 || bins > 16_777_216;
    let readings = !i.readings.iter().all(|x| in_range(*x, 4294967296.0));
    let scans = i.scans.iter().any(|s| *s > 65_535);
    let form = !climbs(&i.starts, bins)
        || !climbs(&i.offsets, points)
        || i.bins.iter().any(|b| *b > HIGHEST)
        || i.starts.windows(2).any(|w| i.bins[w[0] as usize..w[1] as usize].windows(2).any(|b| b[0] >= b[1]));
    [lengths, sizes, readings, scans, form]
}

pub fn sound_step(s: &TofScale) -> bool {
    (1..=65_536).contains(&s.tof_step)
}

pub fn sound_ends(s: &TofScale) -> bool {
    s.tof_min.max(s.tof_max) <= HIGHEST
}

/// How many a range has, ends included.
fn count((lo, hi): (u32, u32)) -> usize {
    (hi as usize + 1).saturating_sub(lo as usize)
}

impl Sums {
    /// With just as much room as is asked for.
    pub fn new(index: FrameIndex, asked: Asked) -> Self {
        let mut call = Sums { index, asked, rooms: [0; 2] };
        call.rooms = [call.sums(), call.words()];
        call
    }

    pub fn frames(&self) -> usize {
        self.index.starts.len().saturating_sub(1)
    }

    /// How many sums are asked for, and how many words of scratch.
    fn sums(&self) -> usize {
        match &self.asked {
            Asked::Rt(b) => count(b.frames).min(16_384),
            Asked::Im(b) => count(b.scans).min(65_536),
            Asked::Row(..) | Asked::Bounds(..) => self.frames(),
            Asked::Many(_, list, _) => list.len() / WORDS * self.frames(),
        }
    }

    fn words(&self) -> usize {
        if let Asked::Many(_, list, _) = &self.asked { 4 * (list.len() / WORDS) } else { 0 }
    }

    /// Document 01's number, 0 for none.
    pub fn number(&self) -> u32 {
        let [lengths, sizes, readings, scans, form] = index_numbers_or_lengths(&self.index);
        let frames = self.frames();
        let (mut one, mut two, mut four, mut five, mut nine, mut scale) = (lengths, sizes, false, scans, false, false);
        let mut by = |s: &TofScale, four: &mut bool, five: &mut bool| {
            *four |= !sound_step(s);
            *five |= !sound_ends(s);
            scale = s.tof_step == 0 || disagrees(s);
        };
        match &self.asked {
            Asked::Rt(b) | Asked::Im(b) => {
                four = b.frames.0 > b.frames.1
                    || b.frames.1 as usize >= frames
                    || b.bins.0 > b.bins.1
                    || b.bins.1 > HIGHEST
                    || b.scans.0 > b.scans.1;
                five |= b.scans.1 > 65_535;
            }
            Asked::Row(row, pad, scans) => {
                four = *row > HIGHEST || *pad > 65_535;
                five |= scans.0.max(scans.1) > 65_535;
            }
            Asked::Bounds(s, tofs, pad, scans) => {
                by(s, &mut four, &mut five);
                four |= *pad > 65_535;
                five |= tofs.0.max(tofs.1) > HIGHEST + 65_536 || scans.0.max(scans.1) > 65_535;
            }
            Asked::Many(s, list, pad) => {
                by(s, &mut four, &mut five);
                one |= list.len() % WORDS != 0;
                two |= list.len() / WORDS > 65_536;
                four |= *pad > 65_535;
                nine = !list.chunks_exact(WORDS).all(sound);
            }
        }
        let room = self.rooms[0] < self.sums();
        let scratch = self.rooms[1] < self.words();
        let checks = [(1, one), (2, two), (3, readings), (4, four), (5, five), (9, nine), (20, room), (21, scratch), (22, scale), (23, form)];
        checks.iter().find(|c| c.1).map_or(0, |c| c.0)
    }

    /// The Rust's frames.
    pub fn rust_frames(&self) -> Vec<FrameBinView> {
        rust_frames(&self.index)
    }

    /// The sums that the Rust gives.
    pub fn rust(&self) -> Vec<f32> {
        let frames = self.rust_frames();
        let range = |(a, b): (u32, u32)| (a as usize, b as usize);
        match &self.asked {
            Asked::Rt(b) | Asked::Im(b) => {
                let (rt, bins, scans) = (range(b.frames), range(b.bins), range(b.scans));
                let marginal = if matches!(self.asked, Asked::Rt(_)) { build_rt_marginal } else { build_im_marginal };
                marginal(&frames, rt.0, rt.1, bins.0, bins.1, scans.0, scans.1)
            }
            Asked::Row(row, pad, scans) => plain::rt_trace_for_im_peak(&frames, *row as usize, *pad as usize, scans.0 as usize, scans.1 as usize),
            Asked::Bounds(s, tofs, pad, scans) => by_bounds(&frames, &rust_scale(s), *tofs, *pad, *scans),
            Asked::Many(s, list, pad) => {
                let s = rust_scale(s);
                list.chunks_exact(WORDS).flat_map(|w| by_bounds(&frames, &s, (w[2], w[3]), *pad, (w[14], w[15]))).collect()
            }
        }
    }

    /// The port's answer, and what the lists hold then, as bits.
    pub fn port(&self, out: &mut [f32], windows: &mut [u32]) -> Result<usize, u32> {
        let index = Index::from(&self.index);
        match &self.asked {
            Asked::Rt(b) => build_rt_marginal_into(index, *b, out),
            Asked::Im(b) => build_im_marginal_into(index, *b, out),
            Asked::Row(row, pad, scans) => rt_trace_for_im_peak_into(index, *row, *pad, *scans, out),
            Asked::Bounds(s, tofs, pad, scans) => rt_trace_for_im_peak_by_bounds_into(index, *s, *tofs, *pad, *scans, out),
            Asked::Many(s, list, pad) => rt_traces_for_im_peaks_by_bounds_into(index, *s, list, *pad, out, windows),
        }
    }
}

/// The Rust's frames of an index.
pub fn rust_frames(i: &FrameIndex) -> Vec<FrameBinView> {
    let frame = |w: &[u32]| {
        let (s, e) = (w[0] as usize, w[1] as usize);
        let (from, to) = (i.offsets[s] as usize, i.offsets[e] as usize);
        FrameBinView {
            _frame_id: 0,
            unique_bins: i.bins[s..e].iter().map(|b| *b as usize).collect(),
            offsets: i.offsets[s..=e].iter().map(|o| *o as usize - from).collect(),
            scan_idx: i.scans[from..to].to_vec(),
            intensity: i.readings[from..to].to_vec(),
        }
    };
    i.starts.windows(2).map(frame).collect()
}

fn by_bounds(frames: &[FrameBinView], s: &crate::cluster::utility::TofScale, tofs: (u32, u32), pad: u32, scans: (u32, u32)) -> Vec<f32> {
    plain::rt_trace_for_im_peak_by_bounds(frames, s, (tofs.0 as i32, tofs.1 as i32), pad as usize, scans.0 as usize, scans.1 as usize)
}

/// The numbers of an index; where its lengths do not agree, or starts fall or pass the bins, its form cannot be asked further.
pub fn index_numbers_or_lengths(i: &FrameIndex) -> [bool; 5] {
    if i.starts.is_empty() {
        return [true; 5];
    }
    if !climbs(&i.starts, i.bins.len()) {
        let flat = FrameIndex { starts: vec![0; i.starts.len()], ..i.clone() };
        let [lengths, sizes, readings, scans, _] = index_numbers(&flat);
        return [lengths, sizes, readings, scans, true];
    }
    index_numbers(i)
}

/// Compares a call on an index.
fn summed(t: &mut Tally, c: &Sums) {
    let mut out: Vec<f32> = (0..c.rooms[0]).map(|k| f32::from_bits(k as u32 ^ 0x5555_5555)).collect();
    let mut windows: Vec<u32> = (0..c.rooms[1]).map(|k| k as u32 ^ 0x3333_3333).collect();
    let (mut expected, before) = (out.clone(), windows.clone());
    let port = c.port(&mut out, &mut windows);
    let number = c.number();
    let small = c.index.bins.len() < 8;
    let shown = (&c.asked, c.rooms, c.index.starts.len(), c.index.bins.len(), if small { Some(&c.index) } else { None });
    let mut answer = Err(number);
    let mut open = 0;
    if number == 0 {
        let sums = c.rust();
        answer = Ok(if let Asked::Many(_, list, _) = &c.asked { list.len() / WORDS } else { sums.len() });
        expected[..sums.len()].copy_from_slice(&sums);
        open = c.words();
    }
    t.same("sums: count or number", &shown, port, answer);
    let words = |l: &[f32]| l.iter().map(|x| x.to_bits()).collect::<Vec<u32>>();
    t.same("sums: the list", &shown, words(&out), words(&expected));
    t.same("sums: scratch that is not as it was", &shown, windows[open..] != before[open..], false);
}

/// An index that no frame was built for: empty frames, empty bins, bins of any height, readings for which the order of additions shows.
fn any_index(r: &mut Rng) -> FrameIndex {
    let mut i = FrameIndex::default();
    let frames = if r.one_in(200) { 300 } else { r.below(9) };
    let (gap, most) = (r.pick(&[1, 1, 2, 3, 50, 1_000_000]), r.pick(&[1, 2, 4, 9, 30]));
    let (start, reach) = (r.pick(&[0, 0, 1, 7, HIGHEST - 5, HIGHEST]), r.pick(&[1, 3, 10, 40]));
    let (wide, kind) = (r.pick(&[1, 4, 20, 65_536]), r.below(11));
    for _ in 0..frames {
        let mut bin = start.saturating_sub(r.below(reach) as u32);
        let bins = if r.one_in(4) { 0 } else { r.below(most + 1) };
        for _ in 0..bins {
            if bin > HIGHEST {
                break;
            }
            i.bins.push(bin);
            bin += 1 + r.below(gap) as u32;
            let points = if r.one_in(5) { 0 } else { r.below(most + 1) };
            for _ in 0..points {
                let scan = r.below(wide) as u32;
                i.scans.push(if r.one_in(30) { 65_535 } else { scan });
                let k = if kind == 10 { r.below(9) } else { kind.min(8) };
                let x = reading(r, k);
                i.readings.push(if r.one_in(6) { r.pick(&[16777216.0, 1.0, 4294967296.0, 0.5]) } else { x });
            }
            i.offsets.push(i.scans.len() as u32);
        }
        i.starts.push(i.bins.len() as u32);
    }
    i
}

/// An index of frames, and their scale. The port's is compared with it in `run`.
fn built_index(r: &mut Rng) -> (FrameIndex, TofScale) {
    let scale = scale(r);
    let mut i = FrameIndex::default();
    for _ in 0..r.below(6) {
        let n = size(r).min(150);
        let call = sample(r, n, scale, 0);
        join(&mut i, &call);
    }
    (i, scale)
}

/// A value of a list or near one, or any to a limit.
fn near(r: &mut Rng, list: &[u32], limit: u32) -> u32 {
    let some = if list.is_empty() { 0 } else { r.pick(list) };
    match r.below(8) {
        0 => r.below(limit as u64 + 1) as u32,
        1 => r.pick(&[0, limit]),
        _ => (some + r.below(4) as u32).saturating_sub(r.below(4) as u32).min(limit),
    }
}

fn range(r: &mut Rng, list: &[u32], limit: u32, reversed: bool) -> (u32, u32) {
    let (a, b) = (near(r, list, limit), near(r, list, limit));
    if reversed && r.one_in(4) { (a.max(b), a.min(b)) } else { (a.min(b), a.max(b)) }
}

/// What is asked of an index: windows about its bins and scans, pads that reach past both ends.
fn ask(r: &mut Rng, i: &FrameIndex, s: TofScale) -> Asked {
    let last = i.starts.len().saturating_sub(2) as u32;
    let pad = r.pick(&[0, 0, 1, 2, 3, 40, 65_535]);
    let tofs: Vec<u32> = i.bins.iter().map(|b| (s.tof_min as u64 + *b as u64 * s.tof_step as u64).min(HIGHEST as u64) as u32).collect();
    let block = |r: &mut Rng| Block { frames: range(r, &[0, last], last, false), bins: range(r, &i.bins, HIGHEST, false), scans: range(r, &i.scans, 65_535, false) };
    match r.below(6) {
        0 => Asked::Rt(block(r)),
        1 => Asked::Im(block(r)),
        2 => Asked::Row(near(r, &i.bins, HIGHEST), pad, range(r, &i.scans, 65_535, true)),
        3 => Asked::Bounds(s, range(r, &tofs, HIGHEST + 65_536, true), pad, range(r, &i.scans, 65_535, true)),
        _ => {
            let n = if r.one_in(10) { 0 } else { 1 + r.below(12) as usize };
            let params = stitch_level::params(r);
            let mut list = stitch_level::list(r, n, &params);
            for w in list.chunks_exact_mut(WORDS) {
                (w[2], w[3]) = range(r, &tofs, HIGHEST + 65_536, false);
                (w[14], w[15]) = range(r, &i.scans, 65_535, false);
            }
            Asked::Many(s, list, pad)
        }
    }
}

fn bad(r: &mut Rng, limit: u32) -> u32 {
    r.pick(&[limit, limit + 1, u32::MAX])
}

/// Makes something of a call on an index wrong, or brings it to its limit.
pub fn spoil_sums(r: &mut Rng, c: &mut Sums) {
    let i = &mut c.index;
    let at = |r: &mut Rng, n: usize| r.below(n.max(1) as u64) as usize;
    let (s, b, o, p) = (at(r, i.starts.len()), at(r, i.bins.len()), at(r, i.offsets.len()), at(r, i.scans.len()));
    let word = r.next() as u32 >> r.below(32);
    match r.below(16) {
        0 => i.starts.truncate(r.below(2) as usize),
        1 => i.offsets.push(i.scans.len() as u32),
        2 => i.readings.push(1.0),
        3 if r.one_in(20) => i.starts.resize(16_385 + r.below(2) as usize, i.bins.len() as u32),
        3 | 4 => i.starts.get_mut(s).into_iter().for_each(|x| *x = r.pick(&[word, *x + 1, x.saturating_sub(1)])),
        5 | 6 => i.offsets.get_mut(o).into_iter().for_each(|x| *x = r.pick(&[word, *x + 1, x.saturating_sub(1)])),
        7 => i.bins.get_mut(b).into_iter().for_each(|x| *x = r.pick(&[word, *x + 1, x.saturating_sub(1), HIGHEST, HIGHEST + 1])),
        8 => i.scans.get_mut(p).into_iter().for_each(|x| *x = r.pick(&[65_535, 65_536, u32::MAX])),
        9 => {
            let any = any(r);
            i.readings.get_mut(p).into_iter().for_each(|x| *x = r.pick(&[any, -0.0, 4294967296.0, 4294967808.0, f32::NAN]));
        }
        10 => c.rooms[0] = r.pick(&[0, c.rooms[0].saturating_sub(1)]),
        11 => c.rooms[1] = r.pick(&[0, c.rooms[1].saturating_sub(1)]),
        _ => match &mut c.asked {
            Asked::Rt(b) | Asked::Im(b) => match r.below(6) {
                0 => b.frames = (b.frames.1, b.frames.0),
                1 => b.bins = (b.bins.1, b.bins.0),
                2 => b.scans = (b.scans.1, b.scans.0),
                3 => b.frames.1 = r.pick(&[b.frames.1 + 1, 16_383, u32::MAX]),
                4 => b.bins.1 = bad(r, HIGHEST),
                _ => b.scans.1 = bad(r, 65_535),
            },
            Asked::Row(row, pad, scans) => match r.below(4) {
                0 => *row = bad(r, HIGHEST),
                1 => *pad = bad(r, 65_535),
                2 => scans.0 = bad(r, 65_535),
                _ => scans.1 = bad(r, 65_535),
            },
            Asked::Bounds(s, tofs, pad, scans) => match r.below(7) {
                0 => tofs.0 = bad(r, HIGHEST + 65_536),
                1 => tofs.1 = bad(r, HIGHEST + 65_536),
                2 => *pad = bad(r, 65_535),
                3 => scans.0 = bad(r, 65_535),
                4 => scans.1 = bad(r, 65_535),
                _ => spoil_scale(r, s),
            },
            Asked::Many(s, list, pad) => match r.below(5) {
                0 => list.truncate(list.len().saturating_sub(1 + r.below(30) as usize)),
                1 if r.one_in(30) => *list = vec![0; 65_537 * WORDS],
                1 => *pad = bad(r, 65_535),
                2 => spoil_scale(r, s),
                _ if list.is_empty() => {}
                _ => {
                    let k = r.below(list.len() as u64) as usize;
                    list[k] = r.pick(&[word, 0, HIGHEST + 65_537, 65_536, u32::MAX]);
                }
            },
        },
    }
}

pub fn spoil_scale(r: &mut Rng, s: &mut TofScale) {
    match r.below(4) {
        0 => s.tof_step = r.pick(&[0, 65_536, 65_537, u32::MAX, s.tof_step + 1]),
        1 => s.tof_min = r.pick(&[s.tof_min + 1, HIGHEST, HIGHEST + 1, u32::MAX, 0]),
        2 => s.tof_max = r.pick(&[s.tof_max + 1, HIGHEST, HIGHEST + 1, u32::MAX, 0]),
        _ => s.num_bins = r.pick(&[s.num_bins + 1, s.num_bins - s.num_bins.min(1), 0, u32::MAX]),
    }
}

pub fn sample_sums(r: &mut Rng) -> Sums {
    let (index, s) = if r.one_in(2) { built_index(r) } else { (any_index(r), scale(r)) };
    let asked = ask(r, &index, s);
    let mut call = Sums::new(index, asked);
    call.rooms = call.rooms.map(|room| room + r.below(3) as usize * r.below(5) as usize);
    call
}

/// Calls with the corners of document 01 and of docs/DIFFERENCES.md, with what each shows.
pub fn sum_corners() -> Vec<(&'static str, Sums)> {
    let index = |frames: &[&[(u32, &[(u32, f32)])]]| {
        let mut i = FrameIndex::default();
        for f in frames {
            for (bin, points) in *f {
                i.bins.push(*bin);
                i.scans.extend(points.iter().map(|p| p.0));
                i.readings.extend(points.iter().map(|p| p.1));
                i.offsets.push(i.scans.len() as u32);
            }
            i.starts.push(i.bins.len() as u32);
        }
        i
    };
    let order = [(3u32, 16777216.0f32), (4, 1.0), (3, 1.0)];
    let two = index(&[&[(4, &order), (5, &[(3, 1.0), (9, 2.0)])], &[], &[(5, &[(3, 8.0)]), (6, &[]), (9, &[(4, 16.0)])]]);
    let s = TofScale { tof_min: 8, tof_max: 24, tof_step: 4, num_bins: 5 };
    let block = Block { frames: (0, 2), bins: (4, 5), scans: (3, 4) };
    let none = FrameIndex::default();
    let mut many = [0; 2 * WORDS];
    (many[2], many[3], many[14], many[15]) = (24, 28, 3, 4);
    vec![
        ("no frames", Sums::new(none.clone(), Asked::Row(0, 0, (0, 0)))),
        ("no frames, and a marginal past them", Sums::new(none, Asked::Rt(block))),
        ("the order of additions: 2^24 and ones", Sums::new(two.clone(), Asked::Rt(block))),
        ("the same by scan", Sums::new(two.clone(), Asked::Im(block))),
        ("the last bin of a range", Sums::new(two.clone(), Asked::Rt(Block { bins: (6, 9), ..block }))),
        ("a range between bins", Sums::new(two.clone(), Asked::Im(Block { bins: (7, 8), ..block }))),
        ("the scan at the end of a range", Sums::new(two.clone(), Asked::Im(Block { scans: (3, 9), ..block }))),
        ("a pad below 0", Sums::new(two.clone(), Asked::Row(3, 5, (0, 65_535)))),
        ("a reversed scan range", Sums::new(two.clone(), Asked::Row(5, 0, (4, 3)))),
        ("the highest row and pad", Sums::new(two.clone(), Asked::Row(4_194_303, 65_535, (0, 65_535)))),
        ("bounds below the scale: its first bin", Sums::new(two.clone(), Asked::Bounds(s, (0, 8), 4, (0, 65_535)))),
        ("bounds above the scale: its last bin, and one past it", Sums::new(two.clone(), Asked::Bounds(s, (4_259_839, 24), 1, (0, 65_535)))),
        ("bounds in the other order", Sums::new(two.clone(), Asked::Bounds(s, (27, 23), 0, (0, 65_535)))),
        ("two peaks", Sums::new(two.clone(), Asked::Many(s, many.to_vec(), 1))),
        ("a peak with reversed bounds", Sums::new(two.clone(), Asked::Many(s, [&many[..2], &[9, 8], &many[4..]].concat(), 1))),
        ("a step of 0 comes before a scale that disagrees", Sums::new(two.clone(), Asked::Many(TofScale { tof_step: 0, ..s }, many.to_vec(), 1))),
        ("a highest TOF out of range", Sums::new(two.clone(), Asked::Many(TofScale { tof_max: 4_194_304, ..s }, many.to_vec(), 1))),
        ("a scale that disagrees", Sums::new(two, Asked::Many(TofScale { num_bins: 4, ..s }, many.to_vec(), 1))),
    ]
}

/// Calls at a limit and one past it.
pub fn sum_edges() -> Vec<(&'static str, Sums)> {
    let plain = FrameIndex {
        starts: vec![0, 2, 2, 3],
        bins: vec![4, 5, 5],
        offsets: vec![0, 1, 1, 3],
        scans: vec![3, 9, 3],
        readings: vec![1.0, 2.0, 8.0],
    };
    let all = (0, 65_535);
    let of = |asked: Asked| Sums::new(plain.clone(), asked);
    let index = |change: &dyn Fn(&mut FrameIndex)| {
        let mut i = plain.clone();
        change(&mut i);
        Sums::new(i, Asked::Row(5, 1, all))
    };
    let block = |frames, bins, scans| of(Asked::Rt(Block { frames, bins, scans }));
    let scans = |scans| of(Asked::Im(Block { frames: (0, 2), bins: (4, 5), scans }));
    let scale = |tof_min, tof_max, tof_step, num_bins| TofScale { tof_min, tof_max, tof_step, num_bins };
    let s = scale(8, 24, 4, 5);
    let by = |s, tofs, pad, scans| of(Asked::Bounds(s, tofs, pad, scans));
    let mut record = vec![0; WORDS];
    (record[2], record[3], record[15]) = (24, 28, 9);
    let many = |s, pad| of(Asked::Many(s, record.clone(), pad));
    let lent = |k: usize| {
        let mut call = many(s, 0);
        call.rooms[k] -= 1;
        call
    };
    vec![
        ("no starts", index(&|i| i.starts.clear())),
        ("an offset too few", index(&|i| i.offsets.truncate(3))),
        ("an offset too many", index(&|i| i.offsets.push(3))),
        ("a reading too few", index(&|i| i.readings.truncate(2))),
        ("a reading too many", index(&|i| i.readings.push(0.0))),
        ("the highest reading of an index", index(&|i| i.readings[0] = 4294967296.0)),
        ("one past it", index(&|i| i.readings[0] = 4294967808.0)),
        ("the highest scan of an index", index(&|i| i.scans[1] = 65_535)),
        ("one past it", index(&|i| i.scans[1] = 65_536)),
        ("the highest bin of an index", index(&|i| i.bins[2] = HIGHEST)),
        ("one past it", index(&|i| i.bins[2] = HIGHEST + 1)),
        ("a bin twice in a frame", index(&|i| i.bins[0] = 5)),
        ("starts that do not run from 0", index(&|i| i.starts[0] = 1)),
        ("starts that end too low", index(&|i| i.starts[3] = 2)),
        ("starts that end too high", index(&|i| i.starts[3] = 4)),
        ("starts that fall", index(&|i| i.starts[1] = 3)),
        ("offsets that do not run from 0", index(&|i| i.offsets[0] = 1)),
        ("offsets that end too low", index(&|i| i.offsets[3] = 2)),
        ("offsets that end too high", index(&|i| i.offsets[3] = 4)),
        ("offsets that fall", index(&|i| i.offsets[1] = 2)),
        ("sums past the highest reading", index(&|i| (i.scans[1], i.readings[1], i.readings[0]) = (3, 4294967296.0, 4294967296.0))),
        ("one frame, one bin, one scan", block((2, 2), (5, 5), (3, 3))),
        ("frames reversed by one", block((2, 1), (5, 5), (3, 3))),
        ("a frame past the last", block((2, 3), (5, 5), (3, 3))),
        ("bins reversed by one", block((2, 2), (6, 5), (3, 3))),
        ("the highest bin", block((2, 2), (5, HIGHEST), (3, 3))),
        ("one past it", block((2, 2), (5, HIGHEST + 1), (3, 3))),
        ("scans reversed by one", block((2, 2), (5, 5), (4, 3))),
        ("the highest scan", block((2, 2), (5, 5), (3, 65_535))),
        ("one past it", block((2, 2), (5, 5), (3, 65_536))),
        ("by scan: the highest scan", scans((65_530, 65_535))),
        ("one past it", scans((65_530, 65_536))),
        ("by scan: scans reversed by one", scans((4, 3))),
        ("the highest row and pad", of(Asked::Row(HIGHEST, 65_535, all))),
        ("one past it, the row", of(Asked::Row(HIGHEST + 1, 0, all))),
        ("one past it, the pad", of(Asked::Row(5, 65_536, all))),
        ("one past it, the lower scan", of(Asked::Row(5, 0, (65_536, 0)))),
        ("one past it, the higher scan", of(Asked::Row(5, 0, (0, 65_536)))),
        ("by bounds: the highest TOF and pad", by(s, (4_259_839, 0), 65_535, all)),
        ("one past it, the lower TOF", by(s, (4_259_840, 0), 0, all)),
        ("one past it, the higher TOF", by(s, (0, 4_259_840), 0, all)),
        ("one past it, the pad", by(s, (24, 28), 65_536, all)),
        ("one past it, the lower scan", by(s, (24, 28), 0, (65_536, 0))),
        ("one past it, the higher scan", by(s, (24, 28), 0, (0, 65_536))),
        ("by bounds: a step of 0", by(scale(8, 24, 0, 5), (24, 28), 0, all)),
        ("by bounds: a step of 1", by(scale(20, 24, 1, 5), (24, 28), 0, all)),
        ("by bounds: the greatest step", by(scale(0, 65_536, 65_536, 2), (0, 65_536), 5, all)),
        ("one past it", by(scale(0, 65_537, 65_537, 2), (0, 65_536), 5, all)),
        ("by bounds: the highest end of a scale", by(scale(HIGHEST, HIGHEST, 1, 1), (0, 1), 5, all)),
        ("one past it", by(scale(HIGHEST, HIGHEST + 1, 1, 2), (0, 1), 5, all)),
        ("by bounds: a scale that disagrees", by(scale(8, 24, 4, 4), (24, 28), 0, all)),
        ("many: a word too many", of(Asked::Many(s, [&record[..], &[0]].concat(), 0))),
        ("many: the highest pad", many(s, 65_535)),
        ("one past it", many(s, 65_536)),
        ("many: a step past the greatest", many(scale(0, 65_537, 65_537, 2), 0)),
        ("many: an end past the highest", many(scale(HIGHEST, HIGHEST + 1, 1, 2), 0)),
        ("many: a record that number 9 refuses", of(Asked::Many(s, [&record[..2], &[29, 28], &record[4..]].concat(), 0))),
        ("many: a place too few", lent(0)),
        ("many: a word of scratch too few", lent(1)),
        ("many: a scale that disagrees", many(scale(8, 24, 4, 4), 0)),
    ]
}

/// The sizes of number 2, at and past their limits.
fn sizes(t: &mut Tally) {
    let none = FrameIndex::default();
    let row = Asked::Row(0, 0, (0, 0));
    for more in [0, 1] {
        let starts = vec![0; 16_385 + more];
        summed(t, &Sums::new(FrameIndex { starts, ..none.clone() }, row.clone()));
        let n = 16_777_216 + more;
        let points = FrameIndex { starts: vec![0, 1], bins: vec![0], offsets: vec![0, n as u32], scans: vec![0; n], readings: vec![1.0; n] };
        summed(t, &Sums::new(points, row.clone()));
        let starts = (0..=n as u32).step_by(4_194_304).chain([n as u32]).collect();
        let bins = FrameIndex { starts, bins: (0..n as u32).map(|b| b % 4_194_304).collect(), offsets: vec![0; n + 1], ..none.clone() };
        summed(t, &Sums::new(bins, row.clone()));
    }
}

pub fn compare(t: &mut Tally, count: u64) {
    let mut r = Rng::new(10);
    frames(t, &mut r, count);
    for _ in 0..count / 4 {
        run(t, &mut r);
    }
    if count >= 10_000 {
        sizes(t);
    }
    for (_, call) in sum_corners().into_iter().chain(sum_edges()) {
        summed(t, &call);
        t.corners += 1;
    }
    for _ in 0..count {
        let mut call = sample_sums(&mut r);
        while r.one_in(3) {
            spoil_sums(&mut r, &mut call);
        }
        summed(t, &call);
    }
}
