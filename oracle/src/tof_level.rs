//! The TOF scale: what is asked of it, the Rust's answers and document 01's numbers.
use crate::bits;
use crate::cluster::utility;
use crate::inputs::{any, place, Rng};
use crate::leaves::in_range;
use mscore::timstof::frame::TimsFrame;
use rubzolena::TofScale;

const HIGHEST: u32 = 4_194_303;

/// What a scale is asked, with the code of the function in the replayed lines.
#[derive(Clone, Copy, Debug)]
pub enum Asked {
    Bin(u32),
    Window(u32, u32),
    Center(u32),
    CenterAt(f32),
    Bounds(u32),
}

impl Asked {
    pub fn code(&self) -> u32 {
        match self {
            Asked::Bin(_) => 41,
            Asked::Window(..) => 42,
            Asked::Center(_) => 43,
            Asked::CenterAt(_) => 44,
            Asked::Bounds(_) => 45,
        }
    }

    pub fn words(&self) -> Vec<u32> {
        match *self {
            Asked::Bin(v) | Asked::Center(v) | Asked::Bounds(v) => vec![v],
            Asked::Window(a, b) => vec![a, b],
            Asked::CenterAt(mu) => vec![bits(mu)],
        }
    }
}

fn sound_step(step: u32) -> bool {
    (1..=65_536).contains(&step)
}

/// Document 01's number, 0 for none.
fn number(s: &TofScale, asked: &Asked) -> u32 {
    let (value, tof) = match *asked {
        Asked::Bin(t) => (true, t <= HIGHEST),
        Asked::Window(a, b) => (true, a.max(b) <= HIGHEST + 65_536),
        Asked::Center(i) | Asked::Bounds(i) => (i < s.num_bins, true),
        Asked::CenterAt(mu) => (in_range(mu, 4_194_304.0), true),
    };
    if !sound_step(s.tof_step) || !value {
        return 4;
    }
    if s.tof_min.max(s.tof_max) > HIGHEST || !tof {
        return 5;
    }
    if disagrees(s) { 22 } else { 0 }
}

/// Whether the scale's numbers, with a sound step, do not fit together.
pub fn disagrees(s: &TofScale) -> bool {
    s.tof_min % s.tof_step != 0
        || s.tof_max % s.tof_step != 0
        || s.tof_max < s.tof_min
        || s.num_bins != (s.tof_max - s.tof_min) / s.tof_step + 1
}

/// Frames with the TOF values of all, in parts.
fn frames(tofs: &[u32], part: usize) -> Vec<TimsFrame> {
    tofs.chunks(part).map(|c| TimsFrame { tof: c.iter().map(|t| *t as i32).collect(), ..TimsFrame::default() }).collect()
}

/// The Rust's scale: its own of the lowest and the highest TOF; of a single bin, which it builds of no scale of step 1, by hand.
pub fn rust_scale(s: &TofScale) -> utility::TofScale {
    if s.tof_min < s.tof_max {
        return utility::TofScale::build_from_frames(&frames(&[s.tof_min, s.tof_max], 2), s.tof_step as i32).unwrap();
    }
    let edges: Vec<f32> = (0..=s.num_bins).map(|i| (s.tof_min + i * s.tof_step) as f32).collect();
    let centers = edges.windows(2).map(|e| 0.5 * (e[0] + e[1])).collect();
    utility::TofScale { tof_min: s.tof_min as i32, tof_max: s.tof_max as i32, tof_step: s.tof_step as i32, edges, centers }
}

/// The answer to what is asked: 0 and the values, 1 for no bin, 2 and the number.
pub fn answer(s: &TofScale, asked: &Asked) -> [u32; 3] {
    let refusal = number(s, asked);
    if refusal != 0 {
        return [2, refusal, 0];
    }
    let rust = rust_scale(s);
    match *asked {
        Asked::Bin(t) => rust.index_of_tof(t as i32).map_or([1, 0, 0], |i| [0, i as u32, 0]),
        Asked::Window(a, b) => {
            let (lo, hi) = rust.index_range_for_tof_window(a as i32, b as i32);
            [0, lo as u32, hi as u32]
        }
        Asked::Center(i) => [0, bits(rust.center(i as usize)), 0],
        Asked::CenterAt(mu) => [0, bits(rust.center_at(mu)), 0],
        Asked::Bounds(i) => {
            let (lo, hi) = rust.tof_bounds_for_row(i as usize);
            [0, bits(lo), bits(hi)]
        }
    }
}

/// The scale of the TOF values of frames: 0 and the scale, 1 for none, 2 and the number.
pub fn build(tofs: &[u32], step: u32, part: usize) -> [u32; 5] {
    if !sound_step(step) {
        return [2, 4, 0, 0, 0];
    }
    if tofs.iter().any(|t| *t > HIGHEST) {
        return [2, 5, 0, 0, 0];
    }
    match utility::TofScale::build_from_frames(&frames(tofs, part), step as i32) {
        Some(s) => [0, s.tof_min as u32, s.tof_max as u32, s.tof_step as u32, s.num_bins() as u32],
        None => [1, 0, 0, 0, 0],
    }
}

/// Scales and what they are asked, on both sides of a rule, or at a limit and one past it.
pub fn edges() -> Vec<(TofScale, Asked)> {
    let s = |tof_min, tof_max, tof_step, num_bins| TofScale { tof_min, tof_max, tof_step, num_bins };
    let (three, top) = (s(0, 8, 4, 3), s(HIGHEST - 1, HIGHEST, 1, 2));
    vec![
        (top, Asked::Bin(HIGHEST)),
        (top, Asked::Bin(HIGHEST + 1)),
        (top, Asked::Window(HIGHEST + 65_536, HIGHEST)),
        (top, Asked::Window(HIGHEST + 65_537, HIGHEST)),
        (s(HIGHEST, HIGHEST + 1, 1, 2), Asked::Center(0)),
        (three, Asked::Center(2)),
        (three, Asked::Center(3)),
        (three, Asked::Bounds(2)),
        (three, Asked::Bounds(3)),
        (three, Asked::CenterAt(4_194_304.0)),
        (three, Asked::CenterAt(4_194_304.5)),
        (three, Asked::CenterAt(0.75)),
        (three, Asked::Window(3, 4)),
        (three, Asked::Window(8, 4)),
        (three, Asked::Window(0, 3)),
        (s(0, 65_536, 65_536, 2), Asked::Bounds(1)),
        (s(0, 65_537, 65_537, 2), Asked::Bounds(1)),
        (s(0, 8, 0, 3), Asked::Bounds(1)),
        (s(1, 8, 4, 2), Asked::Center(0)),
        (s(0, 9, 4, 3), Asked::Center(0)),
        (s(8, 8, 4, 1), Asked::Center(0)),
        (s(8, 4, 4, 1), Asked::Center(0)),
        (s(0, 8, 4, 2), Asked::Center(0)),
        (s(0, 8, 4, 4), Asked::Center(0)),
    ]
}

/// TOF values and steps at a limit and one past it.
pub fn build_edges() -> [(Vec<u32>, u32); 7] {
    let high = vec![HIGHEST - 1, HIGHEST];
    [(high, 1), (vec![HIGHEST + 1, 0], 1), (vec![1, 65_537], 65_536), (vec![1, 65_537], 65_537), (vec![1, 2], 0), (vec![5, 4, 4], 4), (vec![3, 9], 4)]
}

fn step(r: &mut Rng) -> u32 {
    r.pick(&[1, 1, 2, 3, 4, 7, 100, 65_535, 65_536])
}

/// TOF values of frames: few distinct ones, close ones, ones at the limits.
pub fn tofs(r: &mut Rng) -> (Vec<u32>, u32) {
    let step = if r.one_in(12) { r.pick(&[0, 65_537, u32::MAX]) } else { step(r) };
    let n = r.pick(&[0, 1, 2, 2, 3, 5, 20]);
    let base = r.pick(&[0, 0, 5, 1_000, 4_000_000, HIGHEST - 9]);
    let spread = r.pick(&[1, 2, 9, 10, 100_000]);
    let mut list: Vec<u32> = (0..n).map(|_| (base + r.below(spread) as u32).min(HIGHEST)).collect();
    if n > 0 && r.one_in(10) {
        list[r.below(n as u64) as usize] = r.pick(&[HIGHEST + 1, u32::MAX, 1 << 31]);
    }
    (list, step)
}

/// A scale, whole or spoilt, of few bins or, at times, as many as there can be.
pub fn scale(r: &mut Rng) -> TofScale {
    let tof_step = step(r);
    let most = HIGHEST / tof_step + 1;
    let num_bins = if r.one_in(500) { most } else { 1 + r.below(12.min(most as u64)) as u32 };
    let tof_min = r.below((most - num_bins) as u64 + 1) as u32 * tof_step;
    let mut s = TofScale { tof_min, tof_max: tof_min + (num_bins - 1) * tof_step, tof_step, num_bins };
    if r.one_in(6) {
        match r.below(6) {
            0 => s.tof_step = r.pick(&[0, 65_537, u32::MAX]),
            1 => s.tof_min += 1,
            2 => s.tof_max = s.tof_max.wrapping_sub(1),
            3 => s.num_bins = r.pick(&[0, num_bins + 1, u32::MAX]),
            4 => s.tof_max = r.pick(&[HIGHEST, HIGHEST + 1, u32::MAX]),
            _ => std::mem::swap(&mut s.tof_min, &mut s.tof_max),
        }
    }
    s
}

/// A TOF value inside of a scale, at its ends, or anywhere.
fn tof(r: &mut Rng, s: &TofScale) -> u32 {
    match r.below(8) {
        0 => r.pick(&[0, HIGHEST, HIGHEST + 1, HIGHEST + 65_536, HIGHEST + 65_537, u32::MAX]),
        1 => s.tof_min.wrapping_sub(1),
        2 => s.tof_max,
        3 => s.tof_max.wrapping_add(s.tof_step),
        _ => s.tof_min.wrapping_add(r.below(s.num_bins.max(1) as u64 * s.tof_step.max(1) as u64 + 1) as u32),
    }
}

pub fn asked(r: &mut Rng, s: &TofScale) -> Asked {
    let bin = if r.one_in(9) { r.pick(&[s.num_bins, s.num_bins.wrapping_add(1), u32::MAX]) } else { r.below(s.num_bins.max(1) as u64) as u32 };
    match r.below(5) {
        0 => Asked::Bin(tof(r, s)),
        1 => Asked::Window(tof(r, s), tof(r, s)),
        2 => Asked::Center(bin),
        3 if r.one_in(6) => Asked::CenterAt(if r.one_in(2) { any(r) } else { r.pick(&[4_194_304.0, 4_194_304.5]) }),
        3 => Asked::CenterAt(place(r, s.num_bins.min(40) as usize)),
        _ => Asked::Bounds(bin),
    }
}
