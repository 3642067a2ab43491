//! Records: what is read at one place and written at another, and number 9 against document 01's ranges, written here a
//! second time from its text. (The Rust has no words.)
use crate::inputs::{any, Rng};
use crate::leaves::in_range;
use crate::stitch_level::TOPS;
use crate::{bits, probe, Tally};

pub const WORDS: usize = 27;
const FLOATS: [usize; 9] = [16, 17, 18, 19, 20, 21, 22, 24, 25];

pub fn compare(t: &mut Tally, count: u64) {
    for w in edges() {
        t.same("number 9 at a limit", &w, probe::sound(&w, 0), Some(sound(&w)));
        t.corners += 1;
    }
    let mut r = Rng::new(3);
    for _ in 0..count {
        let places = 1 + r.below(4) as usize;
        let mut list: Vec<u32> = (0..places).flat_map(|_| record(&mut r)).collect();
        list.extend(0..r.below(WORDS as u64) as u32);
        let k = r.below(places as u64 + 2) as usize;
        t.same("number 9", &(&list, k), probe::sound(&list, k), (k < places).then(|| sound(&list[k * WORDS..][..WORDS])));
        let before: Vec<u32> = (0..3 * WORDS + r.below(5) as usize).map(|_| r.next() as u32).collect();
        let j = r.below(5) as usize;
        let mut out = before.clone();
        let moved = probe::move_record(&list, k, &mut out, j);
        let mut expected = before;
        if k < places && j < 3 {
            for w in 0..WORDS {
                let word = list[k * WORDS + w];
                expected[j * WORDS + w] = if FLOATS.contains(&w) { bits(f32::from_bits(word)) } else { word };
            }
        }
        t.same("record moved", &(k, j), moved, k < places && j < 3);
        t.same("words after a move", &(k, j), out, expected);
    }
}

/// Records with a field at its limit and one past it, with bounds that are equal and reversed by one, with floats of minus zero.
pub fn edges() -> Vec<Vec<u32>> {
    let f = f32::to_bits;
    let mut sound = vec![5, 7, 6, 8, 3, 9, 100, 200, 7, 1, 4, 3, 5, 40, 39, 42, f(0.5), f(1.0), f(9.0), f(8.0), f(7.0), f(3.5), f(5.5), 2];
    sound.extend([f(20.0), f(0.25), 77]);
    let mut edges = Vec::new();
    let mut with = |words: &[(usize, u32)]| {
        let mut w = sound.clone();
        words.iter().for_each(|(k, v)| w[*k] = *v);
        edges.push(w);
    };
    const LOWS: [usize; 6] = [2, 4, 6, 11, 14, 21];
    for (k, top) in TOPS.into_iter().enumerate().filter(|(_, top)| *top != u32::MAX) {
        for v in [top, top + 1] {
            if LOWS.contains(&k) { with(&[(k, v), (k + 1, v)]) } else { with(&[(k, v)]) }
        }
    }
    for k in LOWS {
        with(&[(k, sound[k + 1])]);
        with(&[(k, sound[k + 1] + 1)]);
    }
    for k in FLOATS {
        with(&[(k, 1 << 31)]);
    }
    for v in [0xbf00_0000, 0xbf00_0001] {
        with(&[(25, v)]);
    }
    // what is missing is not looked at
    for flags in [0, 2, 4] {
        with(&[(8, flags), (16, u32::MAX), (17, 3)]);
        with(&[(8, flags), (16, 3), (17, u32::MAX)]);
    }
    edges
}

/// A sound record, at times with a field or two spoilt.
pub fn record(r: &mut Rng) -> Vec<u32> {
    let pair = |r: &mut Rng, top: u64| {
        let a = r.below(top + 1);
        [a as u32, (a + r.below(top + 1 - a)) as u32]
    };
    let (tof, rt, ids) = (pair(r, 4_259_839), pair(r, 16_383), pair(r, u32::MAX as u64));
    let (ends, ends_abs) = (pair(r, 16_383), pair(r, 65_535));
    let places = pair(r, 0x477f_ff00);
    let float = |r: &mut Rng, limit: f32| r.below(limit.to_bits() as u64 + 1) as u32;
    let mut w = vec![r.below(4_194_304) as u32, r.below(4_259_840) as u32, tof[0], tof[1], rt[0], rt[1], ids[0], ids[1]];
    w.extend([r.below(8) as u32, r.next() as u32, r.below(16_384) as u32, ends[0], ends[1]]);
    w.extend([r.below(65_536) as u32, ends_abs[0], ends_abs[1]]);
    w.extend([float(r, 1048576.0), float(r, 1048576.0)]);
    w.extend([float(r, 8589934592.0), float(r, 8589934592.0), float(r, 8589934592.0)]);
    w.extend([places[0], places[1], r.below(65_537) as u32, float(r, 1125899906842624.0)]);
    w.extend([float(r, 0.5) | (r.next() as u32 & 0x8000_0000), r.next() as u32]);
    while r.one_in(2) {
        let at = r.below(WORDS as u64) as usize;
        w[at] = match r.below(4) {
            0 => r.next() as u32,
            1 => any(r).to_bits(),
            2 => r.pick(&[4_194_303, 4_259_839, 16_383, 65_535, 65_536, 7, 0x477f_ff00, 0x4980_0000, 0x5000_0000, 0x5880_0000, 0x3f00_0000, 0xbf00_0000, 0x8000_0000]),
            _ => w[at].wrapping_add(r.below(3) as u32).wrapping_sub(1),
        };
    }
    w
}

/// Document 01's ranges and bounds of a peak's fields.
pub fn sound(w: &[u32]) -> bool {
    let f = |k: usize| f32::from_bits(w[k]);
    let has = |bit: u32| w[8] & bit != 0;
    w[0] <= 4_194_303
        && w[1] <= 4_259_839
        && w[2] <= w[3]
        && w[3] <= 4_259_839
        && w[4] <= w[5]
        && w[5] <= 16_383
        && w[6] <= w[7]
        && w[8] <= 7
        && w[10] <= 16_383
        && w[11] <= w[12]
        && w[12] <= 16_383
        && w[13] <= 65_535
        && w[14] <= w[15]
        && w[15] <= 65_535
        && (!has(4) || in_range(f(16), 1048576.0))
        && (!has(2) || in_range(f(17), 1048576.0))
        && (18..=20).all(|k| in_range(f(k), 8589934592.0))
        && in_range(f(21), 65535.0)
        && in_range(f(22), 65535.0)
        && f(21) <= f(22)
        && w[23] <= 65_536
        && in_range(f(24), 1125899906842624.0)
        && f(25).abs() <= 0.5
}
