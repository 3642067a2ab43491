//! Frame indexes, by kind, and their times: building them frame by frame, and summing the traces of peaks over them. The port goes
//! through the C entries, its buffers made beforehand; of the Rust only the calls are timed, not the making of its frames.
use crate::bench::{by_turns, line, Side};
use crate::cluster::peak::{build_frame_bin_view, rt_trace_for_im_peak_by_bounds};
use crate::frames_level::View;
use crate::inputs::Rng;
use crate::tof_level::rust_scale;
use mscore::timstof::frame::TimsFrame;
use rubzolena::{build_frame_bin_view_into, rt_traces_for_im_peaks_by_bounds_into, FrameRoom, FrameScratch, Index, TofScale, WORDS};
use std::cell::RefCell;
use std::hint::black_box;

/// Some 100,000 TOF values, as an instrument has them: a bin of two each.
const SCALE: TofScale = TofScale { tof_min: 20_000, tof_max: 220_000, tof_step: 2, num_bins: 100_001 };
const SCANS: u32 = 917;

/// The TOF value of the k-th of n points.
struct Kind {
    name: &'static str,
    tof: fn(&mut Rng, u64, u64) -> u64,
}

const KINDS: [Kind; 8] = [
    Kind { name: "random bins", tof: |r, _, _| 20_000 + r.below(200_001) },
    Kind { name: "40 points a bin", tof: |r, _, n| 20_000 + 2 * (r.below(n / 40 + 1) * 17 % 100_001) },
    Kind { name: "all in one bin", tof: |_, _, _| 50_000 },
    Kind { name: "bins falling", tof: |_, k, n| 220_000 - k * 200_000 / n },
    Kind { name: "bins rising", tof: |_, k, n| 20_000 + k * 200_000 / n },
    Kind { name: "scan after scan", tof: |r, k, n| 20_000 + (k % 20) * 10_000 + r.below(10_000) + 0 * n },
    Kind { name: "half without a bin", tof: |r, _, _| r.below(400_001) },
    Kind { name: "two bins", tof: |r, _, _| 50_000 + 2 * r.below(2) },
];

fn made(kind: &Kind, frames: usize, points: usize) -> Vec<View> {
    let mut r = Rng::new(12);
    (0..frames)
        .map(|_| {
            let list: Vec<(u32, u32, f32)> = (0..points as u64)
                .map(|k| ((kind.tof)(&mut r, k, points as u64) as u32, (k * SCANS as u64 / points as u64) as u32, 10.0 + r.below(2_000) as f32))
                .collect();
            View::new(&list, SCALE, SCANS, 0)
        })
        .collect()
}

/// The lists of an index that grows frame by frame, and scratch.
pub struct Lists {
    pub starts: Vec<u32>,
    pub bins: Vec<u32>,
    pub offsets: Vec<u32>,
    pub scans: Vec<u32>,
    pub readings: Vec<f32>,
    scratch: [Vec<u32>; 3],
}

impl Lists {
    fn new(frames: &[View]) -> Self {
        let (points, most) = (frames.iter().map(|f| f.tofs.len()).sum::<usize>(), frames.iter().map(|f| f.tofs.len()).max().unwrap());
        Lists {
            starts: vec![0; frames.len() + 1],
            bins: vec![0; points],
            offsets: vec![0; points + 1],
            scans: vec![0; points],
            readings: vec![0.0; points],
            scratch: [(); 3].map(|_| vec![0; most]),
        }
    }

    /// Builds the index, frame after frame, and gives the counts of bins and points.
    fn build(&mut self, frames: &[View]) -> (usize, usize) {
        let (mut b, mut p) = (0, 0);
        for (k, f) in frames.iter().enumerate() {
            let room = FrameRoom {
                bins: &mut self.bins[b..],
                offsets: &mut self.offsets[b..],
                scans: &mut self.scans[p..],
                readings: &mut self.readings[p..],
            };
            let [keys, order, spare] = &mut self.scratch;
            let (bins, points) = build_frame_bin_view_into(f.frame(), f.scale, f.count, p, room, FrameScratch { keys, order, spare }).unwrap();
            (b, p) = (b + bins, p + points);
            self.starts[k + 1] = b as u32;
        }
        (b, p)
    }
}

/// Times building on both sides. The Rust uses its frames up, so there is a set for each turn, made beforehand.
fn building(what: &str, frames: &[View]) {
    let mut lists = Lists::new(frames);
    let (bins, _) = lists.build(frames);
    let scale = rust_scale(&SCALE);
    let made: Vec<TimsFrame> = frames.iter().map(View::rust_frame).collect();
    let sets: RefCell<Vec<Vec<TimsFrame>>> = RefCell::new(Vec::new());
    let rust = Side::after(
        |turns| sets.borrow_mut().extend((0..turns).map(|_| made.clone())),
        || {
            let set = sets.borrow_mut().pop().unwrap();
            let views: Vec<_> = set.into_iter().map(|f| build_frame_bin_view(f, &scale, SCANS as usize)).collect();
            black_box(views);
        },
    );
    let port = Side::new(|| {
        black_box(lists.build(black_box(frames)));
    });
    let mut sides = [rust, port];
    by_turns(&mut sides);
    line(what, Some(bins as f64), sides[0].least, sides[1].least);
}

/// How peaks lie about points of the run: to either side so many TOF values and scans, and the pad.
struct Reach {
    name: &'static str,
    tofs: u32,
    scans: u32,
    pad: u32,
}

const REACHES: [Reach; 3] = [
    Reach { name: "narrow", tofs: 1, scans: 10, pad: 2 },
    Reach { name: "200 bins", tofs: 200, scans: 10, pad: 0 },
    Reach { name: "all bins and scans", tofs: 200_000, scans: 1_000, pad: 0 },
];

/// Peaks about points of the frames.
fn peaks(frames: &[View], count: usize, reach: &Reach) -> Vec<[u32; WORDS]> {
    let mut r = Rng::new(13);
    (0..count)
        .map(|_| {
            let f = &frames[r.below(frames.len() as u64) as usize];
            let k = r.below(f.tofs.len() as u64) as usize;
            let (tof, scan) = (f.tofs[k], f.scans[k].min(SCANS - 1));
            let mut w = [0; WORDS];
            (w[2], w[3]) = (tof.saturating_sub(reach.tofs), tof + reach.tofs);
            (w[14], w[15]) = (scan.saturating_sub(reach.scans), scan + reach.scans);
            w
        })
        .collect()
}

/// Times the traces of peaks on both sides: the port's in one call, the Rust's in one a peak.
fn traces(what: &str, frames: &[View], count: usize, reach: &Reach) {
    let mut lists = Lists::new(frames);
    let (bins, points) = lists.build(frames);
    let index = Index {
        starts: &lists.starts,
        bins: &lists.bins[..bins],
        offsets: &lists.offsets[..=bins],
        scans: &lists.scans[..points],
        readings: &lists.readings[..points],
    };
    let scale = rust_scale(&SCALE);
    let views: Vec<_> = frames.iter().map(|f| build_frame_bin_view(f.rust_frame(), &scale, SCANS as usize)).collect();
    let peaks = peaks(frames, count, reach);
    let list = peaks.concat();
    let (mut out, mut windows) = (vec![0.0; count * frames.len()], vec![0; 4 * count]);
    let rust = Side::new(|| {
        for w in black_box(&peaks) {
            let tofs = (w[2] as i32, w[3] as i32);
            black_box(rt_trace_for_im_peak_by_bounds(&views, &scale, tofs, reach.pad as usize, w[14] as usize, w[15] as usize));
        }
    });
    let port = Side::new(|| {
        black_box(rt_traces_for_im_peaks_by_bounds_into(black_box(index), SCALE, &list, reach.pad, &mut out, &mut windows)).unwrap();
    });
    let mut sides = [rust, port];
    by_turns(&mut sides);
    line(what, None, sides[0].least, sides[1].least);
}

/// The indexes whose name is asked for.
pub fn run(asked: impl Fn(&str) -> bool) {
    for (frames, points) in [(1_000, 1_000), (100, 100), (1_000, 10), (10, 100_000)] {
        for kind in &KINDS {
            let what = format!("index of {frames} x {points}, {}", kind.name);
            if asked(&what) {
                building(&what, &made(kind, frames, points));
            }
        }
    }
    for (frames, points, count) in [(1_000, 1_000, 2_000), (1_000, 100, 2_000), (1_000, 10, 2_000), (1_000, 1_000, 1)] {
        for kind in &KINDS {
            for reach in &REACHES {
                let what = format!("{count} traces over {frames} x {points}, {}, {}", kind.name, reach.name);
                // reaching all of many points takes seconds a turn
                if asked(&what) && (count == 1 || points < 1_000 || reach.tofs < 1_000) {
                    traces(&what, &made(kind, frames, points), count, reach);
                }
            }
        }
    }
}
