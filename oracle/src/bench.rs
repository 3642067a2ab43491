//! Times both sides on the same inputs, in one thread, and prints how many times faster the port is; then how the port's time
//! grows with the length of a row. With a word, only the lines whose name has it.
use crate::cluster::peak::{detect_im_peaks_from_tof_scan_grid, TofScanGrid};
use crate::cluster::utility::{find_im_peaks_row, smooth_vector_gaussian};
use crate::grid_level::{grid, rust_grid, rust_params, Lists};
use crate::inputs::Rng;
use crate::row_level::{gaussian, most, Row, WORDS};
use crate::shapes::{named, Kind, KINDS, USUAL};
use crate::{frames_bench, probe, retention_bench, stitch_bench, words};
use rubzolena::{Grid, TofScale};
use std::hint::black_box;

#[repr(C)]
struct Timespec {
    seconds: i64,
    nanoseconds: i64,
}

extern "C" {
    fn clock_gettime(clock: i32, time: *mut Timespec) -> i32;
}

/// The processor time of this thread, in nanoseconds.
fn now() -> f64 {
    const THREAD: i32 = 3;
    let mut t = Timespec { seconds: 0, nanoseconds: 0 };
    assert_eq!(unsafe { clock_gettime(THREAD, &mut t) }, 0);
    t.seconds as f64 * 1e9 + t.nanoseconds as f64
}

/// The time a line may take on each side, in nanoseconds, and the rounds it is spread over.
const SHARE: f64 = 60e6;
const ROUNDS: u32 = 7;

/// One side of a line: what is made ready for so many turns and not timed, its work, and the least time of it in a round.
pub struct Side<'a> {
    ready: Box<dyn FnMut(u64) + 'a>,
    work: Box<dyn FnMut() + 'a>,
    pub least: f64,
    spent: f64,
}

impl<'a> Side<'a> {
    pub fn new(work: impl FnMut() + 'a) -> Self {
        Side::after(|_| {}, work)
    }

    pub fn after(ready: impl FnMut(u64) + 'a, work: impl FnMut() + 'a) -> Self {
        Side { ready: Box::new(ready), work: Box::new(work), least: f64::INFINITY, spent: 0.0 }
    }

    /// The work as often as its share allows, the first time once.
    fn round(&mut self) {
        let turns = (SHARE / ROUNDS as f64 / self.least).max(1.0).floor();
        (self.ready)(turns as u64);
        let start = now();
        for _ in 0..turns as u64 {
            (self.work)();
        }
        let taken = now() - start;
        self.least = self.least.min(taken / turns);
        self.spent += taken;
    }
}

/// Rounds of all sides by turns, till each has had its share.
pub fn by_turns(sides: &mut [Side]) {
    for _ in 0..=ROUNDS {
        for side in sides.iter_mut() {
            if side.spent < SHARE {
                side.round();
            }
        }
    }
}

/// What has been printed: of the rows with peaks, samples, peaks a sample, whether smoothed, ratio and name.
struct Bench {
    word: String,
    rows: Vec<(usize, f64, bool, f64, String)>,
    out: Vec<u32>,
}

/// A grid on both sides.
struct Both {
    lists: Lists,
    plain: Grid<'static>,
    rust: TofScanGrid,
}

/// A grid of those readings, with a mobility table, over scans from 0.
fn both(data: Vec<f32>, cols: usize, (floor, width): (f32, u32), distance: u32, smoothing: Option<(f32, f32)>) -> Both {
    let rows = data.len() / cols;
    let lists = Lists {
        data,
        raw: Vec::new(),
        scans: (0..cols as u32).collect(),
        mobility: (0..cols).map(|i| 1.0 + i as f32 / cols as f32).collect(),
        weights: smoothing.map_or(Vec::new(), |(s, k)| gaussian(s, k)),
        smoothing,
    };
    let plain = Grid {
        rows,
        cols,
        scale: TofScale { tof_min: 0, tof_max: rows as u32 - 1, tof_step: 1, num_bins: rows as u32 },
        min_prom: floor,
        min_distance_scans: distance,
        min_width_scans: width,
        ..Grid::default()
    };
    let rust = rust_grid(&grid(&lists, plain));
    Both { lists, plain, rust }
}

/// That many rows of a kind, the same whatever else is timed, and alike for every length.
fn made(kind: &Kind, n: usize, count: u64) -> Vec<Vec<f32>> {
    (0..count).map(|k| (kind.make)(&mut Rng::new(9 + k), n)).collect()
}

/// What a name says of limits other than the usual ones.
fn limits((floor, width): (f32, u32)) -> String {
    let mut text = String::new();
    if floor != USUAL.0 {
        text += &format!(", floor {floor}");
    }
    if width != USUAL.1 {
        text += &format!(", width {width}");
    }
    text
}

const SMOOTH: (f32, f32) = (3.0, 3.0);

/// 257 weights.
const WIDE: (f32, f32) = (32.0, 4.0);

impl Bench {
    fn asked(&self, what: &str) -> bool {
        what.contains(&self.word)
    }

    fn room(&mut self, words: usize) {
        if self.out.len() < words {
            self.out = vec![0; words];
        }
    }

    /// Detection through the C entry over a set of grids, one after another, the list allocated beforehand; times are a grid's.
    fn detection(&mut self, what: &str, set: &[Both]) {
        let grids: Vec<Grid> = set.iter().map(|b| grid(&b.lists, b.plain)).collect();
        let (rows, cols, smoothing) = (grids[0].rows, grids[0].cols, set[0].lists.smoothing);
        self.room(grids[0].most_peaks() * WORDS);
        let (out, params, mobility) = (&mut self.out, rust_params(&grids[0], smoothing), words::mobility(&set[0].lists.mobility));
        let found: usize = grids.iter().map(|g| g.detect_into(out).unwrap()).sum();
        let rust = Side::new(|| {
            for b in set {
                black_box(detect_im_peaks_from_tof_scan_grid(black_box(&b.rust), (0, 0), (0, 0), None, mobility, params));
            }
        });
        let port = Side::new(|| {
            for g in &grids {
                black_box(black_box(g).detect_into(out)).unwrap();
            }
        });
        let mut sides = [rust, port];
        by_turns(&mut sides);
        let peaks = found as f64 / set.len() as f64;
        let [rust, port] = sides.map(|s| s.least / set.len() as f64);
        line(what, Some(peaks), rust, port);
        if rows == 1 && cols >= 1_000 && peaks >= 1.0 {
            self.rows.push((cols, peaks / cols as f64, smoothing.is_some(), rust / port, what.to_string()));
        }
    }

    /// Rows of each kind, in sets, since a row that comes again and again is foretold by the processor.
    fn kinds(&mut self) {
        for (n, size) in [(1_000, 16), (16_384, 4)] {
            for kind in &KINDS {
                for at in kind.limits {
                    let rows: Vec<Vec<f32>> = made(kind, n, size);
                    for smoothing in [None, Some(SMOOTH)] {
                        let how = if smoothing.is_some() { ", 19 weights" } else { "" };
                        let what = format!("row of {n}, {}{}{how}", kind.name, limits(*at));
                        if self.asked(&what) {
                            let set: Vec<Both> = rows.iter().map(|y| both(y.clone(), n, *at, 2, smoothing)).collect();
                            self.detection(&what, &set);
                        }
                    }
                }
            }
        }
    }

    fn small_rows(&mut self) {
        for name in ["dense", "sparse"] {
            for n in [3, 10, 30, 100, 300] {
                let what = format!("row of {n}, {name}");
                let set: Vec<Both> = made(named(name), n, 16).into_iter().map(|y| both(y, n, USUAL, 2, None)).collect();
                if self.asked(&what) {
                    self.detection(&what, &set);
                }
            }
        }
    }

    fn grids(&mut self) {
        let kinds = ["sparse", "dense", "drifting ground", "random walk", "plateaus"];
        for (name, rows, how) in kinds.map(|k| (k, 1_024, Some(SMOOTH))).into_iter().chain([("zeros", 4_096, Some(WIDE))]) {
            for smoothing in [None, how] {
                let weights = smoothing.map_or(0, |(s, k)| gaussian(s, k).len());
                let how = if weights > 0 { format!(", {weights} weights") } else { String::new() };
                let what = format!("grid of {rows} x 1000, {name}{how}");
                if self.asked(&what) {
                    let data = made(named(name), 1_000, rows).concat();
                    self.detection(&what, &[both(data, 1_000, USUAL, 2, smoothing)]);
                }
            }
        }
    }

    /// Rows as slices of floats, without the C entry.
    fn slices(&mut self) {
        for n in [1_000, 16_384] {
            for name in ["sparse", "dense"] {
                let what = format!("slice of {n}, {name}");
                let rows: Vec<Row> = made(named(name), n, 16).into_iter().map(row_of).collect();
                if self.asked(&what) {
                    self.both_rows(&what, &rows);
                }
            }
        }
    }

    fn both_rows(&mut self, what: &str, rows: &[Row]) {
        self.room(rows[0].room);
        let out = &mut self.out;
        let axis: Vec<usize> = rows[0].axis.iter().map(|s| *s as usize).collect();
        let mobility = words::mobility(&rows[0].mobility);
        let found: usize = rows.iter().map(|row| probe::find_im_peaks_row(row, &mut out[..row.room]).1).sum();
        let rust = Side::new(|| {
            for row in rows {
                black_box(find_im_peaks_row(
                    black_box(&row.smoothed),
                    &row.raw,
                    7,
                    71,
                    (70, 72),
                    (0, 9),
                    (100, 109),
                    row.group,
                    mobility,
                    row.min_prom,
                    row.min_distance as usize,
                    row.min_width as usize,
                    &axis,
                ));
            }
        });
        let port = Side::new(|| {
            for row in rows {
                black_box(probe::find_im_peaks_row(black_box(row), &mut out[..row.room]));
            }
        });
        let mut sides = [rust, port];
        by_turns(&mut sides);
        let [rust, port] = sides.map(|s| s.least / rows.len() as f64);
        line(what, Some(found as f64 / rows.len() as f64), rust, port);
    }

    fn smoothing(&mut self) {
        for n in [1_000, 16_384] {
            for (sigma, truncate) in [SMOOTH, WIDE] {
                let raw = made(named("dense"), n, 1).concat();
                let weights = gaussian(sigma, truncate);
                let what = format!("smoothing {n}, {} weights", weights.len());
                if !self.asked(&what) {
                    continue;
                }
                let (mut v, mut w, mut scratch) = (raw.clone(), raw.clone(), vec![0.0f32; n]);
                let rust = Side::new(|| {
                    v.copy_from_slice(&raw);
                    smooth_vector_gaussian(black_box(&mut v), sigma, truncate);
                });
                let port = Side::new(|| {
                    w.copy_from_slice(&raw);
                    black_box(probe::smooth_vector_gaussian(black_box(&mut w), &weights, &mut scratch));
                });
                let mut sides = [rust, port];
                by_turns(&mut sides);
                line(&what, None, sides[0].least, sides[1].least);
            }
        }
    }

    /// The port's time for rows of each kind with no limits, and its factor from each length to the double one.
    fn growth(&mut self) {
        for kind in &KINDS {
            let what = format!("growth, {}", kind.name);
            if !self.asked(&what) {
                continue;
            }
            let times = [4_096, 8_192, 16_384].map(|n| {
                let set: Vec<Both> = made(kind, n, 4).into_iter().map(|y| both(y, n, (0.0, 0), 0, None)).collect();
                self.room(most(n) * WORDS);
                let mut port = Side::new(|| {
                    for b in &set {
                        black_box(black_box(grid(&b.lists, b.plain)).detect_into(&mut self.out)).unwrap();
                    }
                });
                by_turns(std::slice::from_mut(&mut port));
                port.least / set.len() as f64
            });
            let [a, b, c] = times;
            println!("{what:<62} 4096 {a:>9.0} ns  8192 {b:>10.0} ns ({:.2})  16384 {c:>10.0} ns ({:.2})", b / a, c / b);
        }
    }

    /// The lowest ratio of the rows that have peaks, and of those that have one in two hundred samples.
    fn lowest(&self) {
        for n in [1_000, 16_384] {
            for (smoothed, how) in [(false, "no weights"), (true, "19 weights")] {
                for (share, which) in [(0.0, "with peaks"), (0.005, "with a peak in 200 samples")] {
                    let these = self.rows.iter().filter(|l| l.0 == n && l.1 >= share && l.2 == smoothed);
                    if let Some(l) = these.min_by(|a, b| a.3.total_cmp(&b.3)) {
                        println!("lowest ratio of rows of {n} {which}, {how}: {:.2} ({})", l.3, l.4);
                    }
                }
            }
        }
    }
}

pub fn run(word: &str) {
    let mut bench = Bench { word: word.to_string(), rows: Vec::new(), out: Vec::new() };
    bench.small_rows();
    bench.kinds();
    bench.slices();
    bench.smoothing();
    bench.grids();
    stitch_bench::run(|what| bench.asked(what));
    frames_bench::run(|what| bench.asked(what));
    retention_bench::run(|what| bench.asked(what));
    bench.growth();
    bench.lowest();
}

pub fn line(what: &str, peaks: Option<f64>, rust: f64, port: f64) {
    let peaks = peaks.map_or(String::new(), |p| format!("{p:.0} peaks"));
    println!("{what:<62} {peaks:>13}  Rust {rust:>11.0} ns  port {port:>11.0} ns  ratio {:>7.2}", rust / port);
}

fn row_of(raw: Vec<f32>) -> Row {
    let n = raw.len();
    Row {
        smoothed: raw.clone(),
        raw,
        place: [7, 71, 70, 72],
        bounds: [0, 9, 100, 109],
        group: Some(1),
        mobility: (0..n).map(|i| 1.0 + i as f32 / n as f32).collect(),
        min_prom: USUAL.0,
        min_distance: 2,
        min_width: USUAL.1,
        axis: (0..n as u32).collect(),
        first: 0,
        room: WORDS * most(n),
    }
}
