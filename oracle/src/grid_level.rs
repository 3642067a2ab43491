//! Grid detection through the C entry, answers and refusals, with the lent list compared before and after.
use crate::cluster::peak::{detect_im_peaks_from_tof_scan_grid, ImDetectParams, TofScanGrid};
use crate::cluster::utility::smooth_vector_gaussian;
use crate::inputs::{any, limit, row, Rng};
use crate::leaves::in_range;
use crate::row_level::{counted, gaussian, most, near, sigma, sound_weights, WORDS};
use crate::rows::unfiltered;
use crate::tof_level::{disagrees, rust_scale};
use crate::{shapes, words, Tally};
use rubzolena::Grid;

/// A grid with its lists, and how the Rust makes its weights.
#[derive(Clone, Debug)]
pub struct Lists {
    pub data: Vec<f32>,
    pub raw: Vec<f32>,
    pub scans: Vec<u32>,
    pub mobility: Vec<f32>,
    pub weights: Vec<f32>,
    pub smoothing: Option<(f32, f32)>,
}

pub fn grid<'a>(l: &'a Lists, plain: Grid<'static>) -> Grid<'a> {
    Grid { data: &l.data, data_raw: &l.raw, scans: &l.scans, mobility: &l.mobility, weights: &l.weights, ..plain }
}

/// Document 01's number, 0 for none, with that much room in the list and that much scratch.
pub fn number(g: &Grid, room: usize, space: usize) -> u32 {
    let used = if g.data_raw.is_empty() { g.data } else { g.data_raw };
    let (rows, cols, s) = (g.rows as u128, g.cols as u128, g.scale);
    let peaks = rows * (cols.max(1) - 1).div_euclid(2);
    if used.len() as u128 != rows * cols
        || g.scans.len() as u128 != cols
        || !(g.mobility.is_empty() || g.mobility.len() as u128 == cols)
        || rows != s.num_bins as u128
    {
        return 1;
    }
    if rows > 4_194_304 || cols > 16_384 {
        return 2;
    }
    if !used.iter().all(|v| in_range(*v, 4294967296.0)) {
        return 3;
    }
    if !in_range(g.min_prom, 8589934592.0)
        || g.min_distance_scans > 65_535
        || g.min_width_scans > 65_535
        || !g.mobility.iter().all(|v| in_range(*v, 1048576.0))
        || g.rt_bounds.0 > g.rt_bounds.1
        || g.rt_bounds.1 > 16_383
        || g.frame_id_bounds.0 > g.frame_id_bounds.1
        || !(1..=65_536).contains(&s.tof_step)
        || g.first as u128 + peaks > 1 << 32
    {
        return 4;
    }
    if g.scans.iter().any(|v| *v > 65_535) || s.tof_min > 4_194_303 || s.tof_max > 4_194_303 {
        return 5;
    }
    if !(g.weights.is_empty() || sound_weights(g.weights)) {
        return 6;
    }
    if g.scans.windows(2).any(|w| w[0] >= w[1]) {
        return 7;
    }
    if (room as u128) < peaks * WORDS as u128 {
        return 20;
    }
    if space < g.cols {
        return 21;
    }
    if disagrees(&s) { 22 } else { 0 }
}

/// The Rust's grid and parameters.
pub fn rust_grid(g: &Grid) -> TofScanGrid {
    TofScanGrid {
        scans: g.scans.iter().map(|v| *v as usize).collect(),
        data: g.data.to_vec(),
        rows: g.rows,
        cols: g.cols,
        data_raw: (!g.data_raw.is_empty()).then(|| g.data_raw.to_vec()),
        scale: rust_scale(&g.scale),
    }
}

pub fn rust_params(g: &Grid, smoothing: Option<(f32, f32)>) -> ImDetectParams {
    let (smooth_sigma_scans, smooth_trunc_k) = smoothing.unwrap_or((0.0, 0.0));
    ImDetectParams {
        min_prom: g.min_prom,
        min_distance_scans: g.min_distance_scans as usize,
        min_width_scans: g.min_width_scans as usize,
        smooth_sigma_scans,
        smooth_trunc_k,
    }
}

/// The Rust's list, as words.
pub fn rust(g: &Grid, smoothing: Option<(f32, f32)>) -> Vec<u32> {
    let bounds = (g.rt_bounds.0 as usize, g.rt_bounds.1 as usize);
    let peaks = detect_im_peaks_from_tof_scan_grid(
        &rust_grid(g),
        bounds,
        g.frame_id_bounds,
        g.window_group,
        words::mobility(g.mobility),
        rust_params(g, smoothing),
    );
    words::list(&peaks, g.first)
}

pub fn sample(r: &mut Rng) -> (Lists, Grid<'static>) {
    let rows = match r.below(200) {
        0 => 2_000 + r.below(3_000) as usize,
        _ => 1 + r.below(6) as usize,
    };
    let cols = match r.below(40) {
        0 => 0,
        1 => 1,
        2 => 2,
        3 if rows < 10 => r.below(400) as usize,
        _ => 3 + r.below(12) as usize,
    };
    of_size(r, rows, cols, row, sigma)
}

/// A grid of a few rows of the shapes, with limits near those of the peaks of its first row.
fn shaped(r: &mut Rng) -> (Lists, Grid<'static>) {
    let (rows, cols) = (1 + r.below(3) as usize, limit(r));
    let (lists, mut plain) = of_size(r, rows, cols, shapes::row, counted);
    if r.one_in(2) {
        let used = if lists.raw.is_empty() { &lists.data } else { &lists.raw };
        let mut first = used[..cols].to_vec();
        if let Some((s, k)) = lists.smoothing {
            smooth_vector_gaussian(&mut first, s, k);
        }
        (plain.min_prom, plain.min_distance_scans, plain.min_width_scans) = near(r, &unfiltered(&first));
    }
    (lists, plain)
}

type RowMaker = fn(&mut Rng, usize) -> Vec<f32>;
type SigmaMaker = fn(&mut Rng) -> (f32, f32);

/// A grid of rows and smoothing that are made as said.
fn of_size(r: &mut Rng, rows: usize, cols: usize, row: RowMaker, sigma: SigmaMaker) -> (Lists, Grid<'static>) {
    let step = r.pick(&[1, 2, 3, 4, 7, 100, 65_536]).min(4_194_303 / rows as u32);
    let low = r.below((4_194_303 - step as u64 * (rows as u64 - 1)) / step as u64 + 1) as u32 * step;
    let data: Vec<f32> = (0..rows).flat_map(|_| if r.one_in(3) { vec![0.0; cols] } else { row(r, cols) }).collect();
    let (data, raw) = match r.below(3) {
        0 => (data, Vec::new()),
        1 => (Vec::new(), data),
        _ => (row(r, 7), data),
    };
    let smoothing = r.one_in(2).then(|| sigma(r));
    let mut next = r.below(50) as u32;
    let scans = (0..cols)
        .map(|_| {
            next += 1 + r.below(2) as u32;
            next
        })
        .collect();
    let plain = Grid {
        rows,
        cols,
        scale: rubzolena::TofScale { tof_min: low, tof_max: low + step * (rows as u32 - 1), tof_step: step, num_bins: rows as u32 },
        rt_bounds: (3, 9),
        frame_id_bounds: (r.below(9) as u32, 9 + r.next() as u32 % 1000),
        window_group: r.one_in(2).then(|| r.next() as u32),
        min_prom: r.pick(&[0.0, 0.0, 1.0, 3.0, 100.0, 1e9]),
        min_distance_scans: r.pick(&[0, 1, 2, 3, 5, 65_535]),
        min_width_scans: r.pick(&[0, 0, 1, 2]),
        first: r.pick(&[0, 5, 1 << 31]),
        ..Grid::default()
    };
    let mobility = if r.one_in(2) { (0..cols).map(|_| r.below(2048) as f32 / 1024.0).collect() } else { Vec::new() };
    let weights = smoothing.map_or(Vec::new(), |(s, t)| gaussian(s, t));
    (Lists { data, raw, scans, mobility, weights, smoothing }, plain)
}

/// Makes the grid one of zeros, of another size, with all its lengths in agreement.
fn resize(l: &mut Lists, g: &mut Grid<'static>, rows: usize, cols: usize) {
    (g.rows, g.cols, g.scale.num_bins) = (rows, cols, rows as u32);
    (l.data, l.raw) = (vec![0.0; rows * cols], Vec::new());
    l.scans = (0..cols as u32).collect();
    l.mobility.clear();
}

pub fn spoil(r: &mut Rng, l: &mut Lists, g: &mut Grid<'static>, room: &mut usize) {
    let one = |r: &mut Rng, list: &mut Vec<f32>| {
        if let Some(at) = list.len().checked_sub(1) {
            list[r.below(at as u64 + 1) as usize] = any(r);
        }
    };
    match r.below(22) {
        20 if r.one_in(9) => resize(l, g, 1, 16_385),
        20 | 21 => resize(l, g, 4_194_305, 0),
        0 => l.raw.push(1.0),
        1 => l.scans.push(65_535),
        2 => l.mobility.push(1.0),
        3 => g.rows = r.pick(&[0, g.rows + 1, 4_194_305, usize::MAX]),
        4 => g.cols = r.pick(&[0, g.cols + 1, 16_385, usize::MAX]),
        5 => one(r, &mut l.raw),
        6 => one(r, &mut l.data),
        7 => g.min_prom = any(r),
        8 => g.min_distance_scans = 65_536,
        9 => g.min_width_scans = 65_536,
        10 => one(r, &mut l.mobility),
        11 => g.rt_bounds = r.pick(&[(9, 3), (0, 16_384)]),
        12 => g.frame_id_bounds = (2, 1),
        13 => g.scale.tof_step = r.pick(&[0, 1, 65_537]),
        14 => g.first = u32::MAX - r.below(3) as u32,
        15 => l.scans.iter_mut().for_each(|s| *s = s.wrapping_mul(r.pick(&[0, 7, 9_999]))),
        16 => g.scale.tof_max = r.pick(&[0, 4_194_303, 4_194_304, g.scale.tof_max.wrapping_add(1)]),
        17 => g.scale.num_bins = g.scale.num_bins.wrapping_add(1),
        18 => l.weights.push(0.5),
        _ => *room = room.saturating_sub(1 + r.below(30) as usize),
    }
}

/// A grid with its lists, and the words and the scratch that are lent.
pub type Lent = (Lists, Grid<'static>, usize, usize);

/// A grid of two rows and five columns, changed, with the words and the scratch that it asks for.
fn grid_with(change: &dyn Fn(&mut Lists, &mut Grid<'static>)) -> Lent {
    let scale = rubzolena::TofScale { tof_min: 8, tof_max: 9, tof_step: 1, num_bins: 2 };
    let mut g = Grid { rows: 2, cols: 5, scale, ..Grid::default() };
    let data = vec![0.0, 4.0, 0.0, 8.0, 0.0, 0.0, 5.0, 5.0, 0.0, 0.0];
    let mut l = Lists { data, raw: Vec::new(), scans: (0..5).collect(), mobility: vec![1.0; 5], weights: Vec::new(), smoothing: None };
    change(&mut l, &mut g);
    let room = g.rows * most(g.cols) * WORDS;
    (l, g, room, g.cols)
}

/// Grids that differ in their scratch alone, without weights and with them: one row is enough. For the stored answers: the C entry is lent no
/// scratch.
pub fn scratch_edges() -> Vec<(&'static str, Lent)> {
    let lent = |is_smoothed: bool, space: usize| {
        let (l, g, room, _) = grid_with(&|l, _| {
            if is_smoothed {
                l.raw = std::mem::replace(&mut l.data, vec![0.0, 8.0, 0.0, 8.0, 0.0, 0.0, 8.0, 0.0, 8.0, 0.0]);
                (l.smoothing, l.weights) = (Some((1.0, 2.0)), gaussian(1.0, 2.0));
            }
        });
        (l, g, room, space)
    };
    let without = |space| lent(false, space);
    let smoothed = |space| lent(true, space);
    vec![
        ("scratch of one row", without(5)),
        ("one place more", without(6)),
        ("scratch of all rows", without(10)),
        ("scratch of more rows than there are", without(15)),
        ("one place too few", without(4)),
        ("no scratch", without(0)),
        ("smoothed, scratch of one row", smoothed(5)),
        ("smoothed, one place more", smoothed(6)),
        ("smoothed, scratch of all rows", smoothed(10)),
        ("smoothed, scratch of more rows than there are", smoothed(15)),
        ("smoothed, one place too few", smoothed(4)),
        ("smoothed, no scratch", smoothed(0)),
    ]
}

/// Grids on both sides of a rule, or at a limit and one past it.
pub fn edges() -> Vec<(&'static str, Lent)> {
    let grid = grid_with;
    let lent = |room: usize, space: usize| {
        let (l, g, ..) = grid(&|_, _| {});
        (l, g, room, space)
    };
    let last = u32::MAX - 3;
    vec![
        ("centres 8.5 and 9.5 are rounded up", grid(&|_, _| {})),
        ("raw data beside smoothed data, which is not looked at", grid(&|l, _| l.raw = vec![0.0, 1.0, 2.0, 1.0, 0.0, 0.0, 0.0, 3.0, 3.0, 0.0])),
        ("the same with a reading that is out of range there", grid(&|l, _| (l.raw, l.data[0]) = (vec![1.0; 10], -1.0))),
        ("three columns, smoothed", grid(&|l, g| {
            (g.cols, l.data, l.scans, l.mobility) = (3, vec![0.0, 4.0, 1.0, 0.0, 5.0, 0.0], vec![0, 1, 2], vec![1.0; 3]);
            (l.smoothing, l.weights) = (Some((1.0, 2.0)), gaussian(1.0, 2.0));
        })),
        ("a reading too few", grid(&|l, _| l.data.truncate(9))),
        ("a reading too many", grid(&|l, _| l.data.push(0.0))),
        ("a scan too few", grid(&|l, _| l.scans.truncate(4))),
        ("a scan too many", grid(&|l, _| l.scans.push(5))),
        ("a mobility too few", grid(&|l, _| l.mobility.truncate(4))),
        ("a mobility too many", grid(&|l, _| l.mobility.push(1.0))),
        ("more rows than bins", grid(&|_, g| (g.scale.tof_max, g.scale.num_bins) = (8, 1))),
        ("fewer rows than bins", grid(&|_, g| (g.scale.tof_max, g.scale.num_bins) = (10, 3))),
        ("the most rows", grid(&|l, g| {
            resize(l, g, 4_194_304, 0);
            (g.scale.tof_min, g.scale.tof_max) = (0, 4_194_303);
        })),
        ("one past it", grid(&|l, g| resize(l, g, 4_194_305, 0))),
        ("the highest reading", grid(&|l, _| l.data[3] = 4294967296.0)),
        ("one past it", grid(&|l, _| l.data[3] = 4294967808.0)),
        ("the highest floor", grid(&|_, g| g.min_prom = 8589934592.0)),
        ("one past it", grid(&|_, g| g.min_prom = 8589935616.0)),
        ("the greatest least distance", grid(&|_, g| g.min_distance_scans = 65_535)),
        ("one past it", grid(&|_, g| g.min_distance_scans = 65_536)),
        ("the greatest least width", grid(&|_, g| g.min_width_scans = 65_535)),
        ("one past it", grid(&|_, g| g.min_width_scans = 65_536)),
        ("the highest mobility", grid(&|l, _| l.mobility[4] = 1048576.0)),
        ("one past it", grid(&|l, _| l.mobility[4] = 1048576.1)),
        ("equal frames and frame numbers", grid(&|_, g| (g.rt_bounds, g.frame_id_bounds) = ((3, 3), (4, 4)))),
        ("reversed frames", grid(&|_, g| g.rt_bounds = (4, 3))),
        ("reversed frame numbers", grid(&|_, g| g.frame_id_bounds = (4, 3))),
        ("the highest frame", grid(&|_, g| g.rt_bounds = (3, 16_383))),
        ("one past it", grid(&|_, g| g.rt_bounds = (3, 16_384))),
        ("a step of 0", grid(&|_, g| g.scale.tof_step = 0)),
        ("the greatest step", grid(&|_, g| g.scale = rubzolena::TofScale { tof_min: 0, tof_max: 65_536, tof_step: 65_536, num_bins: 2 })),
        ("one past it", grid(&|_, g| g.scale = rubzolena::TofScale { tof_min: 0, tof_max: 65_537, tof_step: 65_537, num_bins: 2 })),
        ("the last identities", grid(&|_, g| g.first = last)),
        ("one past them", grid(&|_, g| g.first = last + 1)),
        ("the highest scan", grid(&|l, _| l.scans[4] = 65_535)),
        ("one past it", grid(&|l, _| l.scans[4] = 65_536)),
        ("the highest TOF", grid(&|_, g| (g.scale.tof_min, g.scale.tof_max) = (4_194_302, 4_194_303))),
        ("one past it", grid(&|_, g| (g.scale.tof_min, g.scale.tof_max) = (4_194_303, 4_194_304))),
        ("the lowest TOF at its limit, on a scale that disagrees", grid(&|_, g| g.scale.tof_min = 4_194_303)),
        ("one past it", grid(&|_, g| g.scale.tof_min = 4_194_304)),
        ("equal scans", grid(&|l, _| l.scans[4] = 3)),
        ("a place too few", lent(3 * WORDS, 5)),
        ("scratch too short by one", lent(4 * WORDS, 4)),
        ("a scale that disagrees", grid(&|_, g| g.scale.tof_max = 10)),
        ("rows of zeros", grid(&|l, _| l.data = vec![0.0; 10])),
        ("a weight of 1 beside the middle one", grid(&|l, _| (l.weights, l.smoothing) = (vec![1.0; 3], Some((1e6, 1e-6))))),
        ("an even count of weights", grid(&|l, _| l.weights = vec![1.0; 2])),
    ]
}

pub fn compare(t: &mut Tally, count: u64) {
    for (_, (lists, plain, room, _)) in edges() {
        same(t, &lists, plain, room);
        t.corners += 1;
    }
    let mut r = Rng::new(6);
    for _ in 0..count {
        let (mut lists, mut plain) = if r.one_in(10) { shaped(&mut r) } else { sample(&mut r) };
        let mut room = WORDS * plain.rows * most(plain.cols) + r.below(3) as usize;
        while r.one_in(3) {
            spoil(&mut r, &mut lists, &mut plain, &mut room);
        }
        same(t, &lists, plain, room);
    }
}

fn same(t: &mut Tally, lists: &Lists, plain: Grid<'static>, room: usize) {
    let g = grid(lists, plain);
    let before: Vec<u32> = (0..room).map(|k| k as u32 ^ 0x5555_5555).collect();
    let (mut out, mut expected) = (before.clone(), before);
    let port = g.detect_into(&mut out);
    let refusal = number(&g, room, usize::MAX);
    let mut answer = Err(refusal);
    if refusal == 0 {
        let list = rust(&g, lists.smoothing);
        answer = Ok(list.len() / WORDS);
        expected[..list.len()].copy_from_slice(&list);
    }
    let shown = (g.rows, g.cols, g.scale, lists.smoothing);
    t.same("grid: count or number", &shown, port, answer);
    t.same("grid: list", &shown, out == expected, true);
}
