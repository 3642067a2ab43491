//! The answers that the program `test_replay_answers` replays: document 01's corners first, then seeded inputs.
use crate::inputs::{any, length, place, row, Rng};
use crate::leaves::{self, area};
use crate::rows::unfiltered;
use crate::tof_level::{self, Asked};
use crate::words::hexadecimal;
use crate::{bits, cluster::utility, grid_level, records, row_level};
use rubzolena::{Grid, TofScale};

const HEAD: &str = "\
# Answers of the Rust, replayed by the program beside this file.
# Made by 'oracle sample' (oracle/src/sample.rs, seed 4) from utility.rs and peak.rs of ms-io, repository MS-Simulation/mscore
# at f9e2c8ac42, unchanged, in a release build. Numbers of document 01 and soundness of records (number 9), of which the Rust
# knows nothing, are the comparison's own, written from document 01.
# A line: function, arguments, answer, as hexadecimal words; floats as bit patterns, every NaN as 7fc00000.
#  1 max a b      2 min a b    3 abs x     4 clamp x lo hi   5 floor x   6 ceil x   7 round x
#  8 x as u32     9 n as f32   a bits x    b lerp a b t      c quad_subsample y0 y1 y2
# 10 area x0 x1 y..  11 its number (0: none)  12 candidate i y..  13 prominence i y..
# 14 left crossing of the half height i y..   15 right crossing   16 record sound w..
# 20 row finder: lengths of smoothed row, raw row, scan axis and mobility table, places of the list; TOF row, centre and bounds;
#    frames and frame numbers; group (0 or 1) and its number; floor, least distance, least width; first identity; the four
#    lists; then the number, the count and the words of the list
# 21 smoothing: lengths of row, weights and scratch; row and weights; then the number and the row afterwards
# A scale is its lowest and highest TOF, step and count of bins. An answer of a scale is 0 and two words, 1 for none, or 2 and
# the number.
# 28 scale of TOF values: step, count, values; then 0 and the scale, 1 for none, or 2 and the number
# 29 bin of a TOF: scale, TOF   2a bins of a window: scale, two TOFs   2b centre of a bin: scale, bin
# 2c centre at a place: scale, place   2d edges of a bin: scale, bin
# 30 grid: rows, columns; lengths of data, raw data, scans, mobility table, weights and scratch, places of the list; scale; frames
#    and frame numbers; group (0 or 1) and its number; floor, least distance, least width; first identity; the five lists; then
#    the number, the count and the words of the list";

fn line(function: u32, words: &[u32]) {
    println!("{function:x} {}", hexadecimal(words));
}

/// Where a rule is turned every line has its place, that of one that is not there too.
fn absent(lines: u32) {
    for _ in 0..if cfg!(turned) { lines } else { 0 } {
        println!("-");
    }
}

/// Printed grids of three columns or more by the scratch that they lend, without weights and with them. Of the accepted ones those that have a
/// peak, of the refused ones those with 21.
#[derive(Default)]
struct Scratches([[u32; 5]; 2]);

impl Scratches {
    fn count(&mut self, g: &Grid, space: usize, number: u32, peaks: usize) {
        let kind = match space {
            0 => 0,
            _ if space + 1 == g.cols => 1,
            _ if space == g.cols => 2,
            _ if space == g.cols + 1 => 3,
            _ if space >= 2 * g.cols => 4,
            _ => return,
        };
        if g.cols > 2 && (number == 21 || (number == 0 && peaks > 0)) {
            self.0[usize::from(!g.weights.is_empty())][kind] += 1;
        }
    }

    /// Each kind must be there: stored answers without one would not notice what is asked of the scratch.
    fn said(&self) {
        let [without, with] = self.0;
        eprintln!("oracle: grids by scratch (none, one place too few, one row, one place more, two rows or more): {without:?}, with weights {with:?}");
        assert!(self.0.iter().flatten().all(|n| *n > 0), "a kind of scratch is not printed");
    }
}

/// Prints the corners, and seeded inputs of every kind that many times over.
pub fn print(seed: u64, times: u32) {
    let mut scratches = Scratches::default();
    println!("{HEAD}");
    println!("# Minus zero on a symmetric apex, plus zero where it bends less than 1e-12, and where the bend rounds to 0.");
    for y in [[4.0, 8.0, 4.0], [0.0, 1e-45, 0.0], [0.0, 1e-13, 0.0], [16777215.0, 16777216.0, 16777216.0]] {
        quad(y[0], y[1], y[2]);
    }
    println!("# Round is not the floor of x + 0.5.");
    for x in [0.49999997, 0.5, 1.5, 2.5, -0.5, -2.5, 8388607.5, 8388609.0, -0.3, -0.0] {
        whole(x);
    }
    println!("# Half height rounds to the apex (8388609 8388610 8388609) or not (8388608 8388609 8388608); plateau to the end.");
    for y in [vec![8388609.0, 8388610.0, 8388609.0], vec![8388608.0, 8388609.0, 8388608.0], vec![0.0, 5.0, 5.0], vec![0.0, 4.0, 0.0, 8.0, 0.0]] {
        apexes(&y);
    }
    println!("# The area's last segment is missing where the right end is the last index and the left end below the last but one.");
    for (x0, x1) in [(1.0, 3.0), (2.0, 3.0), (0.0, 3.0), (0.0, 2.5)] {
        areas(&[1.0, 2.0, 4.0, 8.0], x0, x1);
    }
    areas(&[8388608.0, 8388609.0, 8388608.0], 0.0, 2.0);
    println!("# Refused: a reading, then a place, minus zero among them.");
    areas(&[1.0, -0.0], 0.0, 1.0);
    areas(&[1.0, 4294967552.0], 0.0, -0.0);
    areas(&[1.0, 4294967296.0], -0.0, 1.0);
    areas(&[1.0, 2.0], 0.0, 65535.004);
    println!("# Seeded inputs.");
    let mut r = Rng::new(seed);
    for _ in 0..60 * times {
        let (x, y, z) = (any(&mut r), any(&mut r), any(&mut r));
        if x != y {
            line(1, &[bits(x), bits(y), bits(x.max(y))]);
            line(2, &[bits(x), bits(y), bits(x.min(y))]);
        }
        line(3, &[bits(x), bits(x.abs())]);
        if y <= z {
            line(4, &[bits(x), bits(y), bits(z), bits(x.clamp(y, z))]);
        }
        whole(x);
        line(8, &[bits(x), x as u32]);
        let n = r.next() as u32 >> r.below(32);
        line(9, &[n, bits(n as f32)]);
        line(10, &[x.to_bits(), bits(x)]);
        line(11, &[bits(x), bits(y), bits(z), bits(utility::lerp(x, y, z))]);
        quad(x, y, z);
        let n = length(&mut r).min(40);
        let samples = row(&mut r, n);
        apexes(&samples);
        areas(&samples, place(&mut r, n), place(&mut r, n));
        let record = records::record(&mut r);
        line(22, &[&record[..], &[records::sound(&record) as u32]].concat());
    }
    println!("# Document 01's cases (a) to (g): row, floor, least distance.");
    for (y, floor, distance) in CASES {
        let raw: Vec<f32> = y.iter().map(|v| *v as f32).collect();
        row_line(&row_level::case(raw, *floor, *distance));
    }
    println!("# Rows, whole and spoilt.");
    for _ in 0..250 * times {
        let mut row = row_level::sample(&mut r);
        while r.one_in(4) {
            row_level::spoil(&mut r, &mut row);
        }
        let longest = [row.smoothed.len(), row.raw.len(), row.axis.len(), row.mobility.len()].into_iter().max();
        if longest < Some(30) && row.room % records::WORDS == 0 {
            row_line(&row);
        }
    }
    println!("# Smoothing.");
    for _ in 0..60 * times {
        let n = length(&mut r).min(30);
        let (sigma, truncate) = row_level::sigma(&mut r);
        let weights = row_level::gaussian(sigma, truncate);
        if weights.len() < 40 {
            smoothing_line(&row(&mut r, n), &weights, sigma, truncate);
        }
    }
    println!("# Document 01's case (h), TOF 0 to 10 and step 4: three bins, 8 in bin 2, 9 in none; case (l): the centre 7.5, which a record rounds to 8.");
    build_line(&[0, 10], 4, 1);
    let three = TofScale { tof_min: 0, tof_max: 8, tof_step: 4, num_bins: 3 };
    for tof in [0, 3, 4, 8, 9, 10] {
        scale_line(&three, Asked::Bin(tof));
    }
    scale_line(&TofScale { tof_min: 7, tof_max: 9, tof_step: 1, num_bins: 3 }, Asked::Center(0));
    println!("# One distinct TOF gives no scale.");
    build_line(&[7, 7, 7], 1, 2);
    println!("# TOF scales.");
    for _ in 0..80 * times {
        let (tofs, step) = tof_level::tofs(&mut r);
        build_line(&tofs, step, 1 + r.below(5) as usize);
    }
    for _ in 0..400 * times {
        let scale = tof_level::scale(&mut r);
        let asked = tof_level::asked(&mut r, &scale);
        scale_line(&scale, asked);
    }
    println!("# Grids, whole and spoilt.");
    for _ in 0..150 * times {
        let (mut lists, mut plain) = grid_level::sample(&mut r);
        let mut room = plain.rows * row_level::most(plain.cols) * records::WORDS;
        let space = if r.one_in(20) { plain.cols.saturating_sub(1) } else { plain.cols + r.below(3) as usize };
        while r.one_in(3) {
            grid_level::spoil(&mut r, &mut lists, &mut plain, &mut room);
        }
        if lists.weights.len() <= 64 {
            grid_line(&lists, plain, room / records::WORDS, space, &mut scratches);
        }
    }
    println!("# 255 and 257 weights, the most that are accepted, on rows shorter and longer than they reach; 259 are refused.");
    for (sigma, truncate) in [(31.75, 4.0), (32.0, 4.0), (32.25, 4.0)] {
        let weights = row_level::gaussian(sigma, truncate);
        for n in [3, 129, 300] {
            smoothing_line(&row(&mut r, n), &weights, sigma, truncate);
        }
        for _ in 0..6 * times {
            let (mut lists, plain) = grid_level::sample(&mut r);
            (lists.weights, lists.smoothing) = (weights.clone(), Some((sigma, truncate)));
            grid_line(&lists, plain, plain.rows * row_level::most(plain.cols), plain.cols, &mut scratches);
        }
    }
    edges(&mut scratches);
    if !cfg!(turned) {
        scratches.said();
    }
}

/// Prints what stands on both sides of a rule, or at a limit and one past it (turned.list).
fn edges(scratches: &mut Scratches) {
    println!("# At a limit and one past it: bends, areas, records.");
    for y in leaves::bends() {
        quad(y[0], y[1], y[2]);
    }
    for (y, x0, x1) in leaves::areas() {
        areas(&y, x0, x1);
    }
    for w in records::edges() {
        line(22, &[&w[..], &[records::sound(&w) as u32]].concat());
    }
    for (what, row) in row_level::edges() {
        println!("# A row: {what}.");
        row_line(&row);
    }
    println!("# Smoothing: a sample, scratch and weights at a limit and one past it.");
    for (v, weights, sigma, truncate, scratch) in row_level::smoothing_edges() {
        smoothing(&v, &weights, sigma, truncate, scratch);
    }
    println!("# TOF scales: at a limit and one past it.");
    for (tofs, step) in tof_level::build_edges() {
        build_line(&tofs, step, 2);
    }
    for (scale, asked) in tof_level::edges() {
        scale_line(&scale, asked);
    }
    for (what, (lists, plain, room, space)) in grid_level::edges().into_iter().chain(grid_level::scratch_edges()) {
        println!("# A grid: {what}.");
        grid_line(&lists, plain, room / records::WORDS, space, scratches);
    }
}

/// A grid's line, if it is not too long.
fn grid_line(l: &grid_level::Lists, plain: Grid<'static>, places: usize, space: usize, scratches: &mut Scratches) {
    let g = grid_level::grid(l, plain);
    let (Ok(rows), Ok(cols)) = (u32::try_from(g.rows), u32::try_from(g.cols)) else { return };
    let longest = [l.scans.len(), l.mobility.len(), space, places].into_iter().max();
    if l.data.len().max(l.raw.len()) > 256 || longest > Some(64) {
        return;
    }
    let lengths = [l.data.len(), l.raw.len(), l.scans.len(), l.mobility.len(), l.weights.len(), space, places];
    let mut w = vec![rows, cols];
    w.extend(lengths.map(|n| n as u32));
    w.extend(scale_words(&g.scale));
    w.extend([g.rt_bounds.0, g.rt_bounds.1, g.frame_id_bounds.0, g.frame_id_bounds.1]);
    w.extend([g.window_group.is_some() as u32, g.window_group.unwrap_or(0)]);
    w.extend([bits(g.min_prom), g.min_distance_scans, g.min_width_scans, g.first]);
    w.extend(words(&l.data).into_iter().chain(words(&l.raw)).chain(l.scans.iter().copied()));
    w.extend(words(&l.mobility).into_iter().chain(words(&l.weights)));
    let number = grid_level::number(&g, places * records::WORDS, space);
    let list = if number == 0 { grid_level::rust(&g, l.smoothing) } else { Vec::new() };
    scratches.count(&g, space, number, list.len());
    w.extend([number, (list.len() / records::WORDS) as u32]);
    w.extend(list);
    line(48, &w);
}

fn scale_words(s: &TofScale) -> [u32; 4] {
    [s.tof_min, s.tof_max, s.tof_step, s.num_bins]
}

fn build_line(tofs: &[u32], step: u32, part: usize) {
    line(40, &[&[step, tofs.len() as u32], tofs, &tof_level::build(tofs, step, part)].concat());
}

fn scale_line(s: &TofScale, asked: Asked) {
    line(asked.code(), &[&scale_words(s)[..], &asked.words(), &tof_level::answer(s, &asked)].concat());
}

const CASES: &[(&[u32], f32, u32)] = &[
    (&[0, 5, 5], 0.0, 0),
    (&[0, 5, 5, 9, 0], 1.0, 0),
    (&[8388609, 8388610, 8388609], 0.0, 0),
    (&[8388608, 8388609, 8388608], 0.0, 0),
    (&[0, 4, 0, 8, 0], 0.0, 2),
    (&[0, 4, 0, 8, 0], 0.0, 3),
    (&[0, 4, 0, 6, 0, 8, 0], 0.0, 3),
    (&[0, 4, 0, 4, 0], 0.0, 3),
];

fn row_line(row: &row_level::Row) {
    let lengths = [row.smoothed.len(), row.raw.len(), row.axis.len(), row.mobility.len(), row.room / records::WORDS];
    let mut w: Vec<u32> = lengths.iter().map(|n| *n as u32).collect();
    w.extend(row.place);
    w.extend(row.bounds);
    w.extend([row.group.is_some() as u32, row.group.unwrap_or(0), bits(row.min_prom), row.min_distance, row.min_width, row.first]);
    w.extend(words(&row.smoothed).into_iter().chain(words(&row.raw)).chain(row.axis.iter().copied()).chain(words(&row.mobility)));
    let number = row.number();
    let list = if number == 0 { row.peaks() } else { Vec::new() };
    w.extend([number, (list.len() / records::WORDS) as u32]);
    w.extend(list);
    line(32, &w);
}

fn smoothing_line(v: &[f32], weights: &[f32], sigma: f32, truncate: f32) {
    smoothing(v, weights, sigma, truncate, v.len());
}

fn smoothing(v: &[f32], weights: &[f32], sigma: f32, truncate: f32, scratch: usize) {
    let number = row_level::smooth_number(v, weights, scratch);
    let mut after = v.to_vec();
    if number == 0 {
        utility::smooth_vector_gaussian(&mut after, sigma, truncate);
    }
    let lengths = [v.len() as u32, weights.len() as u32, scratch as u32];
    line(33, &[&lengths[..], &words(v), &words(weights), &[number], &words(&after)].concat());
}

fn quad(y0: f32, y1: f32, y2: f32) {
    line(12, &[bits(y0), bits(y1), bits(y2), bits(utility::quad_subsample(y0, y1, y2))]);
}

fn whole(x: f32) {
    line(5, &[bits(x), bits(x.floor())]);
    line(6, &[bits(x), bits(x.ceil())]);
    line(7, &[bits(x), bits(x.round())]);
}

fn words(y: &[f32]) -> Vec<u32> {
    y.iter().map(|v| bits(*v)).collect()
}

fn areas(y: &[f32], x0: f32, x1: f32) {
    let input = [&[bits(x0), bits(x1)], &words(y)[..]].concat();
    match area(y, x0, x1) {
        Ok(a) => {
            line(16, &[&input[..], &[bits(a)]].concat());
            line(17, &[&input[..], &[0]].concat());
        }
        Err(n) => {
            absent(1);
            line(17, &[&input[..], &[n]].concat());
        }
    }
}

fn apexes(y: &[f32]) {
    let peaks = unfiltered(y);
    for i in 1..y.len().max(2) - 1 {
        let input = [&[i as u32], &words(y)[..]].concat();
        let peak = peaks.iter().find(|p| p.scan == i);
        line(18, &[&input[..], &[peak.is_some() as u32]].concat());
        if let Some(p) = peak {
            line(19, &[&input[..], &[bits(p.prominence)]].concat());
            line(20, &[&input[..], &[bits(p.left_x)]].concat());
            line(21, &[&input[..], &[bits(p.right_x)]].concat());
        } else {
            absent(3);
        }
    }
}
