//! Rows of named shapes, for the comparison and for timing: whole numbers from 0 to 2^21, of any length.
use crate::inputs::Rng;

/// A shape, with each floor and least width that it is timed with.
pub struct Kind {
    pub name: &'static str,
    pub make: fn(&mut Rng, usize) -> Vec<f32>,
    pub limits: &'static [(f32, u32)],
}

/// What a kind is timed with where it says nothing else.
pub const USUAL: (f32, u32) = (20.0, 2);

const fn kind(name: &'static str, make: fn(&mut Rng, usize) -> Vec<f32>) -> Kind {
    Kind { name, make, limits: &[USUAL] }
}

const fn limited(name: &'static str, make: fn(&mut Rng, usize) -> Vec<f32>, limits: &'static [(f32, u32)]) -> Kind {
    Kind { name, make, limits }
}

pub const KINDS: [Kind; 20] = [
    limited("stray counts", stray, &[(20.0, 0)]),
    kind("sparse", sparse),
    limited("dense", dense, &[USUAL, (0.0, 0)]),
    kind("few values", few),
    limited("drifting ground", drifting, &[USUAL, (90.0, 2)]),
    limited("noise above 0", noise, &[USUAL, (20.0, 6), (0.0, 0)]),
    limited("random walk", walk, &[USUAL, (0.0, 0)]),
    kind("saw-teeth of 8", |r, n| saw(r, n, 8)),
    kind("saw-teeth of 90", |r, n| saw(r, n, 90)),
    limited("rising stairs", stairs, &[(0.0, 0)]),
    kind("plateaus", plateaus),
    limited("blocks of 1 to 8", |r, n| blocks(r, n, 8), &[USUAL, (0.0, 0)]),
    kind("blocks of 1 to 60", |r, n| blocks(r, n, 60)),
    limited("equal apexes over 0", comb, &[(20.0, 0)]),
    limited("equal apexes over a ground", raised_comb, &[(0.0, 2)]),
    limited("nested combs", nested, &[(0.0, 0)]),
    kind("hills with equal apexes", hills),
    kind("one wide triangle", triangle),
    kind("ramp", |r, n| line(r, n, |i| i)),
    kind("zeros", |_, n| vec![0.0; n]),
];

/// The kind of that name.
pub fn named(name: &str) -> &'static Kind {
    KINDS.iter().find(|k| k.name == name).expect("a kind")
}

/// A row of any of the shapes, at times as neighbouring floats.
pub fn row(r: &mut Rng, n: usize) -> Vec<f32> {
    let make = KINDS[r.below(KINDS.len() as u64) as usize].make;
    let y = make(r, n);
    if r.one_in(3) { neighbours(r, &y) } else { y }
}

/// The same shape in neighbouring floats about 2^23 or 2^24 or up to 2^32: a unit, or several, become a unit in the last place.
/// Zeros at times stay.
fn neighbours(r: &mut Rng, y: &[f32]) -> Vec<f32> {
    let unit = r.pick(&[1, 1, 30, 200]);
    let steps: Vec<u32> = y.iter().map(|v| *v as u32 / unit).collect();
    let highest = steps.iter().copied().max().unwrap_or(0);
    let edge: f32 = r.pick(&[8388608.0, 16777216.0, 4294967296.0]);
    let above = if edge < 4294967296.0 { r.below(highest as u64 + 1) as u32 } else { 0 };
    let zeros_stay = r.one_in(2);
    let float = |s: u32| if s == 0 && zeros_stay { 0.0 } else { f32::from_bits(edge.to_bits() + above - (highest - s)) };
    steps.into_iter().map(float).collect()
}

/// Zeros, and a count here and there.
fn stray(r: &mut Rng, n: usize) -> Vec<f32> {
    (0..n).map(|_| if r.one_in(20) { 1 + r.below(100) } else { 0 } as f32).collect()
}

/// Humps over zeros, one in a hundred samples.
fn sparse(r: &mut Rng, n: usize) -> Vec<f32> {
    let mut y = vec![0.0f32; n];
    for _ in 0..n / 100 + 1 {
        let (at, height) = (r.below(n.max(1) as u64) as i64, 50 + r.below(5000));
        for d in -6i64..=6 {
            if at + d >= 0 && at + d < n as i64 {
                y[(at + d) as usize] += (height as f32 / (1 + d * d) as f32).floor();
            }
        }
    }
    y
}

fn dense(r: &mut Rng, n: usize) -> Vec<f32> {
    (0..n).map(|_| r.below(1000) as f32).collect()
}

fn few(r: &mut Rng, n: usize) -> Vec<f32> {
    (0..n).map(|_| (30 * r.below(4)) as f32).collect()
}

/// Noise over a ground that goes up and down slowly and is never 0.
fn drifting(r: &mut Rng, n: usize) -> Vec<f32> {
    let mut level = 300 + r.below(700) as i64;
    (0..n)
        .map(|_| {
            level = (level + r.below(5) as i64 - 2).max(200);
            (level + r.below(100) as i64) as f32
        })
        .collect()
}

fn noise(r: &mut Rng, n: usize) -> Vec<f32> {
    (0..n).map(|_| (100 + r.below(900)) as f32).collect()
}

fn walk(r: &mut Rng, n: usize) -> Vec<f32> {
    let mut level = 500 + r.below(500) as i64;
    (0..n)
        .map(|_| {
            level = (level + r.below(41) as i64 - 20).max(1);
            level as f32
        })
        .collect()
}

fn saw(r: &mut Rng, n: usize, period: usize) -> Vec<f32> {
    let (phase, slope) = (r.below(period as u64) as usize, 10 + r.below(20) as usize);
    (0..n).map(|i| (slope * ((i + phase) % period)) as f32).collect()
}

fn stairs(r: &mut Rng, n: usize) -> Vec<f32> {
    let low = r.below(1000) as usize;
    (0..n).map(|i| (low + i / 2 + if i % 2 == 1 { 2 } else { 0 }) as f32).collect()
}

/// Runs of one height over runs of zeros.
fn plateaus(r: &mut Rng, n: usize) -> Vec<f32> {
    let height = (50 + r.below(500)) as f32;
    runs(r, n, |r, k| if k % 2 == 0 { (1 + r.below(6), 0.0) } else { (2 + r.below(11), height) })
}

/// Heights at random, each held for one to `longest` samples.
fn blocks(r: &mut Rng, n: usize, longest: u64) -> Vec<f32> {
    runs(r, n, |r, _| (1 + r.below(longest), r.below(1000) as f32))
}

/// Runs one after another; of the k-th, the length and the height are given.
fn runs(r: &mut Rng, n: usize, run: impl Fn(&mut Rng, usize) -> (u64, f32)) -> Vec<f32> {
    let mut y = Vec::with_capacity(n);
    for k in 0.. {
        if y.len() >= n {
            break;
        }
        let (length, height) = run(r, k);
        y.resize((y.len() + length as usize).min(n), height);
    }
    y
}

fn comb(r: &mut Rng, n: usize) -> Vec<f32> {
    let height = 100 + r.below(500);
    (0..n as u64).map(|i| (height * (i % 2)) as f32).collect()
}

/// 0, then 100 99 100 99 .. or the like, and 0: every apex is described over the whole row.
fn raised_comb(r: &mut Rng, n: usize) -> Vec<f32> {
    let height = 100 + r.below(500);
    let mut y = vec![0.0; n];
    raise(&mut y, 0, height, 1);
    y
}

/// A hill: the ground at both ends, between them apexes of one height with valleys that much lower.
fn raise(y: &mut [f32], ground: u64, height: u64, valley: u64) {
    let last = y.len().saturating_sub(1);
    for (i, v) in y.iter_mut().enumerate() {
        let up = if i == 0 || i == last { 0 } else { height - (1 - i as u64 % 2) * valley };
        *v = (ground + up) as f32;
    }
}

/// Hills of 3 to 60 samples, or about 16 of them, each with apexes of one height; grounds and heights are few, so that some agree.
fn hills(r: &mut Rng, n: usize) -> Vec<f32> {
    let mut y = vec![0.0; n];
    let mut rest = &mut y[..];
    while !rest.is_empty() {
        let length = if r.one_in(2) { 15 + r.below(6) } else { 3 + r.below(58) };
        let (hill, behind) = rest.split_at_mut((length as usize).min(rest.len()));
        let height = 40 * (1 + r.below(4));
        raise(hill, 10 * r.below(3), height, 1 + r.below(height / 2));
        rest = behind;
    }
    y
}

/// Teeth that stand on the shoulders of teeth twice as high, in the innermost apexes of one height.
fn nested(r: &mut Rng, n: usize) -> Vec<f32> {
    let mut y = vec![0.0; n];
    nest(r, &mut y, 0, 1 << 20);
    y
}

/// Behind its apex a tooth stays above half its height, where one or two more stand.
fn nest(r: &mut Rng, y: &mut [f32], ground: u64, height: u64) {
    let n = y.len();
    if n < 8 || height < 16 || r.one_in(20) {
        return raise(y, ground, height, 1 + r.below(height / 4 + 1));
    }
    (y[0], y[1], y[n - 1]) = (ground as f32, (ground + height) as f32, ground as f32);
    let inside = &mut y[2..n - 1];
    let cut = if r.one_in(3) { inside.len() / 2 } else { 0 };
    let (one, other) = inside.split_at_mut(cut);
    for part in [one, other] {
        if !part.is_empty() {
            nest(r, part, ground + height / 2 + 1, height / 2 - 2);
        }
    }
}

fn triangle(r: &mut Rng, n: usize) -> Vec<f32> {
    line(r, n, |i| i.min(n - 1 - i))
}

/// Whole multiples of a slope.
fn line(r: &mut Rng, n: usize, at: impl Fn(usize) -> usize) -> Vec<f32> {
    let slope = 1 + r.below(9) as usize;
    (0..n).map(|i| (slope * at(i)) as f32).collect()
}
