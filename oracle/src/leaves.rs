//! The float helpers against Rust's own, and `lerp`, `quad_subsample` and the area against utility.rs.
use crate::cluster::utility;
use crate::inputs::{any, length, place, row, Rng};
use crate::{bits, probe, Tally};

pub fn compare(t: &mut Tally, count: u64) {
    for y in bends() {
        t.same("quad_subsample", &y, bits(probe::quad_subsample(y[0], y[1], y[2])), bits(utility::quad_subsample(y[0], y[1], y[2])));
        t.corners += 1;
    }
    for (y, x0, x1) in areas() {
        t.same("area at a limit", &(&y, x0, x1), probe::area(&y, x0, x1).map(bits), area(&y, x0, x1).map(bits));
        t.corners += 1;
    }
    let mut r = Rng::new(1);
    for _ in 0..count {
        let (x, y, z) = (any(&mut r), any(&mut r), any(&mut r));
        let n = r.next() as u32 >> r.below(33).min(31);
        scalars(t, x, y, z, n);
        same_area(t, &mut r);
    }
}

/// Rust leaves open which of two equal values `max` and `min` give, as of two zeros; the port gives the first.
fn first_of_equal(a: f32, b: f32, r: f32) -> f32 {
    if a == b { a } else { r }
}

fn scalars(t: &mut Tally, x: f32, y: f32, z: f32, n: u32) {
    let input = (bits(x), bits(y), bits(z));
    t.same("max", &input, bits(probe::max(x, y)), bits(first_of_equal(x, y, x.max(y))));
    t.same("min", &input, bits(probe::min(x, y)), bits(first_of_equal(x, y, x.min(y))));
    t.same("abs", &input, bits(probe::abs(x)), bits(x.abs()));
    if y <= z {
        t.same("clamp", &input, bits(probe::clamp(x, y, z)), bits(x.clamp(y, z)));
    }
    t.same("floor", &input, bits(probe::floor(x)), bits(x.floor()));
    t.same("ceil", &input, bits(probe::ceil(x)), bits(x.ceil()));
    t.same("round", &input, bits(probe::round(x)), bits(x.round()));
    t.same("cast_sat", &input, probe::cast_sat(x), x as u32);
    t.same("of_u32", &n, bits(probe::of_u32(n)), bits(n as f32));
    t.same("word_of", &input, probe::word_of(x), bits(x));
    t.same("float_of", &x.to_bits(), bits(probe::float_of(x.to_bits())), bits(x));
    t.same("lerp", &input, bits(probe::lerp(x, y, z)), bits(utility::lerp(x, y, z)));
    t.same("quad_subsample", &input, bits(probe::quad_subsample(x, y, z)), bits(utility::quad_subsample(x, y, z)));
}

/// Document 01's range: from 0 to a limit, the sign clear.
pub fn in_range(x: f32, limit: f32) -> bool {
    x.to_bits() <= limit.to_bits()
}

/// The area, and its numbers as document 01 lists them.
pub fn area(y: &[f32], x0: f32, x1: f32) -> Result<f32, u32> {
    if y.len() > 16_384 {
        return Err(2);
    }
    if !y.iter().all(|v| in_range(*v, 4294967296.0)) {
        return Err(3);
    }
    if !(in_range(x0, 65535.0) && in_range(x1, 65535.0)) {
        return Err(4);
    }
    Ok(utility::trapezoid_area_fractional(y, x0, x1))
}

/// Three samples whose bend is 1e-12, or a little more.
pub fn bends() -> [[f32; 3]; 2] {
    [[1e-12, 0.0, 0.0], [1.5e-12, 0.0, 0.0]]
}

/// Rows and ends at the limits of the area's numbers, and one past them.
pub fn areas() -> Vec<(Vec<f32>, f32, f32)> {
    let two = vec![1.0, 2.0];
    let of = |top: f32| vec![1.0, top];
    let places = [(65535.0, 0.0), (65535.004, 0.0), (0.0, 65535.0), (0.0, 65535.004)].map(|(x0, x1)| (two.clone(), x0, x1));
    let samples = [(of(4294967296.0), 0.0, 1.0), (of(4294967808.0), 0.0, 1.0), (of(4294967808.0), 65535.004, 1.0)];
    places.into_iter().chain(samples).collect()
}

fn same_area(t: &mut Tally, r: &mut Rng) {
    let n = if r.one_in(20_000) { 16_383 + r.below(3) as usize } else { length(r) };
    let mut y = row(r, n);
    let (mut x0, mut x1) = (place(r, n), place(r, n));
    if r.one_in(20) && n > 0 {
        let at = r.below(n as u64) as usize;
        y[at] = any(r);
    }
    if r.one_in(20) {
        x0 = any(r);
    }
    if r.one_in(20) {
        x1 = any(r);
    }
    let before: Vec<u32> = y.iter().map(|v| v.to_bits()).collect();
    let (port, rust) = (probe::area(&y, x0, x1), area(&y, x0, x1));
    let input = (&before[..before.len().min(40)], bits(x0), bits(x1));
    t.same("area", &input, port.map(bits), rust.map(bits));
    t.same("area's row", &input, y.iter().map(|v| v.to_bits()).collect::<Vec<_>>(), before.clone());
}
