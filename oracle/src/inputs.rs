//! Seeded inputs: plain ones, and ones at the limits where a wrong rounding or a wrong test would show.

/// splitmix64
pub struct Rng(u64);

impl Rng {
    pub fn new(seed: u64) -> Self {
        Rng(seed)
    }

    pub fn next(&mut self) -> u64 {
        self.0 = self.0.wrapping_add(0x9e37_79b9_7f4a_7c15);
        let mut z = self.0;
        z = (z ^ (z >> 30)).wrapping_mul(0xbf58_476d_1ce4_e5b9);
        z = (z ^ (z >> 27)).wrapping_mul(0x94d0_49bb_1331_11eb);
        z ^ (z >> 31)
    }

    pub fn below(&mut self, n: u64) -> u64 {
        self.next() % n
    }

    pub fn one_in(&mut self, n: u64) -> bool {
        self.below(n) == 0
    }

    pub fn pick<T: Copy>(&mut self, from: &[T]) -> T {
        from[self.below(from.len() as u64) as usize]
    }
}

/// Values around which rounding, casts and ranges change.
const EDGES: [f32; 22] = [
    0.0, 1.0, 2.0, 0.5, 1.5, 2.5, 0.25, 0.49999997, 1e-12, 1.17549435e-38, 1e-45, 4096.0, 16384.0, 65535.0, 1048576.0,
    8388608.0, 16777216.0, 2147483648.0, 4294967296.0, 8589934592.0, 1.1258999e15, 3.4028235e38,
];

/// Any value: a pattern at random, a whole number, a half, a subnormal, or a neighbour of an edge, with either sign.
pub fn any(r: &mut Rng) -> f32 {
    let x = match r.below(8) {
        0 | 1 => return f32::from_bits(r.next() as u32),
        2 => r.below(40) as f32,
        3 => r.below(1 << 25) as f32 / 2.0,
        4 => f32::from_bits(r.below(1 << 23) as u32),
        5 => f32::from_bits(r.pick(&EDGES).to_bits().wrapping_add(r.below(5) as u32).wrapping_sub(2)),
        6 => r.pick(&EDGES) + r.below(5) as f32 - 2.0,
        _ => return r.pick(&[f32::NAN, f32::INFINITY, f32::NEG_INFINITY, -0.0, f32::MAX, f32::MIN, f32::MIN_POSITIVE]),
    };
    if r.one_in(2) { -x } else { x }
}

/// A reading that is accepted: from 0 to 2^32, the sign clear.
pub fn reading(r: &mut Rng, kind: u64) -> f32 {
    match kind {
        0 => r.below(4) as f32,
        1 => r.below(20) as f32,
        2 => r.below(1 << 33) as f32 / 2.0,
        3 => (8388607 + r.below(4)) as f32,
        4 => (16777214 + r.below(5)) as f32,
        5 => f32::from_bits(r.below(6) as u32),
        6 => f32::from_bits(r.below(0x4f80_0001) as u32),
        7 => 4294967296.0 - (r.below(3) as f32) * 256.0,
        _ => {
            if r.one_in(3) { r.below(1000) as f32 } else { 0.0 }
        }
    }
}

/// A row of n samples whose apexes see far: flights of teeth that rise or fall, or teeth of one height, above a ground that no
/// sample or few reach.
fn flights(r: &mut Rng, n: usize) -> Vec<f32> {
    let (tooth, flight) = (1 + r.below(4), 1 + r.below(n as u64));
    let slope = r.pick(&[-1i64, 0, 1]);
    let mut level = n as i64 + 5;
    (0..n)
        .map(|i| {
            level += if i as u64 % flight == 0 { r.below(9) as i64 - 4 } else { slope * (i as i64 % 2) };
            let up = if i % 2 == 1 { tooth as i64 } else { 0 };
            if r.one_in(500) { 0.0 } else { (level.max(1) + up) as f32 }
        })
        .collect()
}

/// A row of n accepted readings, of one kind or mixed; long ones at times of teeth in flights.
pub fn row(r: &mut Rng, n: usize) -> Vec<f32> {
    if n > 60 && r.one_in(2) {
        return flights(r, n);
    }
    let kind = r.below(11);
    (0..n)
        .map(|_| {
            let k = if kind == 10 { r.below(9) } else { kind.min(8) };
            reading(r, k)
        })
        .collect()
}

/// A length: mostly short, at times up to a limit.
pub fn length(r: &mut Rng) -> usize {
    match r.below(50) {
        0 => 0,
        1 => 1,
        2 => 2,
        3 => r.below(300) as usize,
        _ => 3 + r.below(14) as usize,
    }
}

/// A length at or about one at which the port may change its way, or one at which spans are long; seldom of thousands.
pub fn limit(r: &mut Rng) -> usize {
    match r.below(2_000) {
        0 => r.pick(&[16_383, 16_384]),
        1..=8 => 1_026 + r.below(2_000) as usize,
        9..=30 => r.pick(&[1_023, 1_024, 1_025]),
        31..=500 => r.pick(&[63, 64, 65, 127, 128, 129]),
        _ => 17 + r.below(60) as usize,
    }
}

/// A place in a row of n samples, in range and at times past it.
pub fn place(r: &mut Rng, n: usize) -> f32 {
    let whole = r.below(n as u64 + 3) as f32;
    match r.below(6) {
        0 => whole,
        1 => whole + 0.5,
        2 => f32::from_bits(whole.to_bits().saturating_sub(1)),
        3 => (r.below(1 << 24) as f32 / (1 << 24) as f32) * n as f32,
        4 => f32::from_bits(r.below(0x477f_ff01) as u32),
        _ => whole + r.below(1 << 20) as f32 / (1 << 20) as f32,
    }
}
