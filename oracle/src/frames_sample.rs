//! Lines of frames and of sums over small indexes: corners first, then seeded ones.
use crate::frames_level::{corners, edges, sample, sample_sums, scale, spoil, spoil_sums, sum_corners, sum_edges, Asked, Sums, View};
use crate::inputs::Rng;
use crate::run_sample::{floats, print_line};
use rubzolena::{TofScale, WORDS};

pub fn numbers(s: &TofScale) -> [u32; 4] {
    [s.tof_min, s.tof_max, s.tof_step, s.num_bins]
}

fn frame_line(c: &View) {
    if c.base > u32::MAX as usize {
        return;
    }
    let mut w = vec![1, c.tofs.len() as u32, c.scans.len() as u32, c.readings.len() as u32];
    w.extend(numbers(&c.scale));
    w.extend([c.count, c.base as u32]);
    w.extend(c.rooms.map(|n| n as u32));
    w.extend(c.tofs.iter().chain(&c.scans).copied().chain(floats(&c.readings)));
    let number = c.number();
    let part = if number == 0 { c.stable() } else { Default::default() };
    w.extend([number, part[0].len() as u32, part[1].len() as u32, part[2].len() as u32]);
    w.extend(part.concat());
    print_line(&w, &c.rooms);
}

fn sums_line(c: &Sums) {
    let i = &c.index;
    let (code, mut given, list): (u32, Vec<u32>, &[u32]) = match &c.asked {
        Asked::Rt(b) | Asked::Im(b) => {
            let code = if matches!(c.asked, Asked::Rt(_)) { 2 } else { 3 };
            (code, vec![b.frames.0, b.frames.1, b.bins.0, b.bins.1, b.scans.0, b.scans.1], &[])
        }
        Asked::Row(row, pad, scans) => (4, vec![*row, *pad, scans.0, scans.1], &[]),
        Asked::Bounds(s, tofs, pad, scans) => (5, [&numbers(s)[..], &[tofs.0, tofs.1, *pad, scans.0, scans.1]].concat(), &[]),
        Asked::Many(s, list, pad) => (6, [&numbers(s)[..], &[*pad]].concat(), list),
    };
    given.resize(9, 0);
    let mut w = vec![code];
    w.extend([i.starts.len(), i.bins.len(), i.offsets.len(), i.scans.len(), i.readings.len()].map(|n| n as u32));
    w.extend(c.rooms.map(|n| n as u32));
    w.push(list.len() as u32);
    w.extend(given);
    w.extend(i.starts.iter().chain(&i.bins).chain(&i.offsets).chain(&i.scans).copied().chain(floats(&i.readings)));
    w.extend(list);
    let number = c.number();
    let sums = if number == 0 { c.rust() } else { Vec::new() };
    let count = if code == 6 && number == 0 { list.len() / WORDS } else { sums.len() };
    w.extend([number, count as u32, sums.len() as u32]);
    w.extend(floats(&sums));
    print_line(&w, &c.rooms);
}

/// Prints what stands on both sides of a rule, or at a limit and one past it.
pub fn print_edges() {
    for (what, call) in edges() {
        println!("# a frame: {what}");
        frame_line(&call);
    }
    for (what, call) in sum_edges() {
        println!("# sums: {what}");
        sums_line(&call);
    }
}

/// Prints the corners, and seeded calls that many times over.
pub fn print(seed: u64, times: u32) {
    for (what, call) in corners() {
        println!("# {what}");
        frame_line(&call);
    }
    for (what, call) in sum_corners() {
        println!("# {what}");
        sums_line(&call);
    }
    let mut r = Rng::new(seed);
    println!("# Frames, whole and spoilt.");
    for _ in 0..150 * times {
        let n = if r.one_in(6) { 21 + r.below(60) } else { r.below(21) } as usize;
        let scale = scale(&mut r);
        let base = if r.one_in(2) { 0 } else { r.below(16_777_216 - n as u64) as usize };
        let mut call = sample(&mut r, n, scale, base);
        while r.one_in(3) {
            spoil(&mut r, &mut call);
        }
        frame_line(&call);
    }
    println!("# Sums, of whole calls and spoilt ones.");
    for _ in 0..250 * times {
        let mut call = sample_sums(&mut r);
        while r.one_in(3) {
            spoil_sums(&mut r, &mut call);
        }
        sums_line(&call);
    }
}
