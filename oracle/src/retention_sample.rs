//! Lines of lone traces, of the fallback and of expansion's first call: corners first, then seeded ones.
use crate::inputs::Rng;
use crate::retention_level::{
    call_window, corners, edges, fallback_call, lone_edges, noise_call, noise_edges, sample, spoil, window_edges, Lone, Search, Windowed,
};
use crate::bits;
use crate::run_sample::{floats, print_line};
use rubzolena::{RtExpandParams, ThresholdMode};

fn mode(m: ThresholdMode) -> [u32; 2] {
    match m {
        ThresholdMode::Fixed(v) => [0, bits(v)],
        ThresholdMode::AdaptiveNoise(s) => [1, bits(s)],
    }
}

pub fn params(p: &RtExpandParams) -> [u32; 9] {
    let [kind, value] = mode(p.min_prom);
    let (sep, width, frac) = (bits(p.min_sep_sec), bits(p.min_width_sec), bits(p.fallback_frac_width));
    [p.bin_pad, bits(p.smooth_sigma_sec), kind, value, sep, width, p.fallback_if_frames_lt, frac, p.rt_pad_frames]
}

fn noise_line(signal: &[f32], answer: Result<u32, u32>) {
    let mut w = vec![7, signal.len() as u32];
    w.extend(floats(signal));
    w.extend(answer.map_or_else(|number| [number, 0], |noise| [0, noise]));
    print_line(&w, &[]);
}

fn search_line(c: &Search) {
    let mut w = vec![8, c.smoothed.len() as u32, c.raw.len() as u32, c.times.len() as u32];
    w.extend(mode(c.asked.min_prom));
    w.extend([bits(c.asked.min_sep_sec), bits(c.asked.min_width_sec), c.rooms[0] as u32, c.rooms[1] as u32]);
    w.extend(floats(&c.smoothed).chain(floats(&c.raw)).chain(floats(&c.times)));
    let number = c.number();
    let peaks = if number == 0 { c.rust() } else { Vec::new() };
    w.extend([number, peaks.len() as u32]);
    w.extend(peaks.concat());
    print_line(&w, &c.rooms);
}

fn lone_line(c: &Lone) {
    let mut w = vec![9, c.trace.len() as u32, c.ids.len() as u32, c.times.len() as u32, c.peak.len() as u32];
    w.extend([bits(c.frac), c.first, c.room as u32]);
    w.extend(floats(&c.trace).chain(c.ids.iter().copied()).chain(floats(&c.times)).chain(c.peak.iter().copied()));
    let number = c.number();
    let found = if number == 0 { c.rust() } else { None };
    w.extend([number, found.is_some() as u32]);
    w.extend(found.unwrap_or_default());
    print_line(&w, &[c.room]);
}

fn window_line(c: &Windowed) {
    let mut w = vec![10, c.peak.len() as u32, c.ids.len() as u32, c.times.len() as u32];
    w.extend(params(&c.params));
    w.push(c.room as u32);
    w.extend(c.peak.iter().chain(&c.ids).copied().chain(floats(&c.times)));
    let number = c.number();
    let found = if number == 0 { c.rust() } else { None };
    w.extend([number, found.is_some() as u32]);
    w.extend(found.into_iter().flatten());
    print_line(&w, &[c.room]);
}

/// Prints what stands on both sides of a rule, or at a limit and one past it.
pub fn print_edges() {
    println!("# noise: middles of an even count, a sample at the limit and one past it");
    for (signal, answer) in noise_edges() {
        noise_line(&signal, answer);
    }
    for (what, c) in edges() {
        println!("# a trace: {what}");
        search_line(&c);
    }
    for (what, c) in lone_edges() {
        println!("# the fallback: {what}");
        lone_line(&c);
    }
    for (what, c) in window_edges() {
        println!("# the first call: {what}");
        window_line(&c);
    }
}

/// Prints the corners, and seeded calls that many times over.
pub fn print(seed: u64, times: u32) {
    for (what, c) in corners() {
        println!("# {what}");
        search_line(&c);
    }
    let mut r = Rng::new(seed);
    println!("# seeded");
    for _ in 0..times {
        for _ in 0..25 {
            let (signal, answer) = noise_call(&mut r);
            noise_line(&signal, answer);
        }
        for k in 0..70 {
            let mut c = sample(&mut r);
            if k % 3 == 0 {
                spoil(&mut r, &mut c);
            }
            search_line(&c);
        }
        for _ in 0..50 {
            lone_line(&fallback_call(&mut r));
        }
        for _ in 0..50 {
            window_line(&call_window(&mut r));
        }
    }
}
