//! Lines of expansion's second call, for one mobility peak and for many: corners first, then seeded ones.
use crate::expand_level::{corners, edges, sample, spoil, Expand};
use crate::frames_sample::numbers;
use crate::inputs::Rng;
use crate::making;
use crate::records::WORDS;
use crate::retention_sample::params;
use crate::run_sample::{floats, print_line};

fn line(c: &Expand, one: bool) {
    let i = &c.index;
    let mut w = vec![if one { 11 } else { 12 }];
    let lists = [c.list.len(), i.starts.len(), i.bins.len(), i.offsets.len(), i.scans.len(), i.readings.len(), c.ids.len(), c.times.len(), c.weights.len()];
    let lengths: &[u32] = if one { &[] } else { &c.lengths };
    w.extend(lists.iter().map(|n| *n as u32));
    w.push(lengths.len() as u32);
    w.extend(numbers(&c.scale));
    w.extend(params(&c.params));
    w.push(c.first);
    w.extend(c.rooms.map(|n| n as u32));
    w.extend(c.list.iter().chain(&i.starts).chain(&i.bins).chain(&i.offsets).chain(&i.scans).copied().chain(floats(&i.readings)));
    w.extend(c.ids.iter().copied().chain(floats(&c.times)).chain(floats(&c.weights)).chain(lengths.iter().copied()));
    let number = c.number(one);
    let (words, counts) = if number == 0 { c.words(&c.rust()) } else { Default::default() };
    let found: u32 = counts.iter().sum();
    let column: &[u32] = if one { &[] } else { &counts };
    w.extend([number, found, column.len() as u32]);
    w.extend(column.iter().chain(&words));
    print_line(&w, &c.rooms);
}

/// Prints what stands on both sides of a rule, or at a limit and one past it.
pub fn print_edges() {
    for (what, c) in edges() {
        println!("# the second call: {what}");
        line(&c, true);
        line(&c, false);
    }
}

/// Prints the corners, and seeded calls that many times over.
pub fn print(seed: u64, times: u32) {
    for (what, c) in corners() {
        println!("# {what}");
        line(&c, true);
        line(&c, false);
    }
    let mut r = Rng::new(seed);
    println!("# Expansion, of whole calls and spoilt ones.");
    for _ in 0..120 * times {
        let mut c = sample(&mut r);
        let fine = r.one_in(2);
        while !fine && r.one_in(2) {
            spoil(&mut r, &mut c);
        }
        let one = c.list.len() / WORDS == 1 && r.one_in(3);
        // what was changed may be accepted, with another sigma
        if !fine && making(|| c.number(one)) == 0 {
            c.weigh();
        }
        line(&c, one);
    }
}
