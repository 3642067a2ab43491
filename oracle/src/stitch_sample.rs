//! The answers that the program `test_replay_stitching` replays: corners first, then seeded lists of up to 12 peaks.
use crate::inputs::Rng;
use crate::records::WORDS;
use crate::stitch_level::{corners, edges, sample, spoil, Call};
use crate::words::hexadecimal;
use rubzolena::StitchParams;

const HEAD: &str = "\
# Answers of the Rust, replayed by the program beside this file.
# Made by 'oracle sample stitching' (oracle/src/stitch_sample.rs, seed 4) from utility.rs and peak.rs of ms-io, repository
# MS-Simulation/mscore at f9e2c8ac42, unchanged, in a release build. Numbers of document 01, of which the Rust knows nothing, are
# the comparison's own, written from document 01. The owners are the Rust's, told by marks (oracle/src/stitch_level.rs).
# A line is a call of stitching and its answer, as hexadecimal words; floats as bit patterns: the words of the list; those that are
# lent for the stitched list, the owners, order, groups, keys and merged records; min_overlap_frames, max_scan_delta, jaccard_min,
# max_tof_row_delta, allow_cross_groups, min_im_overlap_scans, im_jaccard_min, require_mutual_apex_inside; the list; then the
# number, the count of stitched peaks, their words and, where the number is 0, the owners.";

/// The peaks of a line, at most.
const MOST: usize = 12;

fn line(c: &Call) {
    let p: StitchParams = c.params;
    let mut w = vec![c.list.len() as u32];
    w.extend(c.rooms.map(|n| n as u32));
    w.extend([p.min_overlap_frames, p.max_scan_delta, p.jaccard_min.to_bits(), p.max_tof_row_delta, p.allow_cross_groups as u32]);
    w.extend([p.min_im_overlap_scans, p.im_jaccard_min.to_bits(), p.require_mutual_apex_inside as u32]);
    w.extend(&c.list);
    let number = c.number();
    let (stitched, owners) = if number == 0 { (c.stitched(), c.owners()) } else { (Vec::new(), Vec::new()) };
    w.extend([number, (stitched.len() / WORDS) as u32]);
    w.extend(stitched.into_iter().chain(owners));
    println!("{}", hexadecimal(&w));
}

/// Prints the corners, and seeded lists that many times over.
pub fn print(seed: u64, times: u32) {
    println!("{HEAD}");
    for (what, call) in corners() {
        if call.count() <= MOST {
            println!("# {what}");
            line(&call);
        }
    }
    println!("# Lists, whole and spoilt.");
    let mut r = Rng::new(seed);
    for _ in 0..190 * times {
        let most = if r.one_in(4) { MOST } else { 5 };
        let n = r.below(most as u64 + 1) as usize;
        let mut call = sample(&mut r, n);
        while r.one_in(3) {
            spoil(&mut r, &mut call);
        }
        if call.list.len() <= MOST * WORDS + 30 {
            line(&call);
        }
    }
    for (what, call) in edges() {
        println!("# on both sides of a rule, at a limit and one past it: {what}");
        line(&call);
    }
}
