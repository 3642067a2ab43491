//! The answers that the program `test_replay_run` replays: those of frames and of sums over indexes, of retention traces, of both calls of
//! expansion.
use crate::words::hexadecimal;
use crate::{bits, expand_sample, frames_sample, retention_sample};

const HEAD: &str = "\
# Answers of the Rust, replayed by the program beside this file.
# Made by 'oracle sample run' (oracle/src/run_sample.rs, seed 4) from utility.rs and peak.rs of ms-io, repository MS-Simulation/mscore at
# f9e2c8ac42, in a release build, unchanged but for one thing: the points of a frame are sorted by bin with a sort that keeps the order of
# those of one bin (oracle/build.rs). Numbers of document 01, of which the Rust knows nothing, are the comparison's own, written from
# document 01; identities stand for the Rust's hashes.
# A line is a call and its answer, as hexadecimal words; floats as bit patterns. Lengths and lists are in the order of the C function.
# 1, a frame: the lengths of TOF values, scans and readings; tof_min, tof_max, tof_step, num_bins, global_num_scans, base; the words that are
# lent for bins, offsets, scans, readings, keys, order and spare; the three lists. Then the number, the counts of bins, offsets and points,
# the bins, the offsets, the scans and the readings.
# Sums, 2 by frame, 3 by scan, 4 a trace around a row, 5 one by bounds, 6 those of many peaks: the lengths of starts, bins, offsets, scans and
# readings; the floats that are lent, and the words of scratch; the length of the list of peaks; nine numbers, as the C function takes
# them, and 0 past these; the six lists. Then the number, the count, the count of the sums, and the sums.
# 7, noise: the length, the signal; then the number and the bits of the noise.
# 8, retention peaks: lengths of smoothed trace, raw trace and times; kind and float of the threshold, separation, width; words lent for
# records and scratch; the lists. Then the number, the count, the records.
# 9, the fallback: lengths of trace, frame numbers, times and record; fraction, first identity; words lent; the lists. Then the number,
# the count, the record.
# a, the first call: lengths of record, frame numbers and times; the nine numbers of the parameters; words lent; the lists. Then the
# number, the count, the window.
# b and c, the second call for one mobility peak and for many: lengths of the records, of the index's five lists, of frame numbers, times,
# weights and lengths; the scale; the nine numbers of the parameters; the first identity; words lent for records, counts and the three
# lists of scratch; the ten lists. Then the number, the count, the length of the column of counts, the column, the records.";

/// The words of a line, and those that are lent, at most.
const MOST: usize = 1_000;

/// Prints a line, unless it is too long. Where a rule is turned every line has its place; `-` marks those that are not stored.
pub fn print_line(w: &[u32], rooms: &[usize]) {
    if w.len() <= MOST && rooms.iter().all(|n| *n <= MOST) {
        println!("{}", hexadecimal(w));
    } else if cfg!(turned) {
        println!("- {}", hexadecimal(w));
    }
}

pub fn floats(list: &[f32]) -> impl Iterator<Item = u32> + '_ {
    list.iter().map(|x| bits(*x))
}

pub fn print(seed: u64, times: u32) {
    println!("{HEAD}");
    frames_sample::print(seed, times);
    retention_sample::print(seed, times);
    expand_sample::print(seed, times);
    frames_sample::print_edges();
    retention_sample::print_edges();
    expand_sample::print_edges();
}
