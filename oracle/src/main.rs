//! Compares the port with the Rust that it ports, bit for bit.
//!
//! `oracle compare [N [WORD]]` compares every function on N seeded inputs (a million by default), or those of the level with that
//! word in its name, and exits with 1 on a difference.
//! `oracle sample [SEED TIMES]` prints the answers that the program `test_replay_answers` replays; those stored beside it by default.
//! `oracle sample stitching [SEED TIMES]` prints those of `test_replay_stitching`, `oracle sample run [SEED TIMES]` those of `test_replay_run`.
//! `oracle bench [WORD]` times both sides and prints ratios, of the lines with that word in their name.
//!
//! An oracle in which a rule is turned (`oracle/turned`) prints samples alone, and says so in their first line.
#![cfg_attr(turned, allow(unused))]
include!(concat!(env!("OUT_DIR"), "/own.rs"));

#[allow(dead_code, unused_imports, unused_variables)]
mod cluster {
    include!(concat!(env!("OUT_DIR"), "/cluster.rs"));
}

/// The same with a sort by bin that keeps the order of the points of a bin.
#[allow(dead_code, unused_imports, unused_variables)]
mod stable {
    include!(concat!(env!("OUT_DIR"), "/stable.rs"));
}

/// The same, by which inputs are made: no rule of it is turned.
#[cfg(turned)]
#[allow(dead_code, unused_imports, unused_variables)]
mod unturned {
    include!(concat!(env!("OUT_DIR"), "/unturned.rs"));
}
#[cfg(not(turned))]
use stable as unturned;

#[cfg(turned)]
thread_local! {
    static MAKING: std::cell::Cell<bool> = const { std::cell::Cell::new(false) };
}

/// Which rule of the comparison's own is turned: the line of `turned.list` that TURNED_LINE names, while an answer is made; 0, for none, while
/// an input is.
#[cfg(turned)]
pub fn turned() -> u32 {
    static LINE: std::sync::LazyLock<u32> = std::sync::LazyLock::new(|| std::env::var("TURNED_LINE").map_or(0, |n| n.parse().expect("a line")));
    if MAKING.get() { 0 } else { *LINE }
}

/// Asks a rule of the comparison's own for making an input.
pub fn making<T>(ask: impl FnOnce() -> T) -> T {
    #[cfg(turned)]
    MAKING.set(true);
    let answer = ask();
    #[cfg(turned)]
    MAKING.set(false);
    answer
}

/// Counts comparisons, and prints the first differences.
pub struct Tally {
    pub compared: u64,
    pub differ: u64,
    /// The corner inputs among them.
    pub corners: u64,
}

impl Tally {
    pub fn same<T: PartialEq + std::fmt::Debug>(&mut self, what: &str, input: &dyn std::fmt::Debug, port: T, rust: T) {
        self.compared += 1;
        if port != rust {
            self.differ += 1;
            if self.differ <= 20 {
                println!("{what} {input:x?}: port {port:x?}, Rust {rust:x?}");
            }
        }
    }
}

/// A float's bit pattern, with one for every NaN.
pub fn bits(x: f32) -> u32 {
    if x.is_nan() { 0x7fc0_0000 } else { x.to_bits() }
}

fn main() {
    let words: Vec<String> = std::env::args().collect();
    match words.get(1).map(String::as_str) {
        #[cfg(not(turned))]
        Some("compare") => {
            let count = words.get(2).map_or(1_000_000, |n| n.parse().expect("a count"));
            let word = words.get(3).map_or("", String::as_str);
            let levels: [(&str, fn(&mut Tally, u64), u64); 10] = [
                ("leaves", leaves::compare, 1),
                ("apexes", rows::compare, 1),
                ("records", records::compare, 10),
                ("rows", row_level::compare, 2),
                ("grids", grid_level::compare, 10),
                ("stitching", stitch_level::compare, 4),
                ("frames", frames_level::compare, 2),
                ("retention", retention_level::compare, 4),
                ("expansion", expand_level::compare, 4),
                ("table", table_level::compare, 500),
            ];
            let mut tally = Tally { compared: 0, differ: 0, corners: 0 };
            for (name, compare, fewer) in levels {
                if name.contains(word) {
                    let (answers, corners) = (tally.compared, tally.corners);
                    compare(&mut tally, count / fewer);
                    println!("oracle: {name}: {} answers compared, {} corner inputs", tally.compared - answers, tally.corners - corners);
                }
            }
            println!("oracle: {} answers compared, {} differ", tally.compared, tally.differ);
            if tally.differ > 0 {
                std::process::exit(1);
            }
        }
        Some("sample") => {
            let (named, print): (usize, fn(u64, u32)) = match words.get(2).map(String::as_str) {
                Some("stitching") => (1, stitch_sample::print),
                Some("run") => (1, run_sample::print),
                _ => (0, sample::print),
            };
            let given = |k: usize, other| words.get(k + named).map_or(other, |n| n.parse().expect("a number"));
            #[cfg(turned)]
            println!("# NOT TO BE STORED, rules are turned: {}", env!("TURNED"));
            print(given(2, 4), given(3, 1) as u32);
        }
        #[cfg(not(turned))]
        Some("bench") => bench::run(words.get(2).map_or("", String::as_str)),
        _ => {
            eprintln!("usage: oracle compare [N [WORD]] | oracle sample [stitching | run] [SEED TIMES] | oracle bench [WORD]");
            std::process::exit(2);
        }
    }
}
