//! Lists to stitch, by kind, and their times. The port goes through the C entry, its buffers made beforehand; of the Rust only the
//! call is timed, not the making of its shared peaks.
use crate::bench::{by_turns, line, Side};
use crate::cluster::peak::ImPeak1D;
use crate::cluster::utility::stitch_im_peaks_flat_unordered_impl;
use crate::inputs::Rng;
use crate::records::WORDS;
use crate::stitch_level::{rust_params, Call};
use rubzolena::StitchParams;
use std::cell::RefCell;
use std::hint::black_box;
use std::sync::Arc;

/// A few rows and scans may differ, and peaks must overlap by a tenth.
const USUAL: StitchParams = StitchParams {
    min_overlap_frames: 1,
    max_scan_delta: 4,
    jaccard_min: 0.1,
    max_tof_row_delta: 2,
    allow_cross_groups: false,
    min_im_overlap_scans: 1,
    im_jaccard_min: 0.1,
    require_mutual_apex_inside: false,
};

/// Where a peak lies.
struct Place {
    row: u32,
    scan: u32,
    rt: u32,
    group: u32,
}

/// The record of a peak of seven scans and six frames.
fn record(r: &mut Rng, at: Place, id: u32) -> [u32; WORDS] {
    let Place { row, scan, rt, group } = at;
    let (left, right, far) = (scan.saturating_sub(3), (scan + 3).min(16_383), scan * 2 + 100);
    let rt_hi = (rt + 5).min(16_383);
    let apex = 20.0 + r.below(20_000) as f32;
    let floats = [2.5, 1.0 + scan as f32 / 20_000.0, apex * 0.9, apex, apex * 0.8, left as f32 + 0.4, right as f32 - 0.3].map(f32::to_bits);
    let area = (apex * (2.0 + r.below(1_000) as f32 / 500.0)).to_bits();
    let subscan = ((r.below(1_000) as f32 - 500.0) / 1_000.0).to_bits();
    let mut w = [0; WORDS];
    w[..8].copy_from_slice(&[row, row + 1, row, row + 1, rt, rt_hi, rt + 1, rt_hi + 1]);
    w[8..16].copy_from_slice(&[7, group, scan, left, right, far, far - 6, far + 6]);
    w[16..23].copy_from_slice(&floats);
    w[23..].copy_from_slice(&[6, area, subscan, id]);
    w
}

/// How a kind makes its peaks and identities, and what is asked of them.
struct Kind {
    name: &'static str,
    ordered: bool,
    place: fn(&mut Rng, u64) -> Place,
    params: StitchParams,
}

fn spread(r: &mut Rng, _: u64) -> Place {
    Place { row: r.below(400_000) as u32, scan: r.below(900) as u32, rt: r.below(2_000) as u32, group: r.below(20) as u32 }
}

/// About eight peaks to a place, some rows and scans apart.
fn tight(r: &mut Rng, n: u64) -> Place {
    let mut centre = Rng::new(r.below(n / 8 + 1));
    let Place { row, scan, rt, group } = spread(&mut centre, n);
    Place { row: row + r.below(3) as u32, scan: scan + r.below(4) as u32, rt: rt + r.below(4) as u32, group }
}

fn equal(_: &mut Rng, _: u64) -> Place {
    Place { row: 1_000, scan: 300, rt: 40, group: 3 }
}

fn together(r: &mut Rng, _: u64) -> Place {
    Place { row: 1_000 + r.below(20) as u32, scan: 300 + r.below(3) as u32, rt: 40 + r.below(2) as u32, group: 3 }
}

fn all_bits(r: &mut Rng, _: u64) -> Place {
    Place { row: r.below(4_194_304) as u32, scan: r.below(16_384) as u32, rt: r.below(16_384) as u32, group: r.next() as u32 }
}

const WIDE: StitchParams = StitchParams { max_scan_delta: 1_000, max_tof_row_delta: 1_000, ..USUAL };

const KINDS: [Kind; 8] = [
    Kind { name: "spread", ordered: true, place: spread, params: USUAL },
    Kind { name: "spread, identities in no order", ordered: false, place: spread, params: USUAL },
    Kind { name: "tight", ordered: true, place: tight, params: USUAL },
    Kind { name: "tight, identities in no order", ordered: false, place: tight, params: USUAL },
    Kind { name: "equal", ordered: true, place: equal, params: USUAL },
    Kind { name: "equal, identities in no order", ordered: false, place: equal, params: USUAL },
    Kind { name: "one group", ordered: false, place: together, params: WIDE },
    Kind { name: "all bits", ordered: false, place: all_bits, params: USUAL },
];

fn made(kind: &Kind, n: u64) -> Call {
    let mut r = Rng::new(11);
    let id = |k: u64| if kind.ordered { k as u32 } else { (k as u32).wrapping_mul(0x9e37_79b1) ^ 0x5bd1_e995 };
    let list = (0..n).flat_map(|k| {
        let place = (kind.place)(&mut r, n);
        record(&mut r, place, id(k))
    });
    Call::new(list.collect(), kind.params)
}

/// Times a call on both sides.
fn both(what: &str, call: &Call) {
    let mut buffers = call.buffers();
    let count = call.port(&mut buffers).unwrap();
    let shared: Vec<Arc<ImPeak1D>> = call.peaks().into_iter().map(Arc::new).collect();
    let params = rust_params(&call.params);
    // the Rust uses its list up, so there is one for each turn
    let lists = RefCell::new(Vec::new());
    let rust = Side::after(
        |turns| lists.borrow_mut().extend((0..turns).map(|_| shared.clone())),
        || {
            let list = lists.borrow_mut().pop().unwrap();
            black_box(stitch_im_peaks_flat_unordered_impl(black_box(list), &params));
        },
    );
    let port = Side::new(|| {
        black_box(black_box(call).port(&mut buffers)).unwrap();
    });
    let mut sides = [rust, port];
    by_turns(&mut sides);
    line(what, Some(count as f64), sides[0].least, sides[1].least);
}

/// The lists of every kind, of those sizes, whose name is asked for.
pub fn run(asked: impl Fn(&str) -> bool) {
    let few = KINDS.iter().filter(|k| k.name == "equal");
    let sizes = KINDS.iter().map(|k| (65_536, k)).chain(KINDS.iter().map(|k| (1_000, k)));
    for (n, kind) in sizes.chain(few.flat_map(|k| [(30, k), (1, k)])) {
        let what = format!("stitching {n}, {}", kind.name);
        if asked(&what) {
            both(&what, &made(kind, n));
        }
    }
}
