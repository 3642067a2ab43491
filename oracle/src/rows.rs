//! Candidates, prominence, half height and crossings against the records that the Rust's row finder gives with nothing
//! filtered out: floor, least distance and least width 0. The half height itself is in no record; it shows in the crossings.
use crate::cluster::peak::ImPeak1D;
use crate::cluster::utility::find_im_peaks_row;
use crate::inputs::{length, limit, row, Rng};
use crate::{bits, probe, shapes, Tally};

/// Every candidate of a row, as the Rust describes it.
pub fn unfiltered(y: &[f32]) -> Vec<ImPeak1D> {
    let axis: Vec<usize> = (0..y.len()).collect();
    find_im_peaks_row(y, y, 0, 0, (0, 1), (0, 0), (0, 0), None, None, 0.0, 0, 0, &axis)
}

pub fn compare(t: &mut Tally, count: u64) {
    let mut r = Rng::new(2);
    for turn in 0..count / 4 {
        let shaped = r.one_in(50);
        let n = if turn % 20_000 == 0 { 16_384 } else if shaped { limit(&mut r) } else { length(&mut r) };
        let y = if shaped { shapes::row(&mut r, n) } else { row(&mut r, n) };
        let shown: Vec<u32> = y.iter().take(40).map(|v| v.to_bits()).collect();
        let peaks = unfiltered(&y);
        let found: Vec<usize> = (0..n).filter(|i| probe::is_candidate(&y, *i)).collect();
        t.same("candidates", &shown, found, peaks.iter().map(|p| p.scan).collect());
        let most = if n == 0 { 0 } else { (n - 1) / 2 };
        t.same("no more than (n - 1) / 2 candidates", &shown, peaks.len() <= most, true);
        for p in &peaks {
            let (i, input) = (p.scan, (&shown, p.scan));
            t.same("prominence", &input, bits(probe::prominence(&y, i)), bits(p.prominence));
            let (left, right) = probe::crossings(&y, i);
            t.same("left crossing", &input, bits(left), bits(p.left_x));
            t.same("right crossing", &input, bits(right), bits(p.right_x));
        }
    }
}
