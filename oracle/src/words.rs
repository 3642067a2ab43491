//! The Rust's mobility peaks as the port's words.
use crate::bits;
use crate::cluster::peak::ImPeak1D;
use std::cell::RefCell;

/// A peak's 27 words, with the port's identity in place of the hash.
pub fn words(p: &ImPeak1D, id: u32) -> Vec<u32> {
    let flags = p.window_group.is_some() as u32 | (p.mobility.is_some() as u32) << 1 | (p.scan_sigma.is_some() as u32) << 2;
    let mut w = vec![p.tof_row as u32, p.tof_center as u32, p.tof_bounds.0 as u32, p.tof_bounds.1 as u32];
    w.extend([p.rt_bounds.0 as u32, p.rt_bounds.1 as u32, p.frame_id_bounds.0, p.frame_id_bounds.1]);
    w.extend([flags, p.window_group.unwrap_or(0), p.scan as u32, p.left as u32, p.right as u32]);
    w.extend([p.scan_abs as u32, p.left_abs as u32, p.right_abs as u32]);
    w.extend([bits(p.scan_sigma.unwrap_or(0.0)), bits(p.mobility.unwrap_or(0.0))]);
    w.extend([bits(p.apex_smoothed), bits(p.apex_raw), bits(p.prominence), bits(p.left_x), bits(p.right_x)]);
    w.extend([p.width_scans as u32, bits(p.area_raw), bits(p.subscan), id]);
    w
}

/// A list of peaks, the identities from `first` on.
pub fn list(peaks: &[ImPeak1D], first: u32) -> Vec<u32> {
    peaks.iter().enumerate().flat_map(|(k, p)| words(p, first.wrapping_add(k as u32))).collect()
}

/// Words as the replay programs read them.
pub fn hexadecimal(words: &[u32]) -> String {
    words.iter().map(|w| format!("{w:x}")).collect::<Vec<_>>().join(" ")
}

thread_local! {
    static TABLE: RefCell<Vec<f32>> = const { RefCell::new(Vec::new()) };
}

fn from_table(index: usize) -> f32 {
    TABLE.with(|t| t.borrow()[index])
}

/// The Rust asks a function for the mobility of an index; here it reads the table that the port is lent.
pub fn mobility(table: &[f32]) -> Option<fn(usize) -> f32> {
    TABLE.with(|t| *t.borrow_mut() = table.to_vec());
    (!table.is_empty()).then_some(from_table as fn(usize) -> f32)
}
