//! Rubzolena for Rust programs: grid detection, stitching, frame index, marginals, extracted ion chromatograms (retention traces) and
//! expansion along retention time. These are safe functions over the C entries; include/rubzolena.h has the conditions of all arguments.
//!
//! The error of a `Result` is the refusal code of include/rubzolena.h. After a refusal all lists that were borrowed for writing are
//! unchanged.
//!
//! Lists are passed as they stand in memory. Grid detection expects the least significant byte first, so the crate compiles on
//! little-endian machines only.
#[cfg(not(target_endian = "little"))]
compile_error!("the C entry takes little-endian words");

mod expansion;
mod frames;
mod retention;
mod stitching;

pub use expansion::{expand_im_peak_into, expand_im_peaks, expand_many_im_peaks_into, most_rt_peaks, ExpandScratch, Run};
pub use frames::{
    build_frame_bin_view_into, build_im_marginal_into, build_rt_marginal_into, rt_trace_for_im_peak_by_bounds_into,
    rt_trace_for_im_peak_into, rt_traces_for_im_peaks_by_bounds_into, Block, Frame, FrameIndex, FrameRoom, FrameScratch, Index,
};
pub use retention::{
    expand_window, expand_window_into, fallback_rt_peak, fallback_rt_peak_into, find_rt_peaks_into, robust_noise_mad, RtExpandParams,
    RtPeak, RtSearch, RtTraceCtx, RtWindow, ThresholdMode, LOCAL_WORDS, RT_WORDS, WINDOW_WORDS,
};
pub use stitching::{stitch, stitch_into, Scratch, StitchParams};

use std::mem::size_of_val;
use std::slice::{from_raw_parts, from_raw_parts_mut};

extern "C" {
    fn rubzolena_detect_im_peaks(
        rows: usize, cols: usize,
        data: *const u8, data_len: usize, data_raw: *const u8, data_raw_len: usize, scans: *const u8, scans_len: usize,
        tof_min: u32, tof_max: u32, tof_step: u32, num_bins: u32,
        rt_lo: u32, rt_hi: u32, frame_id_lo: u32, frame_id_hi: u32, group_flag: u32, window_group: u32,
        mobility: *const u8, mobility_len: usize,
        min_prom: f32, min_distance_scans: u32, min_width_scans: u32,
        weights: *const u8, weights_len: usize, first: u32, out: *mut u8, out_len: usize,
    ) -> u64;
}

/// Words of the record of a mobility peak.
pub const WORDS: usize = 27;

/// The refusal code of an output list that is too short. All lower codes come before it.
const LIST_TOO_SHORT: u32 = 20;

/// The TOF scale of the rows: lowest and highest TOF value, both multiples of the step, and the number of bins.
#[derive(Clone, Copy, Debug, Default)]
pub struct TofScale {
    pub tof_min: u32,
    pub tof_max: u32,
    pub tof_step: u32,
    pub num_bins: u32,
}

/// The input of grid detection. An empty `data_raw`, `mobility` or `weights` means that there is none.
#[derive(Clone, Copy, Debug, Default)]
pub struct Grid<'a> {
    pub rows: usize,
    pub cols: usize,
    pub data: &'a [f32],
    pub data_raw: &'a [f32],
    pub scans: &'a [u32],
    pub scale: TofScale,
    pub rt_bounds: (u32, u32),
    pub frame_id_bounds: (u32, u32),
    pub window_group: Option<u32>,
    pub mobility: &'a [f32],
    pub min_prom: f32,
    pub min_distance_scans: u32,
    pub min_width_scans: u32,
    pub weights: &'a [f32],
    pub first: u32,
}

/// A mobility peak: the words of its record.
#[derive(Clone, Copy, Debug, PartialEq)]
pub struct Peak(pub [u32; WORDS]);

impl Peak {
    pub fn tof_row(&self) -> u32 {
        self.0[0]
    }

    pub fn scan(&self) -> u32 {
        self.0[10]
    }

    pub fn mobility(&self) -> Option<f32> {
        (self.0[8] & 2 != 0).then(|| f32::from_bits(self.0[17]))
    }

    pub fn apex_raw(&self) -> f32 {
        f32::from_bits(self.0[19])
    }

    pub fn prominence(&self) -> f32 {
        f32::from_bits(self.0[20])
    }

    pub fn area_raw(&self) -> f32 {
        f32::from_bits(self.0[24])
    }

    pub fn id(&self) -> u32 {
        self.0[26]
    }
}

/// The peaks of a list of records.
fn peaks(list: &[u32]) -> Vec<Peak> {
    list.chunks_exact(WORDS).map(|w| Peak(w.try_into().unwrap())).collect()
}

/// The result of a C entry: a count, or the refusal code.
fn answered(answer: u64) -> Result<usize, u32> {
    match (answer / 64, answer % 64) {
        (count, 0) => Ok(count as usize),
        (_, number) => Err(number as u32),
    }
}

/// Types that a C entry takes as a word: four bytes without padding. Private, so that there are no others.
trait Word {}
impl Word for u32 {}
impl Word for f32 {}

fn bytes<T: Word>(list: &[T]) -> &[u8] {
    // each element of a list of words is four initialised bytes, and a byte needs no alignment
    unsafe { from_raw_parts(list.as_ptr().cast(), size_of_val(list)) }
}

impl Grid<'_> {
    /// The maximum number of peaks of a grid of this size: rows * ((cols - 1) / 2), and 0 if there are no columns.
    pub fn most_peaks(&self) -> usize {
        self.rows.saturating_mul(self.cols.saturating_sub(1) / 2)
    }

    /// Writes the records of the peaks to the front of `out`, 27 words each, and returns their number. `out` has at least
    /// `most_peaks() * WORDS` elements.
    pub fn detect_into(&self, out: &mut [u32]) -> Result<usize, u32> {
        let (data, raw, scans) = (bytes(self.data), bytes(self.data_raw), bytes(self.scans));
        let (mobility, weights) = (bytes(self.mobility), bytes(self.weights));
        let room = unsafe { from_raw_parts_mut(out.as_mut_ptr().cast::<u8>(), size_of_val(out)) };
        let s = self.scale;
        let answer = unsafe {
            rubzolena_detect_im_peaks(
                self.rows, self.cols,
                data.as_ptr(), data.len(), raw.as_ptr(), raw.len(), scans.as_ptr(), scans.len(),
                s.tof_min, s.tof_max, s.tof_step, s.num_bins,
                self.rt_bounds.0, self.rt_bounds.1, self.frame_id_bounds.0, self.frame_id_bounds.1,
                self.window_group.is_some() as u32, self.window_group.unwrap_or(0),
                mobility.as_ptr(), mobility.len(),
                self.min_prom, self.min_distance_scans, self.min_width_scans,
                weights.as_ptr(), weights.len(), self.first, room.as_mut_ptr(), room.len(),
            )
        };
        answered(answer)
    }

    /// The peaks. Nothing is allocated for a grid that is refused with a code below 20, whatever its sizes claim to be.
    pub fn detect(&self) -> Result<Vec<Peak>, u32> {
        // With an empty list the entry returns 20 exactly where no lower code applies and a list is needed. Then rows * cols
        // readings are there, so that the list is at most 14 times as long as they are.
        match self.detect_into(&mut []) {
            Err(LIST_TOO_SHORT) => {}
            answer => return answer.map(|_| Vec::new()),
        }
        let mut out = vec![0u32; self.most_peaks() * WORDS];
        let count = self.detect_into(&mut out)?;
        Ok(peaks(&out[..count * WORDS]))
    }
}
