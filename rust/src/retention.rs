//! Retention peaks: the noise of a trace, its retention peaks, the fallback, and the first call of expansion.
use crate::Peak;

extern "C" {
    fn rubzolena_robust_noise_mad(signal: *const f32, signal_len: usize) -> u64;
    fn rubzolena_find_rt_peaks(
        y_smoothed: *const f32, y_smoothed_len: usize, y_raw: *const f32, y_raw_len: usize, times: *const f32, times_len: usize,
        min_prom_kind: u32, min_prom: f32, min_sep_sec: f32, min_width_sec: f32,
        out: *mut u32, out_len: usize, scratch: *mut u32, scratch_len: usize,
    ) -> u64;
    fn rubzolena_fallback_rt_peak(
        trace: *const f32, trace_len: usize, ids: *const u32, ids_len: usize, times: *const f32, times_len: usize,
        peak: *const u32, peak_len: usize, frac: f32, first: u32, out: *mut u32, out_len: usize,
    ) -> u64;
    fn rubzolena_expand_window(
        peak: *const u32, peak_len: usize, ids: *const u32, ids_len: usize, times: *const f32, times_len: usize,
        bin_pad: u32, smooth_sigma_sec: f32, min_prom_kind: u32, min_prom: f32, min_sep_sec: f32, min_width_sec: f32,
        fallback_if_frames_lt: u32, fallback_frac_width: f32, rt_pad_frames: u32,
        out: *mut u32, out_len: usize,
    ) -> u64;
}

/// Words of the record of a retention peak, of a retention peak of a single trace, and of a window.
pub const RT_WORDS: usize = 22;
pub const LOCAL_WORDS: usize = 13;
pub const WINDOW_WORDS: usize = 3;

/// The threshold of a trace, for topographic prominences and for its highest raw reading. `Fixed(v)`: v, or 3 times the noise of the
/// smoothed trace if that is higher. `AdaptiveNoise(s)`: s times that noise, or 1 if there is no noise.
#[derive(Clone, Copy, Debug, PartialEq)]
pub enum ThresholdMode {
    Fixed(f32),
    AdaptiveNoise(f32),
}

impl ThresholdMode {
    /// Its kind and its float, as C takes them.
    pub(crate) fn told(self) -> (u32, f32) {
        match self {
            ThresholdMode::Fixed(value) => (0, value),
            ThresholdMode::AdaptiveNoise(multiple) => (1, multiple),
        }
    }
}

impl Default for ThresholdMode {
    fn default() -> Self {
        ThresholdMode::AdaptiveNoise(3.0)
    }
}

/// The parameters of expansion. Counts are 0 to 65,535, seconds 0 to 2^20, the fraction 0 to 1, a threshold's float 0 to 2^33. The
/// truncation of the smoothing is not among them: the caller makes the weights.
#[derive(Clone, Copy, Debug)]
pub struct RtExpandParams {
    pub bin_pad: u32,
    pub smooth_sigma_sec: f32,
    pub min_prom: ThresholdMode,
    pub min_sep_sec: f32,
    pub min_width_sec: f32,
    pub fallback_if_frames_lt: u32,
    pub fallback_frac_width: f32,
    pub rt_pad_frames: u32,
}

impl Default for RtExpandParams {
    fn default() -> Self {
        RtExpandParams {
            bin_pad: 2,
            smooth_sigma_sec: 0.5,
            min_prom: ThresholdMode::default(),
            min_sep_sec: 1.0,
            min_width_sec: 0.5,
            fallback_if_frames_lt: 3,
            fallback_frac_width: 0.25,
            rt_pad_frames: 2,
        }
    }
}

/// The frames of a run: their frame numbers, strictly rising, and their times in seconds, not falling.
#[derive(Clone, Copy, Debug, Default)]
pub struct RtTraceCtx<'a> {
    pub frame_ids_sorted: &'a [u32],
    pub rt_times_sec: &'a [f32],
}

/// A retention peak: the words of its record.
#[derive(Clone, Copy, Debug, PartialEq)]
pub struct RtPeak(pub [u32; RT_WORDS]);

impl RtPeak {
    pub fn rt_idx(&self) -> u32 {
        self.0[0]
    }

    pub fn rt_sec(&self) -> f32 {
        f32::from_bits(self.0[1])
    }

    pub fn apex_smoothed(&self) -> f32 {
        f32::from_bits(self.0[2])
    }

    pub fn apex_raw(&self) -> f32 {
        f32::from_bits(self.0[3])
    }

    pub fn width_frames(&self) -> u32 {
        self.0[7]
    }

    pub fn area_raw(&self) -> f32 {
        f32::from_bits(self.0[8])
    }

    /// The first frame and the last: positions in the run, or in the trace where `fallback_rt_peak` made the peak. Expansion can give them
    /// reversed where it takes the fallback.
    pub fn rt_bounds(&self) -> (u32, u32) {
        (self.0[10], self.0[11])
    }

    pub fn frame_id_bounds(&self) -> (u32, u32) {
        (self.0[12], self.0[13])
    }

    /// The identity of its mobility peak.
    pub fn parent_im_id(&self) -> u32 {
        self.0[20]
    }

    pub fn id(&self) -> u32 {
        self.0[21]
    }
}

/// The frames over which a mobility peak is followed (positions in the run, both included), and the sigma of the smoothing in frames.
#[derive(Clone, Copy, Debug, PartialEq)]
pub struct RtWindow {
    pub first: u32,
    pub last: u32,
    pub sigma: f32,
}

/// The noise of a trace: 1.4826 * MAD, with upper medians; 0 for fewer than three readings.
pub fn robust_noise_mad(signal: &[f32]) -> Result<f32, u32> {
    let answer = unsafe { rubzolena_robust_noise_mad(signal.as_ptr(), signal.len()) };
    crate::answered(answer).map(|bits| f32::from_bits(bits as u32))
}

/// The parameters of the search of a trace.
#[derive(Clone, Copy, Debug)]
pub struct RtSearch {
    pub min_prom: ThresholdMode,
    pub min_sep_sec: f32,
    pub min_width_sec: f32,
}

/// Writes the records of the retention peaks of a trace of n frames, 13 words each, to the front of `out` (at least 13 * ((n - 1) / 2)
/// elements), and returns their number. `scratch` has at least n elements.
pub fn find_rt_peaks_into(
    y_smoothed: &[f32],
    y_raw: &[f32],
    times: &[f32],
    search: RtSearch,
    out: &mut [u32],
    scratch: &mut [u32],
) -> Result<usize, u32> {
    let (kind, value) = search.min_prom.told();
    // both lists are borrowed mutably, so none overlaps another list
    let answer = unsafe {
        rubzolena_find_rt_peaks(
            y_smoothed.as_ptr(), y_smoothed.len(), y_raw.as_ptr(), y_raw.len(), times.as_ptr(), times.len(),
            kind, value, search.min_sep_sec, search.min_width_sec,
            out.as_mut_ptr(), out.len(), scratch.as_mut_ptr(), scratch.len(),
        )
    };
    crate::answered(answer)
}

/// The fallback: writes the record of the one retention peak of a trace that is not searched, 22 words, to the front of `out`, and returns
/// whether there is one. Frames are counted from the first of the trace.
pub fn fallback_rt_peak_into(
    trace: &[f32],
    ctx: RtTraceCtx,
    peak: &[u32],
    frac: f32,
    first: u32,
    out: &mut [u32],
) -> Result<bool, u32> {
    let (ids, times) = (ctx.frame_ids_sorted, ctx.rt_times_sec);
    // `out` is borrowed mutably, so it overlaps no other list
    let answer = unsafe {
        rubzolena_fallback_rt_peak(
            trace.as_ptr(), trace.len(), ids.as_ptr(), ids.len(), times.as_ptr(), times.len(),
            peak.as_ptr(), peak.len(), frac, first, out.as_mut_ptr(), out.len(),
        )
    };
    crate::answered(answer).map(|count| count == 1)
}

/// That peak, or none if no reading is above 0.
pub fn fallback_rt_peak(trace: &[f32], ctx: RtTraceCtx, peak: &Peak, frac: f32, first: u32) -> Result<Option<RtPeak>, u32> {
    let mut out = [0; RT_WORDS];
    Ok(fallback_rt_peak_into(trace, ctx, &peak.0, frac, first, &mut out)?.then_some(RtPeak(out)))
}

/// Writes the window of the mobility peak of a record to the front of `out` (first frame, last frame, bit pattern of sigma), and returns
/// whether there is one.
pub fn expand_window_into(peak: &[u32], ctx: RtTraceCtx, params: RtExpandParams, out: &mut [u32]) -> Result<bool, u32> {
    let (ids, times, p) = (ctx.frame_ids_sorted, ctx.rt_times_sec, params);
    let (kind, value) = p.min_prom.told();
    // `out` is borrowed mutably, so it overlaps no other list
    let answer = unsafe {
        rubzolena_expand_window(
            peak.as_ptr(), peak.len(), ids.as_ptr(), ids.len(), times.as_ptr(), times.len(),
            p.bin_pad, p.smooth_sigma_sec, kind, value, p.min_sep_sec, p.min_width_sec,
            p.fallback_if_frames_lt, p.fallback_frac_width, p.rt_pad_frames,
            out.as_mut_ptr(), out.len(),
        )
    };
    crate::answered(answer).map(|count| count == 1)
}

/// The window, or none if a frame number of the peak is not found in the run.
pub fn expand_window(peak: &Peak, ctx: RtTraceCtx, params: RtExpandParams) -> Result<Option<RtWindow>, u32> {
    let mut w = [0; WINDOW_WORDS];
    let there = expand_window_into(&peak.0, ctx, params, &mut w)?;
    Ok(there.then_some(RtWindow { first: w[0], last: w[1], sigma: f32::from_bits(w[2]) }))
}
