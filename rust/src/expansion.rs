//! Expansion: mobility peaks followed along retention time.
use crate::retention::RtPeak;
use crate::{expand_window, Index, Peak, RtExpandParams, RtTraceCtx, TofScale, RT_WORDS};

extern "C" {
    fn rubzolena_expand_im_peak(
        peak: *const u32, peak_len: usize,
        starts: *const u32, starts_len: usize, bins: *const u32, bins_len: usize, offsets: *const u32, offsets_len: usize,
        scans: *const u32, scans_len: usize, readings: *const f32, readings_len: usize,
        ids: *const u32, ids_len: usize, times: *const f32, times_len: usize,
        tof_min: u32, tof_max: u32, tof_step: u32, num_bins: u32,
        bin_pad: u32, smooth_sigma_sec: f32, min_prom_kind: u32, min_prom: f32, min_sep_sec: f32, min_width_sec: f32,
        fallback_if_frames_lt: u32, fallback_frac_width: f32, rt_pad_frames: u32,
        weights: *const f32, weights_len: usize, first: u32,
        out: *mut u32, out_len: usize,
        raw: *mut f32, raw_len: usize, smooth: *mut f32, smooth_len: usize, order: *mut u32, order_len: usize,
    ) -> u64;
    fn rubzolena_expand_many_im_peaks(
        list: *const u32, list_len: usize,
        starts: *const u32, starts_len: usize, bins: *const u32, bins_len: usize, offsets: *const u32, offsets_len: usize,
        scans: *const u32, scans_len: usize, readings: *const f32, readings_len: usize,
        ids: *const u32, ids_len: usize, times: *const f32, times_len: usize,
        tof_min: u32, tof_max: u32, tof_step: u32, num_bins: u32,
        bin_pad: u32, smooth_sigma_sec: f32, min_prom_kind: u32, min_prom: f32, min_sep_sec: f32, min_width_sec: f32,
        fallback_if_frames_lt: u32, fallback_frac_width: f32, rt_pad_frames: u32,
        weights: *const f32, weights_len: usize, lengths: *const u32, lengths_len: usize, first: u32,
        out: *mut u32, out_len: usize, counts: *mut u32, counts_len: usize,
        raw: *mut f32, raw_len: usize, smooth: *mut f32, smooth_len: usize, order: *mut u32, order_len: usize,
    ) -> u64;
}

/// A run and the parameters of expansion: the frame index with the scale of its bins, frame numbers and times, and the parameters.
#[derive(Clone, Copy, Debug)]
pub struct Run<'a> {
    pub index: Index<'a>,
    pub scale: TofScale,
    pub ctx: RtTraceCtx<'a>,
    pub params: RtExpandParams,
}

/// Scratch for expansion: each list has at least one element per frame.
#[derive(Debug)]
pub struct ExpandScratch<'a> {
    pub raw: &'a mut [f32],
    pub smooth: &'a mut [f32],
    pub order: &'a mut [u32],
}

/// Expands the mobility peak of a record, with the weights for the sigma of its window: writes the records of its retention peaks, 22 words
/// each, to the front of `out` (at least `22 * most_rt_peaks(frames)` elements), and returns their number.
pub fn expand_im_peak_into(
    peak: &[u32],
    run: Run,
    weights: &[f32],
    first: u32,
    out: &mut [u32],
    scratch: ExpandScratch,
) -> Result<usize, u32> {
    let (Run { index: i, scale: s, ctx, params: p }, ExpandScratch { raw, smooth, order }) = (run, scratch);
    let (ids, times, (kind, value)) = (ctx.frame_ids_sorted, ctx.rt_times_sec, p.min_prom.told());
    // the four lists are borrowed mutably, so none overlaps another list
    let answer = unsafe {
        rubzolena_expand_im_peak(
            peak.as_ptr(), peak.len(),
            i.starts.as_ptr(), i.starts.len(), i.bins.as_ptr(), i.bins.len(), i.offsets.as_ptr(), i.offsets.len(),
            i.scans.as_ptr(), i.scans.len(), i.readings.as_ptr(), i.readings.len(),
            ids.as_ptr(), ids.len(), times.as_ptr(), times.len(),
            s.tof_min, s.tof_max, s.tof_step, s.num_bins,
            p.bin_pad, p.smooth_sigma_sec, kind, value, p.min_sep_sec, p.min_width_sec,
            p.fallback_if_frames_lt, p.fallback_frac_width, p.rt_pad_frames,
            weights.as_ptr(), weights.len(), first,
            out.as_mut_ptr(), out.len(),
            raw.as_mut_ptr(), raw.len(), smooth.as_mut_ptr(), smooth.len(), order.as_mut_ptr(), order.len(),
        )
    };
    crate::answered(answer)
}

/// Expands the mobility peaks of all n records of `list`, 27 words each. `weights` has the weights of all peaks, one list after another, and
/// `lengths` the number of weights of each peak. Writes the records of all retention peaks to the front of `out` (at least
/// `22 * n * most_rt_peaks(frames)` elements), the number of each mobility peak's retention peaks to the front of `counts` (at least n
/// elements), and returns the number of all retention peaks.
#[allow(clippy::too_many_arguments)]
pub fn expand_many_im_peaks_into(
    list: &[u32],
    run: Run,
    weights: &[f32],
    lengths: &[u32],
    first: u32,
    out: &mut [u32],
    counts: &mut [u32],
    scratch: ExpandScratch,
) -> Result<usize, u32> {
    let (Run { index: i, scale: s, ctx, params: p }, ExpandScratch { raw, smooth, order }) = (run, scratch);
    let (ids, times, (kind, value)) = (ctx.frame_ids_sorted, ctx.rt_times_sec, p.min_prom.told());
    // the five lists are borrowed mutably, so none overlaps another list
    let answer = unsafe {
        rubzolena_expand_many_im_peaks(
            list.as_ptr(), list.len(),
            i.starts.as_ptr(), i.starts.len(), i.bins.as_ptr(), i.bins.len(), i.offsets.as_ptr(), i.offsets.len(),
            i.scans.as_ptr(), i.scans.len(), i.readings.as_ptr(), i.readings.len(),
            ids.as_ptr(), ids.len(), times.as_ptr(), times.len(),
            s.tof_min, s.tof_max, s.tof_step, s.num_bins,
            p.bin_pad, p.smooth_sigma_sec, kind, value, p.min_sep_sec, p.min_width_sec,
            p.fallback_if_frames_lt, p.fallback_frac_width, p.rt_pad_frames,
            weights.as_ptr(), weights.len(), lengths.as_ptr(), lengths.len(), first,
            out.as_mut_ptr(), out.len(), counts.as_mut_ptr(), counts.len(),
            raw.as_mut_ptr(), raw.len(), smooth.as_mut_ptr(), smooth.len(), order.as_mut_ptr(), order.len(),
        )
    };
    crate::answered(answer)
}

/// The maximum number of retention peaks of a mobility peak in a run of that many frames: (frames - 1) / 2, and at least 1.
pub fn most_rt_peaks(frames: usize) -> usize {
    (frames.saturating_sub(1) / 2).max(1)
}

/// The retention peaks of all mobility peaks, and the number of each one's. Makes both calls: `weights` makes the weights for a sigma in
/// frames; a peak without a window takes one weight.
pub fn expand_im_peaks(
    peaks: &[Peak],
    run: Run,
    mut weights: impl FnMut(f32) -> Vec<f32>,
    first: u32,
) -> Result<(Vec<RtPeak>, Vec<u32>), u32> {
    let (mut joined, mut lengths) = (Vec::new(), Vec::new());
    for p in peaks {
        let own = expand_window(p, run.ctx, run.params)?.map_or(vec![1.0], |w| weights(w.sigma));
        lengths.push(own.len() as u32);
        joined.extend(own);
    }
    let (n, frames) = (peaks.len(), run.ctx.frame_ids_sorted.len());
    let list: Vec<u32> = peaks.iter().flat_map(|p| p.0).collect();
    let (mut out, mut counts) = (vec![0; n * most_rt_peaks(frames) * RT_WORDS], vec![0; n]);
    let (mut raw, mut smooth, mut order) = (vec![0.0; frames], vec![0.0; frames], vec![0; frames]);
    let scratch = ExpandScratch { raw: &mut raw, smooth: &mut smooth, order: &mut order };
    let total = expand_many_im_peaks_into(&list, run, &joined, &lengths, first, &mut out, &mut counts, scratch)?;
    Ok((out[..total * RT_WORDS].chunks_exact(RT_WORDS).map(|w| RtPeak(w.try_into().unwrap())).collect(), counts))
}
