//! The frame index of a run (the points of all frames, sorted by bin within each frame), and sums over it: marginals and extracted ion
//! chromatograms (retention traces).
use crate::{Peak, TofScale};

extern "C" {
    fn rubzolena_build_frame_bin_view(
        tofs: *const u32, tofs_len: usize, scans: *const u32, scans_len: usize, readings: *const f32, readings_len: usize,
        tof_min: u32, tof_max: u32, tof_step: u32, num_bins: u32, global_num_scans: u32, base: usize,
        out_bins: *mut u32, out_bins_len: usize, out_offsets: *mut u32, out_offsets_len: usize,
        out_scans: *mut u32, out_scans_len: usize, out_readings: *mut f32, out_readings_len: usize,
        keys: *mut u32, keys_len: usize, order: *mut u32, order_len: usize, spare: *mut u32, spare_len: usize,
    ) -> u64;
    fn rubzolena_build_rt_marginal(
        starts: *const u32, starts_len: usize, bins: *const u32, bins_len: usize, offsets: *const u32, offsets_len: usize,
        scans: *const u32, scans_len: usize, readings: *const f32, readings_len: usize,
        rt_lo: u32, rt_hi: u32, bin_lo: u32, bin_hi: u32, im_lo: u32, im_hi: u32, out: *mut f32, out_len: usize,
    ) -> u64;
    fn rubzolena_build_im_marginal(
        starts: *const u32, starts_len: usize, bins: *const u32, bins_len: usize, offsets: *const u32, offsets_len: usize,
        scans: *const u32, scans_len: usize, readings: *const f32, readings_len: usize,
        rt_lo: u32, rt_hi: u32, bin_lo: u32, bin_hi: u32, im_lo: u32, im_hi: u32, out: *mut f32, out_len: usize,
    ) -> u64;
    fn rubzolena_rt_trace_for_im_peak(
        starts: *const u32, starts_len: usize, bins: *const u32, bins_len: usize, offsets: *const u32, offsets_len: usize,
        scans: *const u32, scans_len: usize, readings: *const f32, readings_len: usize,
        tof_row: u32, bin_pad: u32, scan_lo: u32, scan_hi: u32, out: *mut f32, out_len: usize,
    ) -> u64;
    fn rubzolena_rt_trace_for_im_peak_by_bounds(
        starts: *const u32, starts_len: usize, bins: *const u32, bins_len: usize, offsets: *const u32, offsets_len: usize,
        scans: *const u32, scans_len: usize, readings: *const f32, readings_len: usize,
        tof_min: u32, tof_max: u32, tof_step: u32, num_bins: u32,
        tof_lo: u32, tof_hi: u32, extra_bins_pad: u32, scan_lo: u32, scan_hi: u32, out: *mut f32, out_len: usize,
    ) -> u64;
    fn rubzolena_rt_traces_for_im_peaks_by_bounds(
        starts: *const u32, starts_len: usize, bins: *const u32, bins_len: usize, offsets: *const u32, offsets_len: usize,
        scans: *const u32, scans_len: usize, readings: *const f32, readings_len: usize,
        tof_min: u32, tof_max: u32, tof_step: u32, num_bins: u32, list: *const u32, list_len: usize, extra_bins_pad: u32,
        out: *mut f32, out_len: usize, windows: *mut u32, windows_len: usize,
    ) -> u64;
}

/// The points of a frame: TOF value, absolute scan and reading of each point.
#[derive(Clone, Copy, Debug, Default)]
pub struct Frame<'a> {
    pub tofs: &'a [u32],
    pub scans: &'a [u32],
    pub readings: &'a [f32],
}

/// Output lists for a frame's part of an index. For n points each has at least n elements, `offsets` at least n + 1.
#[derive(Debug)]
pub struct FrameRoom<'a> {
    pub bins: &'a mut [u32],
    pub offsets: &'a mut [u32],
    pub scans: &'a mut [u32],
    pub readings: &'a mut [f32],
}

/// Scratch for a frame: each list has at least one element per point.
#[derive(Debug)]
pub struct FrameScratch<'a> {
    pub keys: &'a mut [u32],
    pub order: &'a mut [u32],
    pub spare: &'a mut [u32],
}

/// Writes the distinct bins of a frame, their offsets (counted from `base`), and the scans and readings of its points that have a bin to the
/// front of the four lists of `room`. Returns the number of bins and the number of points.
pub fn build_frame_bin_view_into(
    frame: Frame,
    scale: TofScale,
    global_num_scans: u32,
    base: usize,
    room: FrameRoom,
    scratch: FrameScratch,
) -> Result<(usize, usize), u32> {
    let (Frame { tofs, scans, readings }, s) = (frame, scale);
    let (out, FrameScratch { keys, order, spare }) = (room, scratch);
    // the seven lists are borrowed mutably, so none overlaps another list
    let answer = unsafe {
        rubzolena_build_frame_bin_view(
            tofs.as_ptr(), tofs.len(), scans.as_ptr(), scans.len(), readings.as_ptr(), readings.len(),
            s.tof_min, s.tof_max, s.tof_step, s.num_bins, global_num_scans, base,
            out.bins.as_mut_ptr(), out.bins.len(), out.offsets.as_mut_ptr(), out.offsets.len(),
            out.scans.as_mut_ptr(), out.scans.len(), out.readings.as_mut_ptr(), out.readings.len(),
            keys.as_mut_ptr(), keys.len(), order.as_mut_ptr(), order.len(), spare.as_mut_ptr(), spare.len(),
        )
    };
    let bins = crate::answered(answer)?;
    Ok((bins, out.offsets[bins] as usize - base))
}

/// The frame index of a run.
#[derive(Clone, Debug, PartialEq)]
pub struct FrameIndex {
    /// For each frame the position in `bins` of its first bin; at the end the number of bins.
    pub starts: Vec<u32>,
    /// The distinct bins of each frame.
    pub bins: Vec<u32>,
    /// For each bin the position in `scans` and `readings` of its first point; at the end the number of points.
    pub offsets: Vec<u32>,
    pub scans: Vec<u32>,
    pub readings: Vec<f32>,
}

impl Default for FrameIndex {
    /// An index of no frames.
    fn default() -> Self {
        FrameIndex { starts: vec![0], bins: Vec::new(), offsets: vec![0], scans: Vec::new(), readings: Vec::new() }
    }
}

impl FrameIndex {
    pub fn frames(&self) -> usize {
        self.starts.len() - 1
    }

    /// Appends a frame. If it is refused, the index is unchanged.
    pub fn push(&mut self, frame: Frame, scale: TofScale, global_num_scans: u32) -> Result<(), u32> {
        let (n, b, p) = (frame.tofs.len(), self.bins.len(), self.scans.len());
        self.resize(b + n, p + n);
        let mut scratch = vec![0; 3 * n];
        let (keys, rest) = scratch.split_at_mut(n);
        let (order, spare) = rest.split_at_mut(n);
        let room = FrameRoom {
            bins: &mut self.bins[b..],
            offsets: &mut self.offsets[b..],
            scans: &mut self.scans[p..],
            readings: &mut self.readings[p..],
        };
        let answer = build_frame_bin_view_into(frame, scale, global_num_scans, p, room, FrameScratch { keys, order, spare });
        let (bins, points) = answer.unwrap_or((0, 0));
        self.resize(b + bins, p + points);
        answer?;
        self.starts.push((b + bins) as u32);
        Ok(())
    }

    fn resize(&mut self, bins: usize, points: usize) {
        self.bins.resize(bins, 0);
        self.offsets.resize(bins + 1, 0);
        self.scans.resize(points, 0);
        self.readings.resize(points, 0.0);
    }
}

/// A frame index as five lists, which need not be sound: each call checks them.
#[derive(Clone, Copy, Debug)]
pub struct Index<'a> {
    pub starts: &'a [u32],
    pub bins: &'a [u32],
    pub offsets: &'a [u32],
    pub scans: &'a [u32],
    pub readings: &'a [f32],
}

impl<'a> From<&'a FrameIndex> for Index<'a> {
    fn from(i: &'a FrameIndex) -> Self {
        Index { starts: &i.starts, bins: &i.bins, offsets: &i.offsets, scans: &i.scans, readings: &i.readings }
    }
}

/// Ranges of frames, bins and scans of an index, both ends included.
#[derive(Clone, Copy, Debug, Default)]
pub struct Block {
    pub frames: (u32, u32),
    pub bins: (u32, u32),
    pub scans: (u32, u32),
}

/// Calls a C entry with the five lists of an index, further arguments, and the list for the sums.
macro_rules! summed {
    ($entry:ident, $index:expr, $($number:expr),+ ; $out:expr $(, $more:expr)*) => {{
        let (i, out) = ($index, $out);
        // the written lists are borrowed mutably, so none overlaps another list
        crate::answered(unsafe {
            $entry(
                i.starts.as_ptr(), i.starts.len(), i.bins.as_ptr(), i.bins.len(), i.offsets.as_ptr(), i.offsets.len(),
                i.scans.as_ptr(), i.scans.len(), i.readings.as_ptr(), i.readings.len(),
                $($number),+, out.as_mut_ptr(), out.len(), $($more),*
            )
        })
    }};
}

/// Marginal along retention time: writes for each frame of the block the sum of its readings in the block to the front of `out`, and
/// returns the number of frames of the block.
pub fn build_rt_marginal_into(index: Index, b: Block, out: &mut [f32]) -> Result<usize, u32> {
    summed!(rubzolena_build_rt_marginal, index, b.frames.0, b.frames.1, b.bins.0, b.bins.1, b.scans.0, b.scans.1; out)
}

/// Marginal along mobility: writes for each scan of the block the sum of its readings in the block to the front of `out`, and returns the
/// number of scans of the block.
pub fn build_im_marginal_into(index: Index, b: Block, out: &mut [f32]) -> Result<usize, u32> {
    summed!(rubzolena_build_im_marginal, index, b.frames.0, b.frames.1, b.bins.0, b.bins.1, b.scans.0, b.scans.1; out)
}

/// Extracted ion chromatogram around a TOF row: writes for each frame the sum of its readings with a bin at most `bin_pad` from the row and a
/// scan in the range to the front of `out`, and returns the number of frames.
pub fn rt_trace_for_im_peak_into(index: Index, tof_row: u32, bin_pad: u32, scans: (u32, u32), out: &mut [f32]) -> Result<usize, u32> {
    summed!(rubzolena_rt_trace_for_im_peak, index, tof_row, bin_pad, scans.0, scans.1; out)
}

/// The same with the bins of two TOF bounds, and `pad` more on each side.
pub fn rt_trace_for_im_peak_by_bounds_into(
    index: Index,
    scale: TofScale,
    tofs: (u32, u32),
    pad: u32,
    scans: (u32, u32),
    out: &mut [f32],
) -> Result<usize, u32> {
    let s = scale;
    summed!(
        rubzolena_rt_trace_for_im_peak_by_bounds, index,
        s.tof_min, s.tof_max, s.tof_step, s.num_bins, tofs.0, tofs.1, pad, scans.0, scans.1; out
    )
}

/// The extracted ion chromatograms of all records of `list`, 27 words each, over their TOF and scan bounds: writes them one after another
/// to the front of `out` (at least one element per record and frame), and returns the number of records. `windows` is scratch of at least
/// four elements per record.
pub fn rt_traces_for_im_peaks_by_bounds_into(
    index: Index,
    scale: TofScale,
    list: &[u32],
    pad: u32,
    out: &mut [f32],
    windows: &mut [u32],
) -> Result<usize, u32> {
    let s = scale;
    summed!(
        rubzolena_rt_traces_for_im_peaks_by_bounds, index,
        s.tof_min, s.tof_max, s.tof_step, s.num_bins, list.as_ptr(), list.len(), pad; out, windows.as_mut_ptr(), windows.len()
    )
}

/// The number of elements of a range, both ends included; 0 if it is reversed.
fn count((lo, hi): (u32, u32)) -> usize {
    (hi as usize + 1).saturating_sub(lo as usize)
}

impl FrameIndex {
    pub fn rt_marginal(&self, b: Block) -> Result<Vec<f32>, u32> {
        let mut out = vec![0.0; count(b.frames).min(self.frames())];
        build_rt_marginal_into(self.into(), b, &mut out).map(|_| out)
    }

    pub fn im_marginal(&self, b: Block) -> Result<Vec<f32>, u32> {
        let mut out = vec![0.0; count(b.scans).min(65_536)];
        build_im_marginal_into(self.into(), b, &mut out).map(|_| out)
    }

    /// The extracted ion chromatogram around a TOF row.
    pub fn rt_trace(&self, tof_row: u32, bin_pad: u32, scans: (u32, u32)) -> Result<Vec<f32>, u32> {
        let mut out = vec![0.0; self.frames()];
        rt_trace_for_im_peak_into(self.into(), tof_row, bin_pad, scans, &mut out).map(|_| out)
    }

    /// The extracted ion chromatograms of peaks, one after another, each with one sum per frame.
    pub fn rt_traces(&self, scale: TofScale, peaks: &[Peak], pad: u32) -> Result<Vec<f32>, u32> {
        let list: Vec<u32> = peaks.iter().flat_map(|p| p.0).collect();
        let (mut out, mut windows) = (vec![0.0; peaks.len() * self.frames()], vec![0; 4 * peaks.len()]);
        rt_traces_for_im_peaks_by_bounds_into(self.into(), scale, &list, pad, &mut out, &mut windows).map(|_| out)
    }
}
