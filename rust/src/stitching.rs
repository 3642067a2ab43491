//! Stitching: merges the peaks of a list that belong together.
use crate::{Peak, WORDS};

extern "C" {
    fn rubzolena_stitch_im_peaks(
        list: *const u32, list_len: usize,
        min_overlap_frames: u32, max_scan_delta: u32, jaccard_min: f32, max_tof_row_delta: u32,
        allow_cross_groups: u32, min_im_overlap_scans: u32, im_jaccard_min: f32, require_mutual_apex_inside: u32,
        out: *mut u32, out_len: usize, owners: *mut u32, owners_len: usize,
        order: *mut u32, order_len: usize, groups: *mut u32, groups_len: usize,
        keys: *mut u32, keys_len: usize, merged: *mut u32, merged_len: usize,
    ) -> u64;
}

/// Which peaks belong together. Counts are 0 to 65,535, Jaccard indices 0 to 1.
#[derive(Clone, Copy, Debug, Default)]
pub struct StitchParams {
    pub min_overlap_frames: u32,
    pub max_scan_delta: u32,
    pub jaccard_min: f32,
    pub max_tof_row_delta: u32,
    pub allow_cross_groups: bool,
    pub min_im_overlap_scans: u32,
    pub im_jaccard_min: f32,
    pub require_mutual_apex_inside: bool,
}

/// Scratch for n peaks: `order` and `groups` have at least n elements, `keys` and `merged` at least 27 * n.
#[derive(Debug)]
pub struct Scratch<'a> {
    pub order: &'a mut [u32],
    pub groups: &'a mut [u32],
    pub keys: &'a mut [u32],
    pub merged: &'a mut [u32],
}

/// Stitches the n records of `list`, 27 words each. Writes the records of the stitched peaks to the front of `out` (at least 27 * n
/// elements) and, for each record of `list`, the position of its stitched peak to the front of `owners` (at least n elements). Returns the
/// number of stitched peaks.
pub fn stitch_into(list: &[u32], params: StitchParams, out: &mut [u32], owners: &mut [u32], scratch: Scratch) -> Result<usize, u32> {
    let (p, Scratch { order, groups, keys, merged }) = (params, scratch);
    // the six lists are borrowed mutably, so none overlaps another list
    let answer = unsafe {
        rubzolena_stitch_im_peaks(
            list.as_ptr(), list.len(),
            p.min_overlap_frames, p.max_scan_delta, p.jaccard_min, p.max_tof_row_delta,
            p.allow_cross_groups as u32, p.min_im_overlap_scans, p.im_jaccard_min, p.require_mutual_apex_inside as u32,
            out.as_mut_ptr(), out.len(), owners.as_mut_ptr(), owners.len(),
            order.as_mut_ptr(), order.len(), groups.as_mut_ptr(), groups.len(),
            keys.as_mut_ptr(), keys.len(), merged.as_mut_ptr(), merged.len(),
        )
    };
    crate::answered(answer)
}

/// The stitched peaks and, for each of `peaks`, the position of its stitched peak.
pub fn stitch(peaks: &[Peak], params: StitchParams) -> Result<(Vec<Peak>, Vec<u32>), u32> {
    let n = peaks.len();
    let list: Vec<u32> = peaks.iter().flat_map(|p| p.0).collect();
    let (mut out, mut keys, mut merged) = (vec![0; n * WORDS], vec![0; n * WORDS], vec![0; n * WORDS]);
    let (mut owners, mut order, mut groups) = (vec![0; n], vec![0; n], vec![0; n]);
    let scratch = Scratch { order: &mut order, groups: &mut groups, keys: &mut keys, merged: &mut merged };
    let count = stitch_into(&list, params, &mut out, &mut owners, scratch)?;
    Ok((crate::peaks(&out[..count * WORDS]), owners))
}
