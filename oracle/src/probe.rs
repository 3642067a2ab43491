//! The port's functions, as the static library exports them. A slice is a pointer and a length.
extern "C" {
    fn probe_max(a: f32, b: f32) -> f32;
    fn probe_min(a: f32, b: f32) -> f32;
    fn probe_abs(x: f32) -> f32;
    fn probe_clamp(x: f32, lo: f32, hi: f32) -> f32;
    fn probe_floor(x: f32) -> f32;
    fn probe_ceil(x: f32) -> f32;
    fn probe_round(x: f32) -> f32;
    fn probe_cast_sat(x: f32) -> u32;
    fn probe_of_u32(n: u32) -> f32;
    fn probe_word_of(x: f32) -> u32;
    fn probe_float_of(w: u32) -> f32;
    fn probe_lerp(a: f32, b: f32, t: f32) -> f32;
    fn probe_quad_subsample(y0: f32, y1: f32, y2: f32) -> f32;
    fn probe_area(y: *const f32, n: usize, x0: f32, x1: f32) -> u64;
    fn probe_is_candidate(y: *const f32, n: usize, i: usize) -> bool;
    fn probe_apex(function: u32, y: *const f32, n: usize, i: usize) -> f32;
    fn probe_move(list: *const u32, n: usize, k: usize, out: *mut u32, m: usize, j: usize) -> bool;
    fn probe_sound(list: *const u32, n: usize, k: usize) -> u32;
}

macro_rules! plain {
    ($($name:ident = $c:ident($($arg:ident : $type:ty),*) -> $result:ty;)*) => {
        $(pub fn $name($($arg: $type),*) -> $result {
            unsafe { $c($($arg),*) }
        })*
    };
}

plain! {
    max = probe_max(a: f32, b: f32) -> f32;
    min = probe_min(a: f32, b: f32) -> f32;
    abs = probe_abs(x: f32) -> f32;
    clamp = probe_clamp(x: f32, lo: f32, hi: f32) -> f32;
    floor = probe_floor(x: f32) -> f32;
    ceil = probe_ceil(x: f32) -> f32;
    round = probe_round(x: f32) -> f32;
    cast_sat = probe_cast_sat(x: f32) -> u32;
    of_u32 = probe_of_u32(n: u32) -> f32;
    word_of = probe_word_of(x: f32) -> u32;
    float_of = probe_float_of(w: u32) -> f32;
    lerp = probe_lerp(a: f32, b: f32, t: f32) -> f32;
    quad_subsample = probe_quad_subsample(y0: f32, y1: f32, y2: f32) -> f32;
}

/// An answer, or a number of document 01.
pub fn area(y: &[f32], x0: f32, x1: f32) -> Result<f32, u32> {
    let r = unsafe { probe_area(y.as_ptr(), y.len(), x0, x1) };
    if r >> 32 == 0 {
        Ok(f32::from_bits(r as u32))
    } else {
        Err((r >> 32) as u32)
    }
}

pub fn is_candidate(y: &[f32], i: usize) -> bool {
    unsafe { probe_is_candidate(y.as_ptr(), y.len(), i) }
}

pub fn prominence(y: &[f32], i: usize) -> f32 {
    unsafe { probe_apex(19, y.as_ptr(), y.len(), i) }
}

/// Where the row crosses the half height of i, to the left and to the right.
pub fn crossings(y: &[f32], i: usize) -> (f32, f32) {
    let crossing = |function| unsafe { probe_apex(function, y.as_ptr(), y.len(), i) };
    (crossing(20), crossing(21))
}

/// Reads the record at place k of a list and writes it at place j of another.
pub fn move_record(list: &[u32], k: usize, out: &mut [u32], j: usize) -> bool {
    unsafe { probe_move(list.as_ptr(), list.len(), k, out.as_mut_ptr(), out.len(), j) }
}

/// Whether the record at place k passes number 9; `None` past the list.
pub fn sound(list: &[u32], k: usize) -> Option<bool> {
    match unsafe { probe_sound(list.as_ptr(), list.len(), k) } {
        0 => Some(false),
        1 => Some(true),
        _ => None,
    }
}

extern "C" {
    fn probe_find_im_peaks_row(
        y: *const f32, y_len: usize, z: *const f32, z_len: usize,
        tof_row: u32, tof_center: u32, tof_lo: u32, tof_hi: u32,
        rt_lo: u32, rt_hi: u32, frame_id_lo: u32, frame_id_hi: u32, grouped: bool, window_group: u32,
        mobility: *const f32, mobility_len: usize,
        min_prom: f32, min_distance: u32, min_width: u32,
        axis: *const u32, axis_len: usize,
        first: u32,
        out: *mut u32, out_len: usize,
    ) -> u64;
    fn probe_smooth(v: *mut f32, v_len: usize, weights: *const f32, weights_len: usize, scratch: *mut f32, scratch_len: usize) -> u32;
}

/// The number (0: none) and the count of peaks.
pub fn find_im_peaks_row(row: &crate::row_level::Row, out: &mut [u32]) -> (u32, usize) {
    let ([tof_row, center, lo, hi], [rt_lo, rt_hi, id_lo, id_hi]) = (row.place, row.bounds);
    let r = unsafe {
        probe_find_im_peaks_row(
            row.smoothed.as_ptr(), row.smoothed.len(), row.raw.as_ptr(), row.raw.len(),
            tof_row, center, lo, hi,
            rt_lo, rt_hi, id_lo, id_hi, row.group.is_some(), row.group.unwrap_or(0),
            row.mobility.as_ptr(), row.mobility.len(),
            row.min_prom, row.min_distance, row.min_width,
            row.axis.as_ptr(), row.axis.len(),
            row.first,
            out.as_mut_ptr(), out.len(),
        )
    };
    ((r % 64) as u32, (r / 64) as usize)
}

/// The number, 0 for none.
pub fn smooth_vector_gaussian(v: &mut [f32], weights: &[f32], scratch: &mut [f32]) -> u32 {
    unsafe { probe_smooth(v.as_mut_ptr(), v.len(), weights.as_ptr(), weights.len(), scratch.as_mut_ptr(), scratch.len()) }
}
