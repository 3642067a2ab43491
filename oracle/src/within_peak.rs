//! Stands inside `peak`: what it holds private can be reached from here.

/// The time step of an axis.
pub fn effective_dt(rt_times: &[f32]) -> f32 {
    super::effective_dt(rt_times)
}
