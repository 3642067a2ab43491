//! Grids that are refused, or that need no list: `detect` returns without allocating for the maximum number of peaks of such a size.
use rubzolena::{Grid, TofScale};

const SCANS: [u32; 3] = [0, 1, 2];

fn small() -> Grid<'static> {
    let scale = TofScale { tof_min: 0, tof_max: 0, tof_step: 1, num_bins: 1 };
    Grid { rows: 1, cols: 3, data: &[0.0, 4.0, 0.0], scans: &SCANS, scale, ..Grid::default() }
}

fn number(grid: Grid) -> Option<u32> {
    grid.detect().err()
}

#[test]
fn sizes_without_readings() {
    for (rows, cols) in [(4_194_304, 2_048), (4_194_304, 16_384), (1 << 33, 16_384), (usize::MAX, usize::MAX)] {
        assert_eq!(number(Grid { rows, cols, data: &[], ..small() }), Some(1), "{rows} rows of {cols}");
    }
}

#[test]
fn numbers() {
    assert_eq!(number(small()), None);
    assert_eq!(number(Grid { data: &[0.0, -0.0, 0.0], ..small() }), Some(3));
    assert_eq!(number(Grid { min_prom: f32::NAN, ..small() }), Some(4));
    assert_eq!(number(Grid { first: u32::MAX, ..small() }), None);
    assert_eq!(number(Grid { rt_bounds: (1, 0), ..small() }), Some(4));
    assert_eq!(number(Grid { scans: &[0, 1, 65_536], ..small() }), Some(5));
    assert_eq!(number(Grid { weights: &[1.0, 1.0], ..small() }), Some(6));
    assert_eq!(number(Grid { scans: &[0, 2, 2], ..small() }), Some(7));
    // a scale that disagrees with itself is told after room was made
    let scale = TofScale { tof_min: 1, tof_max: 1, tof_step: 2, num_bins: 1 };
    assert_eq!(number(Grid { scale, ..small() }), Some(22));
}

#[test]
fn a_list_too_short_is_left_alone() {
    let mut list = [7u32; rubzolena::WORDS - 1];
    assert_eq!(small().detect_into(&mut list), Err(20));
    assert_eq!(list, [7; rubzolena::WORDS - 1]);
}

#[test]
fn grids_that_need_no_list() {
    let none: [u32; 0] = [];
    assert_eq!(Grid { cols: 0, data: &[], scans: &none, ..small() }.detect(), Ok(Vec::new()));
    assert_eq!(Grid { cols: 2, data: &[1.0, 2.0], scans: &[5, 6], ..small() }.detect(), Ok(Vec::new()));
}
