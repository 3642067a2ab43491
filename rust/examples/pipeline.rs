//! A short pipeline: a grid of two rows is searched, its peaks are printed, stitched and printed again; then the same grid with a
//! bad reading.
use rubzolena::{stitch, Grid, StitchParams, TofScale};

fn show(grid: Grid) -> Result<(), u32> {
    let peaks = grid.detect()?;
    for p in &peaks {
        println!("peak {}: row {} scan {} mobility {:?} apex {} area {}", p.id(), p.tof_row(), p.scan(), p.mobility(), p.apex_raw(), p.area_raw());
    }
    let params = StitchParams { max_scan_delta: 1, max_tof_row_delta: 1, ..StitchParams::default() };
    let (stitched, owners) = stitch(&peaks, params)?;
    for p in &stitched {
        println!("stitched {}: row {} scan {} apex {} area {}", p.id(), p.tof_row(), p.scan(), p.apex_raw(), p.area_raw());
    }
    println!("owners {owners:?}");
    Ok(())
}

fn main() {
    let readings = [0.0, 4.0, 0.0, 8.0, 0.0, 0.0, 5.0, 5.0, 0.0, 0.0];
    let grid = Grid {
        rows: 2,
        cols: 5,
        data: &readings,
        scans: &[100, 101, 102, 103, 104],
        scale: TofScale { tof_min: 40, tof_max: 44, tof_step: 4, num_bins: 2 },
        mobility: &[0.9, 1.0, 1.1, 1.2, 1.3],
        min_prom: 1.0,
        min_distance_scans: 2,
        min_width_scans: 1,
        first: 7,
        ..Grid::default()
    };
    show(grid).expect("an accepted grid");
    let bad = [0.0, -1.0, 0.0, 8.0, 0.0, 0.0, 5.0, 5.0, 0.0, 0.0];
    println!("with a negative reading: {:?}", show(Grid { data: &bad, ..grid }));
}
