//! The whole way from frames to retention peaks: frames become a frame index, the readings of two ranges of frames become grids, the
//! mobility peaks of each grid are found, those that belong together are stitched, and each is expanded along retention time.
use rubzolena::*;

/// Nine TOF bins, 0 to 8. The two substances stand in bins 1 and 6. Expansion sums the bins from that of `tof_lo` to that of `tof_hi`, which
/// is the next bin, and `bin_pad` (2) more on each side: bins 0 to 4 for the first substance, from bin 4 on for the second. So neither shows
/// in the trace of the other. A second substance in bin 4 would show in the trace of the first where their scans overlap.
const SCALE: TofScale = TofScale { tof_min: 40, tof_max: 72, tof_step: 4, num_bins: 9 };
const SCANS: (u32, u32) = (100, 111);
const FRAMES: u32 = 60;

/// A triangle: the height at the centre, falling linearly to 0 at the distance `reach` on each side.
fn tent(at: u32, centre: f32, reach: f32, height: f32) -> f32 {
    (height * (1.0 - (at as f32 - centre).abs() / reach)).max(0.0)
}

/// The points of a frame: two substances, at TOF 45 and at TOF 65, the second of which elutes twice.
fn points(frame: u32) -> (Vec<u32>, Vec<u32>, Vec<f32>) {
    let early = tent(frame, 14.0, 5.0, 400.0);
    let twice = tent(frame, 26.0, 4.0, 250.0) + tent(frame, 42.0, 4.5, 300.0);
    let (mut tofs, mut scans, mut readings) = (Vec::new(), Vec::new(), Vec::new());
    for scan in SCANS.0..=SCANS.1 {
        for (tof, amount) in [(45, early * tent(scan, 103.0, 3.0, 1.0)), (65, twice * tent(scan, 107.0, 4.0, 1.0))] {
            if amount > 0.0 {
                tofs.push(tof);
                scans.push(scan);
                readings.push(amount);
            }
        }
    }
    (tofs, scans, readings)
}

/// The summed readings of a range of frames: one row per bin, one column per scan.
fn grid(index: &FrameIndex, frames: (u32, u32)) -> Vec<f32> {
    let cols = (SCANS.1 - SCANS.0 + 1) as usize;
    let mut data = vec![0.0; SCALE.num_bins as usize * cols];
    for b in index.starts[frames.0 as usize]..index.starts[frames.1 as usize + 1] {
        let (from, to) = (index.offsets[b as usize] as usize, index.offsets[b as usize + 1] as usize);
        for p in from..to {
            data[index.bins[b as usize] as usize * cols + (index.scans[p] - SCANS.0) as usize] += index.readings[p];
        }
    }
    data
}

/// Gaussian weights, up to three sigma on each side.
fn weights(sigma: f32) -> Vec<f32> {
    let radius = (3.0 * sigma).ceil() as i32;
    (-radius..=radius).map(|d| (-(d * d) as f32 / (2.0 * sigma * sigma)).exp()).collect()
}

fn whole_way() -> Result<(), u32> {
    let mut index = FrameIndex::default();
    for frame in 0..FRAMES {
        let (tofs, scans, readings) = points(frame);
        index.push(Frame { tofs: &tofs, scans: &scans, readings: &readings }, SCALE, 200)?;
    }
    println!("index: {} frames, {} bins, {} points", index.frames(), index.bins.len(), index.scans.len());

    let ids: Vec<u32> = (0..FRAMES).map(|k| 1_000 + 2 * k).collect();
    let times: Vec<f32> = (0..FRAMES).map(|k| 60.0 + 0.5 * k as f32).collect();
    let columns: Vec<u32> = (SCANS.0..=SCANS.1).collect();
    let mut peaks = Vec::new();
    for frames in [(0, 34), (20, 59)] {
        let found = Grid {
            rows: SCALE.num_bins as usize,
            cols: columns.len(),
            data: &grid(&index, frames),
            scans: &columns,
            scale: SCALE,
            rt_bounds: frames,
            frame_id_bounds: (ids[frames.0 as usize], ids[frames.1 as usize]),
            min_prom: 50.0,
            min_distance_scans: 2,
            min_width_scans: 1,
            weights: &weights(0.5),
            first: peaks.len() as u32,
            ..Grid::default()
        }
        .detect()?;
        for p in &found {
            println!("frames {frames:?}: peak {}: row {} scan {} apex {:.1} area {:.1}", p.id(), p.tof_row(), p.scan(), p.apex_raw(), p.area_raw());
        }
        peaks.extend(found);
    }

    let (stitched, owners) = stitch(&peaks, StitchParams { max_scan_delta: 2, ..StitchParams::default() })?;
    println!("stitched to {} peaks, owners {owners:?}", stitched.len());

    let ctx = RtTraceCtx { frame_ids_sorted: &ids, rt_times_sec: &times };
    let run = Run { index: (&index).into(), scale: SCALE, ctx, params: RtExpandParams::default() };
    for p in &stitched {
        let w = expand_window(p, ctx, run.params)?.expect("its frames are in the run");
        println!("peak {}: row {}, followed over frames {} to {}, sigma {} frames", p.id(), p.tof_row(), w.first, w.last, w.sigma);
    }
    let (found, counts) = expand_im_peaks(&stitched, run, weights, 500)?;
    println!("retention peaks: {counts:?}");
    for p in &found {
        println!(
            "retention peak {} of peak {}: frame {} at {:.2} s, frames {:?}, numbers {:?}, apex {:.1}, area {:.1}",
            p.id(), p.parent_im_id(), p.rt_idx(), p.rt_sec(), p.rt_bounds(), p.frame_id_bounds(), p.apex_raw(), p.area_raw()
        );
    }
    let short = RtTraceCtx { rt_times_sec: &times[1..], ..ctx };
    println!("with a time too few: {:?}", expand_im_peaks(&stitched, Run { ctx: short, ..run }, weights, 500).err());
    Ok(())
}

fn main() {
    whole_way().expect("accepted input");
}
