//! The frame index through the functions of the crate: frames are joined, sums over them, and refused input.
use rubzolena::*;

const SCALE: TofScale = TofScale { tof_min: 0, tof_max: 8, tof_step: 4, num_bins: 3 };

fn index() -> FrameIndex {
    let mut index = FrameIndex::default();
    let first = Frame { tofs: &[8, 1, 9, 4, 3], scans: &[2, 7, 1, 0, 5], readings: &[1.0, 2.0, 4.0, 8.0, 16.0] };
    let last = Frame { tofs: &[5, 5], scans: &[3, 3], readings: &[32.0, 64.0] };
    index.push(first, SCALE, 6).unwrap();
    index.push(Frame::default(), SCALE, 6).unwrap();
    index.push(last, SCALE, 6).unwrap();
    index
}

#[test]
fn frames_are_joined() {
    let index = index();
    assert_eq!(index.frames(), 3);
    assert_eq!((&index.starts[..], &index.bins[..]), (&[0, 3, 3, 4][..], &[0, 1, 2, 1][..]));
    assert_eq!((&index.offsets[..], &index.scans[..]), (&[0, 2, 3, 4, 6][..], &[5, 5, 0, 2, 3, 3][..]));
    assert_eq!(index.readings, [2.0, 16.0, 8.0, 1.0, 32.0, 64.0]);
}

#[test]
fn a_refused_frame_leaves_the_index() {
    let (mut index, before) = (index(), index());
    let frame = Frame { tofs: &[1], scans: &[1], readings: &[1.0] };
    assert_eq!(index.push(Frame { tofs: &[], ..frame }, SCALE, 6), Err(1));
    assert_eq!(index.push(Frame { readings: &[-0.0], ..frame }, SCALE, 6), Err(3));
    assert_eq!(index.push(frame, SCALE, 65_536), Err(4));
    assert_eq!(index.push(Frame { scans: &[65_536], ..frame }, SCALE, 6), Err(5));
    assert_eq!(index.push(frame, TofScale { num_bins: 4, ..SCALE }, 6), Err(22));
    assert_eq!(index, before);
}

#[test]
fn sums() {
    let index = index();
    let all = Block { frames: (0, 2), bins: (0, 2), scans: (0, 5) };
    assert_eq!(index.rt_marginal(all), Ok(vec![27.0, 0.0, 96.0]));
    assert_eq!(index.im_marginal(all), Ok(vec![8.0, 0.0, 1.0, 96.0, 0.0, 18.0]));
    assert_eq!(index.rt_marginal(Block { frames: (2, 1), ..all }), Err(4));
    assert_eq!(index.rt_marginal(Block { frames: (0, 3), ..all }), Err(4));
    assert_eq!(index.im_marginal(Block { scans: (0, 65_536), ..all }), Err(5));
    assert_eq!(index.rt_trace(1, 0, (0, 5)), Ok(vec![8.0, 0.0, 96.0]));
    assert_eq!(index.rt_trace(1, 1, (5, 0)), Ok(vec![0.0; 3]));
    assert_eq!(FrameIndex::default().rt_trace(1, 1, (0, 5)), Ok(vec![]));
    let mut peak = [0; WORDS];
    (peak[3], peak[15]) = (7, 4);
    assert_eq!(index.rt_traces(SCALE, &[Peak(peak), Peak([0; WORDS])], 0), Ok(vec![8.0, 0.0, 96.0, 0.0, 0.0, 0.0]));
    peak[2] = 8;
    assert_eq!(index.rt_traces(SCALE, &[Peak(peak)], 0), Err(9));
}

#[test]
fn an_index_of_another_form() {
    let sound = index();
    let number = |change: &dyn Fn(&mut FrameIndex)| {
        let mut i = sound.clone();
        change(&mut i);
        i.rt_trace(0, 0, (0, 0)).err()
    };
    assert_eq!(number(&|_| {}), None);
    assert_eq!(number(&|i| i.starts[1] = 4), Some(23));
    assert_eq!(number(&|i| i.offsets[4] = 5), Some(23));
    assert_eq!(number(&|i| i.bins[1] = 0), Some(23));
    assert_eq!(number(&|i| i.offsets.push(6)), Some(1));
    assert_eq!(number(&|i| i.scans[0] = 65_536), Some(5));
    assert_eq!(number(&|i| i.readings[5] = f32::INFINITY), Some(3));
    // the sums are not written
    let mut out = [7.0f32; 2];
    assert_eq!(rt_trace_for_im_peak_into(Index::from(&sound), 0, 0, (0, 0), &mut out), Err(20));
    assert_eq!(out, [7.0; 2]);
}
