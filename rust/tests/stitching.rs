//! Stitching through the functions of the crate: peaks that are merged or not, the owners, and refused lists.
use rubzolena::{stitch, stitch_into, Peak, Scratch, StitchParams, WORDS};

/// A peak of one scan and one frame, area 1.
fn peak(row: u32, scan: u32, id: u32) -> Peak {
    let mut w = [0; WORDS];
    (w[0], w[10], w[11], w[12], w[13], w[14], w[15]) = (row, scan, scan, scan, scan, scan, scan);
    (w[23], w[24], w[26]) = (1, 1f32.to_bits(), id);
    Peak(w)
}

fn changed(p: Peak, word: usize, value: u32) -> Peak {
    let mut w = p.0;
    w[word] = value;
    Peak(w)
}

const PARAMS: StitchParams = StitchParams {
    min_overlap_frames: 1,
    max_scan_delta: 4,
    jaccard_min: 0.5,
    max_tof_row_delta: 2,
    allow_cross_groups: false,
    min_im_overlap_scans: 0,
    im_jaccard_min: 0.0,
    require_mutual_apex_inside: false,
};

fn number(peaks: &[Peak], params: StitchParams) -> Option<u32> {
    stitch(peaks, params).err()
}

#[test]
fn neighbours_become_one() {
    let peaks = [peak(900, 7, 30), peak(11, 5, 20), peak(9, 4, 40), peak(10, 4, 10)];
    let (stitched, owners) = stitch(&peaks, PARAMS).expect("an accepted list");
    assert_eq!(owners, [1, 0, 0, 0]);
    assert_eq!(stitched.iter().map(|p| (p.tof_row(), p.scan(), p.id())).collect::<Vec<_>>(), [(10, 4, 10), (900, 7, 30)]);
    assert_eq!(stitched[0].area_raw(), 3.0);
    assert_eq!(stitch(&[], PARAMS), Ok((Vec::new(), Vec::new())));
}

#[test]
fn numbers() {
    let two = [peak(1, 1, 1), peak(1, 1, 2)];
    assert_eq!(number(&two, PARAMS), None);
    let many: Vec<Peak> = (0..65_537).map(|k| peak(1, 1, k)).collect();
    assert_eq!(number(&many, PARAMS), Some(2));
    assert_eq!(number(&many[1..], PARAMS), None);
    assert_eq!(number(&two, StitchParams { max_scan_delta: 65_536, ..PARAMS }), Some(4));
    assert_eq!(number(&two, StitchParams { jaccard_min: -0.0, ..PARAMS }), Some(4));
    assert_eq!(number(&two, StitchParams { im_jaccard_min: f32::NAN, ..PARAMS }), Some(4));
    assert_eq!(number(&[two[0], two[1], two[0]], PARAMS), Some(8));
    assert_eq!(number(&[two[0], changed(two[1], 8, 8)], PARAMS), Some(9));
    // the lowest number: the same identity twice comes before a bad field, and a bad field before nothing else that is wrong here
    assert_eq!(number(&[two[0], changed(two[0], 10, 16_384)], PARAMS), Some(8));
    assert_eq!(number(&[changed(two[0], 14, 9)], PARAMS), Some(9));
}

/// The result with buffers of those lengths, and whether they are unchanged.
fn with_rooms(list: &[u32], rooms: [usize; 6]) -> (Result<usize, u32>, bool) {
    let mut buffers = rooms.map(|n| vec![7u32; n]);
    let [out, owners, order, groups, keys, merged] = &mut buffers;
    let answer = stitch_into(list, PARAMS, out, owners, Scratch { order, groups, keys, merged });
    (answer, buffers.iter().flatten().all(|w| *w == 7))
}

#[test]
fn buffers_too_short_are_left_alone() {
    let list: Vec<u32> = [peak(1, 1, 9), peak(700, 1, 2)].iter().flat_map(|p| p.0).collect();
    let enough = [2 * WORDS, 2, 2, 2, 2 * WORDS, 2 * WORDS];
    assert_eq!(with_rooms(&list, enough), (Ok(2), false));
    for (k, number) in [20, 20, 21, 21, 21, 21].into_iter().enumerate() {
        let mut rooms = enough;
        rooms[k] -= 1;
        assert_eq!(with_rooms(&list, rooms), (Err(number), true), "buffer {k}");
    }
    assert_eq!(with_rooms(&list[1..], enough), (Err(1), true));
    assert_eq!(with_rooms(&[], [0; 6]), (Ok(0), true));
    assert_eq!(with_rooms(&list, [0; 6]), (Err(20), true));
}
