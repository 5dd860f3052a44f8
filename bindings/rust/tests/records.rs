//! Frames from records, one by one and one after another.

use p3p::{read_record, records, Frame, Refusal, RECORD_SIZE};

const FRAME: Frame = Frame {
    world: [[0.0, 0.0, 0.0], [0.4, 0.0, 0.0], [0.0, 0.3, 0.05]],
    bearings: [[0.0, 0.0, 1.0], [0.6, 0.0, 0.8], [0.0, -0.6, 0.8]],
    target: [0.35, f64::MIN_POSITIVE, -0.0],
    bearing: [f64::INFINITY, 1e300, 5e-324],
};

fn record(frame: &Frame) -> Vec<u8> {
    let vectors = frame.world.iter().chain(&frame.bearings).chain([&frame.target, &frame.bearing]);
    let doubles = vectors.flatten().flat_map(|x| x.to_be_bytes());
    [0, 193, 1].into_iter().chain(doubles).collect()
}

fn changed(place: usize, byte: u8) -> Vec<u8> {
    let mut bytes = record(&FRAME);
    bytes[place] = byte;
    bytes
}

#[test]
fn a_record_gives_its_frame() {
    let bytes = record(&FRAME);
    assert_eq!(bytes.len(), RECORD_SIZE);
    assert_eq!(read_record(&bytes), Ok(FRAME));
    assert!(read_record(&bytes).unwrap().target[2].is_sign_negative());
    assert_eq!(read_record(&[bytes, vec![7; 9]].concat()), Ok(FRAME));
    let other = read_record(&changed(10, 1)).unwrap();
    assert_eq!(
        other,
        Frame { world: [[5e-324, 0.0, 0.0], FRAME.world[1], FRAME.world[2]], ..FRAME }
    );
}

#[test]
fn a_refused_record_says_why() {
    assert_eq!(read_record(&changed(1, 192)), Err(Refusal::RecordLength));
    assert_eq!(read_record(&changed(0, 1)), Err(Refusal::RecordLength));
    assert_eq!(read_record(&changed(2, 2)), Err(Refusal::RecordVersion));
    for length in [0, 1, 2, 3, 194] {
        assert_eq!(read_record(&record(&FRAME)[..length]), Err(Refusal::RecordCutShort));
    }
}

#[test]
fn records_go_on_after_another_version_and_end_after_other_refusals() {
    let good = record(&FRAME);
    let listed = |parts: &[&[u8]]| records(&parts.concat()).collect::<Vec<_>>();
    let version = Err(Refusal::RecordVersion);
    assert_eq!(listed(&[]), []);
    assert_eq!(listed(&[&good, &changed(2, 0), &good]), [Ok(FRAME), version, Ok(FRAME)]);
    assert_eq!(listed(&[&good, &changed(1, 0), &good]), [Ok(FRAME), Err(Refusal::RecordLength)]);
    assert_eq!(listed(&[&good, &good[..194]]), [Ok(FRAME), Err(Refusal::RecordCutShort)]);
}

#[test]
fn a_frame_is_solved_and_chosen_by_its_fields() {
    let frame = read_record(&record(&FRAME)).unwrap();
    let poses = p3p::solve(&frame.world, &frame.bearings).unwrap();
    // the bearing has an infinity
    assert_eq!(p3p::choose(&poses, &frame.target, &frame.bearing), Err(Refusal::NoFiniteScore));
    assert_eq!(p3p::choose(&poses, &frame.world[0], &frame.bearings[0]).unwrap().score, 0.0);
}
