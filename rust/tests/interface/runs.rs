//! Dry runs over recorded ground speed.

use crate::{refused, told};
use kihavute::*;

#[test]
fn the_refusals_come_in_their_order_and_write_nothing() {
    let path = Path::from_text(b"M0 0H5V5").unwrap();
    let (mut segments, mut raws) = (vec![7; 3], vec![7.0; 3]);
    let long = vec![100_001; 36_001];
    let bad = Stored { lengths: &[5.0, 4.0], ..path.stored() };
    assert_eq!(told(bad.dry_run(&long, &mut segments, &mut raws)), refused(12, &[]));
    assert_eq!(told(path.dry_run(&long, &mut segments, &mut raws)), refused(13, &[36_001]));
    let speeds = [1, 100_000, u32::MAX, 100_001];
    assert_eq!(told(path.dry_run(&speeds, &mut segments, &mut raws)), refused(13, &[u32::MAX.into()]));
    let four = [1, 100_000, 0, 100_000];
    assert_eq!(told(path.dry_run(&four, &mut segments, &mut raws)), refused(8, &[4, 4]));
    assert_eq!((segments, raws), (vec![7; 3], vec![7.0; 3]));
}

#[test]
fn a_second_is_judged_after_its_own_speed_and_holds_at_the_end() {
    let path = Path::from_text(b"M0 0H5V5").unwrap();
    let (mut segments, mut raws) = ([7; 6], [7.0; 6]);
    assert_eq!(path.dry_run(&[0, 5_000, 2_500, 2_500, 100_000], &mut segments, &mut raws), Ok(5));
    assert_eq!(segments, [0, 0, 1, 1, 1, 7]);
    assert_eq!(raws, [0.0, 1.0, 0.5, 1.0, 1.0, 7.0]);
    let none = Path::from_text(b"M0 0").unwrap();
    assert_eq!(none.dry_run(&[1, 2], &mut segments, &mut raws), Ok(2));
    assert_eq!((segments[0], raws[0], segments[1], raws[1], segments[2]), (NO_SEGMENT, 0.0, NO_SEGMENT, 0.0, 1));
}

#[test]
fn a_sum_is_rounded_once() {
    // raw times 2^24 is the target
    let path = Path::from_text(b"M0 0H16777216").unwrap();
    let mut speeds = vec![100_000; 20_973];
    (speeds[20_971], speeds[20_972]) = (52_125, 250);
    let (mut segments, mut raws) = (vec![7; 20_973], vec![7.0f32; 20_973]);
    assert_eq!(path.dry_run(&speeds, &mut segments, &mut raws), Ok(20_973));
    let targets: Vec<f32> = raws.iter().map(|raw| raw * 16_777_216.0).collect();
    let mut sum = 0u64;
    for (speed, target) in speeds.iter().zip(&targets) {
        sum += u64::from(*speed);
        assert_eq!(target.to_bits(), ((sum as f64 / 1000.0) as f32).to_bits());
    }
    // two ties, 2,097,152.125 and 2,097,152.375
    assert_eq!(targets[20_971..], [2_097_152.0, 2_097_152.5]);
}
