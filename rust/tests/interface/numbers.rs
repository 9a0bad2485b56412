//! Single numbers, points and angles.

use crate::{NAN, bits};
use kihavute::*;

#[test]
fn numbers() {
    assert_eq!(sqrt(2.0).to_bits(), 0x3FB5_04F3);
    assert_eq!(sqrt(-1.0).to_bits(), NAN);
    assert_eq!(tidy(f32::from_bits(0xFF81_2345)).to_bits(), NAN);
    assert_eq!(min(0.0, -0.0), 0);
    assert_eq!(max(f32::NAN, 1.0), 1.0f32.to_bits());
    assert_eq!(clamp(3.0, 1.0, 2.0), 2.0f32.to_bits());
    assert_eq!(clamp01(f32::NAN), 0);
    assert_eq!(lerp(1.0, 3.0, 0.5), 2.0f32.to_bits());
    assert_eq!(deg_to_rad(180.0), 0x4049_0FDB);
    assert_eq!(rad_to_deg(f32::from_bits(0x4049_0FDB)), 180.0f32.to_bits());
}

#[test]
fn points() {
    assert_eq!(add([1.0, 2.0], [3.0, 5.0]), bits([4.0, 7.0]));
    assert_eq!(sub([1.0, 2.0], [3.0, 5.0]), bits([-2.0, -3.0]));
    assert_eq!(scale([1.0, f32::NAN], 2.0), [2.0f32.to_bits(), NAN]);
    assert_eq!(dot([1.0, 2.0], [3.0, 5.0]), 13.0f32.to_bits());
    assert_eq!(length([3.0, 4.0]), 5.0f32.to_bits());
    assert_eq!(distance([1.0, 2.0], [4.0, 6.0]), 5.0f32.to_bits());
    assert_eq!(normalize([3.0, 4.0]), bits([0.6, 0.8]));
    assert_eq!(normalize([0.0, 1.1920929e-7]), [0, 0]);
    assert_eq!(lerp_point([0.0, 2.0], [4.0, 4.0], 0.25), bits([1.0, 2.5]));
}

#[test]
fn angles() {
    assert_eq!(sin(0.0).to_bits(), 0);
    assert_eq!(sin(64.5).to_bits(), NAN);
    assert_eq!(cos(0.0), 1.0);
    assert_eq!(sin_cos(1.0), [cos(1.0).to_bits(), sin(1.0).to_bits()]);
    assert_eq!(atan2(0.0, -1.0).to_bits(), 0x4049_0FDB);
    assert_eq!(rotation_deg([-2.0, 0.0]), 180.0f32.to_bits());
    assert_eq!(rotation_deg([0.0, -0.0]), 0);
    assert_eq!(angle_between([1.0, 0.0], [-1.0, 0.0]), 0x4049_0FDB);
}
