//! Lookups.

use crate::{refused, told};
use kihavute::*;

#[test]
fn lookups() {
    let entries: [f32; 32] = std::array::from_fn(|i| i as f32);
    let raw = |total, progress| told(raw_parameter(&entries, total, Progress(progress))).map(RawParameter::value);
    assert_eq!(raw(31.0, 0.0), Ok(0.0));
    assert_eq!(raw(31.0, 0.5), Ok(0.5));
    assert_eq!(raw(31.0, 2.0), Ok(1.0));
    assert_eq!(raw(30.0, 0.5), refused(12, &[]));
    assert_eq!(spot(&[2.0, 2.0, 4.0], Progress(0.75)), Ok(Some((2, Progress(0.5)))));
    assert_eq!(spot(&[], Progress(0.5)), Ok(None));
    assert_eq!(told(spot(&[2.0, 1.0], Progress(0.5))), refused(12, &[]));
}
