//! Shapes.

use crate::{refused, told};
use kihavute::*;

#[test]
fn shapes() {
    let line = [0.0, 0.0, 2.0, 0.0, 2.0, 2.0];
    let mut out = [9.0; 12];
    assert_eq!(resample(&line, 5, &mut out), Ok(10));
    assert_eq!(out, [0.0, 0.0, 1.0, 0.0, 2.0, 0.0, 2.0, 1.0, 2.0, 2.0, 9.0, 9.0]);
    assert_eq!(told(resample(&line[..5], 5, &mut out)), refused(9, &[2]));
    assert_eq!(told(resample(&line, 4097, &mut out)), refused(13, &[4097]));
    assert_eq!(told(resample(&line, 7, &mut out)), refused(8, &[14]));
    let mut other = [9.0; 6];
    assert_eq!(morph(&line, &line[..2], 2, &mut out, &mut other), Ok([4, 4]));
    assert_eq!(other, [0.0, 0.0, 0.0, 0.0, 9.0, 9.0]);
    assert_eq!(told(morph_default(&line, &[], &mut out, &mut other)), refused(8, &[256, 0]));
    let mut wide = [9.0; 257];
    assert_eq!(morph_default(&line, &[], &mut wide, &mut other), Ok([256, 0]));
    assert_eq!((wide[0], wide[254], wide[256]), (0.0, 2.0, 9.0));
    assert_eq!(evaluate(&line, &[2.0, 2.0, 4.0, 4.0], 0.5, &mut other), Ok(4));
    assert_eq!(other, [1.0, 1.0, 3.0, 2.0, 9.0, 9.0]);
    assert_eq!(bounds(&line, &line, 0.5), Ok([0.0f32, 0.0, 2.0, 2.0].map(f32::to_bits)));
    assert_eq!(bounds(&line, &[], 0.5), Ok([0; 4]));
}
