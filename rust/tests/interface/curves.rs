//! Lone segments.

use crate::{bits, refused, told};
use kihavute::*;

#[test]
fn curves() {
    let straight = [[0.0, 0.0], [1.0, 0.0], [2.0, 0.0]];
    // the raw parameter is one that only a lookup makes
    let known = |given: Result<Lone, Refusal>| {
        given.map(|lone| (lone.position, lone.tangent, lone.raw.value(), f32::from_bits(lone.length)))
    };
    let lone = |position, tangent, raw: f32, length: f32| (bits(position), bits(tangent), raw, length);
    assert_eq!(known(quad(&straight, Progress(0.5))), Ok(lone([1.0, 0.0], [1.0, 0.0], 0.5, 2.0)));
    assert_eq!(known(quad(&straight, Progress(f32::NAN))), Ok(lone([0.0, 0.0], [1.0, 0.0], 0.0, 2.0)));
    assert_eq!(known(quad(&[[1.0, 2.0]; 3], Progress(0.25))), Ok(lone([1.0, 2.0], [0.0, 0.0], 0.25, 0.0)));
    assert_eq!(told(quad(&[[-3e38, 0.0], [0.0, 0.0], [3e38, 0.0]], Progress(0.5))), refused(11, &[]));
    let straight = [[0.0, 0.0], [0.0, 1.0], [0.0, 2.0], [0.0, 3.0]];
    assert_eq!(known(cubic(&straight, Progress(2.0))), Ok(lone([0.0, 3.0], [0.0, 1.0], 1.0, 3.0)));
    assert_eq!(known(cubic(&[[1.0, 2.0]; 4], Progress(0.5))), Ok(lone([1.0, 2.0], [0.0, 0.0], 0.5, 0.0)));
    assert_eq!(told(cubic(&[[f32::NAN; 2]; 4], Progress(0.5))), refused(11, &[]));
    let ends = [[1.0, 2.0], [4.0, 6.0]];
    assert_eq!(known(line(&ends, Progress(0.5))), Ok(lone([2.5, 4.0], [0.6, 0.8], 0.5, 5.0)));
    assert_eq!(known(line(&[[0.0, 0.0], [2e19, 0.0]], Progress(0.0))), Ok(lone([0.0, 0.0], [1.0, 0.0], 0.0, 2e19)));
    assert_eq!(told(line(&[[0.0, 0.0], [3e38, 3e38]], Progress(0.5))), refused(11, &[]));
    let fallback = Chord {
        start: [1.0, 2.0],
        radii: [0.0, 1.0],
        x_axis_rotation: f32::NAN,
        large_arc: false,
        sweep: true,
        end: [4.0, 6.0],
    };
    assert_eq!(arc(&fallback, Progress(0.5)), line(&ends, Progress(0.5)));
}

#[test]
fn tables() {
    let straight = [[0.0, 0.0], [15.5, 0.0], [31.0, 0.0]];
    let table = quad_table(&straight).expect("a quad of length 31 has a table");
    assert_eq!((table[0], table[31] == table[32]), (0, true));
    assert_eq!(Ok(table[32]), quad(&straight, Progress(0.5)).map(|lone| lone.length));
    assert_eq!(told(quad_table(&[[f32::NAN; 2]; 3])), refused(11, &[]));
    assert_eq!(cubic_table(&[[1.0, 2.0]; 4]), Ok([0; 33]));
    assert_eq!(told(cubic_table(&[[f32::NAN; 2]; 4])), refused(11, &[]));
}

#[test]
fn arcs() {
    let half = Chord {
        start: [0.0, 0.0],
        radii: [1.0, 1.0],
        x_axis_rotation: 0.0,
        large_arc: false,
        sweep: true,
        end: [2.0, 0.0],
    };
    let (shape, fell_back) = arc_shape(&half).expect("half a circle is an arc");
    assert_eq!((shape[4], shape[5], fell_back), (1.0f32.to_bits(), 0, false));
    let table = arc_table(&half).expect("half a circle is an arc").expect("and has a table");
    assert_eq!(Ok(table[32]), arc(&half, Progress(0.5)).map(|lone| lone.length));
    let line = Chord { radii: [0.0, 1.0], x_axis_rotation: f32::NAN, ..half };
    assert_eq!(arc_shape(&line).map(|(_, fell_back)| fell_back), Ok(true));
    assert_eq!(arc_table(&line), Ok(None));
    let turned = |x_axis_rotation| Chord { radii: [2.0, 1.0], x_axis_rotation, ..half };
    assert_eq!(arc_table(&turned(765.0)), arc_table(&turned(45.0)));
    assert_eq!(arc(&turned(-765.0), Progress(0.5)), arc(&turned(-45.0), Progress(0.5)));
    assert_eq!(arc_shape(&turned(765.0)).map(|(shape, _)| shape[8]), Ok(765.0f32.to_bits()));
    assert!(arc(&Chord { x_axis_rotation: f32::MAX, ..half }, Progress(0.5)).is_ok());
    assert_eq!(told(arc(&Chord { x_axis_rotation: f32::INFINITY, ..half }, Progress(0.5))), refused(10, &[]));
    assert_eq!(told(arc_table(&Chord { x_axis_rotation: f32::NAN, ..half })), refused(10, &[]));
    assert_eq!(told(arc(&Chord { radii: [5e9, 5e9], end: [3.0, 4.0], ..half }, Progress(0.5))), refused(11, &[]));
}
