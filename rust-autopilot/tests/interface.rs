//! The wrapper through its public interface alone.

use autopilot::{Flown, Leg, Legs, Refusal, legs, legs_into};
use kihavute::{Path, Stored};

fn path(text: &str) -> Path {
    Path::from_text(text.as_bytes()).expect("the text is a path")
}

#[test]
fn no_segment_has_no_leg() {
    assert_eq!(legs(&path(""), 1.0), Ok(Legs { legs: vec![], far: false }));
}

#[test]
fn a_moveto_leaves_a_gap() {
    let given = legs(&path("M1 2H3M5 6V8"), 1.0).expect("a distance of 1 is one");
    assert_eq!(given.legs, [Leg { start: [1.0, 2.0], end: [3.0, 2.0] }, Leg { start: [5.0, 6.0], end: [5.0, 8.0] }]);
}

#[test]
fn legs_join_within_a_segment_and_its_ends_are_exact() {
    for (text, count) in [("M0 0A10 10 0 1 1 3 4", 31), ("M0 0C1 9 8 9 3 4", 1024), ("M0 0Q1 9 3 4", 1024)] {
        let given = legs(&path(text), 1e-20).expect("a small distance is one");
        assert_eq!((given.legs.len(), given.far), (count, count == 1024), "{text}");
        assert!(given.legs.windows(2).all(|two| two[0].end == two[1].start), "{text}");
        assert_eq!((given.legs[0].start, given.legs[count - 1].end), ([0.0, 0.0], [3.0, 4.0]), "{text}");
    }
}

#[test]
fn each_distance_that_is_none_is_refused_with_its_bits() {
    let curve = path("M0 0Q1 1 2 0");
    for distance in [0.0, -0.0, -1.0, f32::INFINITY, f32::NEG_INFINITY] {
        assert_eq!(legs(&curve, distance), Err(Refusal::Distance { bits: distance.to_bits() }));
    }
    assert_eq!(legs(&curve, f32::from_bits(0xFF80_0001)), Err(Refusal::Distance { bits: 0x7FC0_0000 }));
    assert_eq!(
        legs(&curve, -1.0).unwrap_err().to_string(),
        "the distance -1 is not above 0 and finite; give one that is"
    );
}

#[test]
fn a_refusal_writes_nothing_and_comes_in_its_order() {
    let curve = path("M0 0Q1 1 2 0");
    let stored = curve.stored();
    let mut out = [7.0; 8];
    assert_eq!(legs_into(stored, 0.25, &mut out[..7]), Err(Refusal::NoRoom { legs: 2 }));
    let wrong = Stored { lengths: &[-1.0], ..stored };
    assert_eq!(legs_into(wrong, -1.0, &mut []), Err(Refusal::BadPath));
    assert_eq!(legs_into(stored, -1.0, &mut []), Err(Refusal::Distance { bits: 0xBF80_0000 }));
    assert_eq!(out, [7.0; 8]);
    assert_eq!(legs_into(stored, 0.25, &mut out), Ok(Flown { legs: 2, far: false }));
    assert_eq!(out, [0.0, 0.0, 1.0, 0.5, 1.0, 0.5, 2.0, 0.0]);
}
