//! Splines.

use crate::{bits, refused, told};
use kihavute::*;

#[test]
fn splines() {
    let points = [0.0, 0.0, 1.0, 0.0, 2.0, 0.0];
    let mut table = [-77.0; 34];
    assert_eq!(spline_table(&points, &mut table[..32]).map_err(|refusal| refusal.carried()[0]), Err(33));
    assert_eq!(table, [-77.0; 34]);
    assert_eq!(spline_table(&points, &mut table), Ok(33));
    assert_eq!(table[33], -77.0);
    let known = |points, table, progress| {
        let given = told(spline_flight(points, table, Progress(progress)));
        given.map(|flight| (flight.position, flight.tangent, flight.segment, flight.raw.value()))
    };
    let heading = bits([1.0, 0.0]);
    assert_eq!(known(&points, &table[..33], 0.5), Ok((bits([1.0, 0.0]), heading, Some(0), 0.5)));
    assert_eq!(spline_rotation_deg(&points, &table[..33], Progress(0.5)), Ok(0));
    assert_eq!(spline_length(&points, &table[..33]), Ok(2.0f32.to_bits()));
    assert_eq!(told(spline_length(&points, &table)), refused(12, &[]));
    assert_eq!(known(&[], &[0.0], 0.5), Ok(([0, 0], [0, 0], Some(0), 0.5)));
    assert_eq!(known(&points, &table, 0.5), refused(12, &[]));
}
