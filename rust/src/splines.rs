//! Splines: their tables, and what is flown along them.

use crate::{Bits, Flight, Progress, Refusal, judged};

answering! {
    fn kihavute_spline_table(points: [f32], table: mut [f32]);
    fn kihavute_spline_flight(points: [f32], table: [f32], progress: f32);
    fn kihavute_spline_rotation_deg(points: [f32], table: [f32], progress: f32);
    fn kihavute_spline_length(points: [f32], table: [f32]);
}

/// Stores the table of a spline through points, x before y, from the table's start: the count of its entries.
#[inline]
pub fn spline_table(points: &[f32], table: &mut [f32]) -> Result<usize, Refusal> {
    // SAFETY: the slices are whole and do not overlap, and the answer is the call's own
    let given = judged(|answer, places| unsafe {
        kihavute_spline_table(
            points.as_ptr(),
            points.len() as u64,
            table.as_mut_ptr(),
            table.len() as u64,
            answer,
            places,
        )
    })?;
    Ok(given[0] as usize)
}

/// What is flown at a progress along the spline through these points with this table. A spline is one segment, 0.
///
/// ```
/// use kihavute::{Progress, spline_flight, spline_table};
///
/// let points = [0.0, 0.0, 1.0, 0.0, 2.0, 0.0];
/// let mut table = [0.0; 33];
/// spline_table(&points, &mut table).unwrap();
/// let flight = spline_flight(&points, &table, Progress(0.5)).unwrap();
/// assert_eq!(flight.position.map(f32::from_bits), [1.0, 0.0]);
/// assert_eq!(flight.segment, Some(0));
/// assert_eq!(flight.raw.value(), 0.5);
/// ```
#[inline]
pub fn spline_flight(points: &[f32], table: &[f32], progress: Progress) -> Result<Flight, Refusal> {
    // SAFETY: the slices are whole, and the answer is the call's own
    let given = judged(|answer, places| unsafe {
        kihavute_spline_flight(
            points.as_ptr(),
            points.len() as u64,
            table.as_ptr(),
            table.len() as u64,
            progress.0,
            answer,
            places,
        )
    })?;
    Ok(Flight::given(given))
}

/// Where the spline heads at a progress, in degrees.
#[inline]
pub fn spline_rotation_deg(points: &[f32], table: &[f32], progress: Progress) -> Result<Bits, Refusal> {
    // SAFETY: the slices are whole, and the answer is the call's own
    let given = judged(|answer, places| unsafe {
        let (points_len, table_len) = (points.len() as u64, table.len() as u64);
        kihavute_spline_rotation_deg(points.as_ptr(), points_len, table.as_ptr(), table_len, progress.0, answer, places)
    })?;
    Ok(given[0] as Bits)
}

/// How long the spline is.
#[inline]
pub fn spline_length(points: &[f32], table: &[f32]) -> Result<Bits, Refusal> {
    // SAFETY: the slices are whole, and the answer is the call's own
    let given = judged(|answer, places| unsafe {
        kihavute_spline_length(points.as_ptr(), points.len() as u64, table.as_ptr(), table.len() as u64, answer, places)
    })?;
    Ok(given[0] as Bits)
}
