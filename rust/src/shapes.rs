//! Shapes: a line with evenly spaced points, one shape on its way to another.

use crate::{Bits, Refusal, judged};

answering! {
    fn kihavute_resample(points: [f32], count: u64, out: mut [f32]);
    fn kihavute_morph(from: [f32], to: [f32], resolution: u64, out_from: mut [f32], out_to: mut [f32]);
    fn kihavute_morph_default(from: [f32], to: [f32], out_from: mut [f32], out_to: mut [f32]);
    fn kihavute_evaluate(from: [f32], to: [f32], t: f32, out: mut [f32]);
    fn kihavute_bounds(from: [f32], to: [f32], t: f32);
}

/// So many points, evenly spaced along the line through these, from the output's start; how many numbers that is.
#[inline]
pub fn resample(points: &[f32], count: usize, out: &mut [f32]) -> Result<usize, Refusal> {
    // SAFETY: the slices are whole, the output is borrowed alone, and the answer is the call's own
    let given = judged(|answer, places| unsafe {
        kihavute_resample(
            points.as_ptr(),
            points.len() as u64,
            count as u64,
            out.as_mut_ptr(),
            out.len() as u64,
            answer,
            places,
        )
    })?;
    Ok(given[0] as usize)
}

/// The two shapes of a morph, each resampled to this many points, at least 2; how many numbers each has.
#[inline]
pub fn morph(
    from: &[f32],
    to: &[f32],
    resolution: usize,
    out_from: &mut [f32],
    out_to: &mut [f32],
) -> Result<[usize; 2], Refusal> {
    let [one, other] = [(out_from.as_mut_ptr(), out_from.len() as u64), (out_to.as_mut_ptr(), out_to.len() as u64)];
    // SAFETY: the slices are whole, each output is borrowed alone, and the answer is the call's own
    let given = judged(|answer, places| unsafe {
        kihavute_morph(
            from.as_ptr(),
            from.len() as u64,
            to.as_ptr(),
            to.len() as u64,
            resolution as u64,
            one.0,
            one.1,
            other.0,
            other.1,
            answer,
            places,
        )
    })?;
    Ok([given[0] as usize, given[1] as usize])
}

/// The same where no resolution is stated: 128 points, or as many as the larger shape has if that is more. Each output takes
/// two numbers for each.
#[inline]
pub fn morph_default(
    from: &[f32],
    to: &[f32],
    out_from: &mut [f32],
    out_to: &mut [f32],
) -> Result<[usize; 2], Refusal> {
    let [one, other] = [(out_from.as_mut_ptr(), out_from.len() as u64), (out_to.as_mut_ptr(), out_to.len() as u64)];
    // SAFETY: the slices are whole, each output is borrowed alone, and the answer is the call's own
    let given = judged(|answer, places| unsafe {
        kihavute_morph_default(
            from.as_ptr(),
            from.len() as u64,
            to.as_ptr(),
            to.len() as u64,
            one.0,
            one.1,
            other.0,
            other.1,
            answer,
            places,
        )
    })?;
    Ok([given[0] as usize, given[1] as usize])
}

/// The shape between two shapes at a progress, from the output's start; how many numbers it has.
#[inline]
pub fn evaluate(from: &[f32], to: &[f32], t: f32, out: &mut [f32]) -> Result<usize, Refusal> {
    let (start, room) = (out.as_mut_ptr(), out.len() as u64);
    // SAFETY: the slices are whole, the output is borrowed alone, and the answer is the call's own
    let given = judged(|answer, places| unsafe {
        kihavute_evaluate(
            from.as_ptr(),
            from.len() as u64,
            to.as_ptr(),
            to.len() as u64,
            t,
            start,
            room,
            answer,
            places,
        )
    })?;
    Ok(given[0] as usize)
}

/// The bounds of the shape between two shapes at a progress: the smallest x and y, the largest x and y.
#[inline]
pub fn bounds(from: &[f32], to: &[f32], t: f32) -> Result<[Bits; 4], Refusal> {
    // SAFETY: the slices are whole, and the answer is the call's own
    let given = judged(|answer, places| unsafe {
        kihavute_bounds(from.as_ptr(), from.len() as u64, to.as_ptr(), to.len() as u64, t, answer, places)
    })?;
    Ok([given[0] as Bits, given[1] as Bits, given[2] as Bits, given[3] as Bits])
}
