//! A progress and where it lies: what a lookup takes, and what it gives.

use crate::{Bits, Refusal, judged};

answering! {
    fn kihavute_raw_parameter(entries: [f32], total: f32, progress: f32);
    fn kihavute_spot(lengths: [f32], progress: f32);
}

/// How far along by length: 0 at the start, 1 at the end. A NaN counts as 0, and the rest is clamped.
#[derive(Clone, Copy, Debug, PartialEq, PartialOrd)]
#[repr(transparent)]
pub struct Progress(pub f32);

/// The parameter of a segment's own formula, from 0 to 1. Only a lookup makes one, and no call takes it, or a bare number, for a
/// progress:
///
/// ```compile_fail,E0308
/// let raw = kihavute::raw_parameter(&[0.0, 1.0], 1.0, kihavute::Progress(0.5)).unwrap();
/// kihavute::line(&[[0.0, 0.0], [1.0, 0.0]], raw);
/// ```
///
/// ```compile_fail,E0308
/// kihavute::spot(&[1.0], 0.5);
/// ```
///
/// ```compile_fail,E0423
/// let raw = kihavute::RawParameter(0.5);
/// ```
#[derive(Clone, Copy, Debug, PartialEq, PartialOrd)]
pub struct RawParameter(f32);

impl RawParameter {
    pub(crate) fn of_bits(bits: u32) -> Self {
        Self(f32::from_bits(bits))
    }

    /// The number that the segment's formula takes.
    pub fn value(self) -> f32 {
        self.0
    }
}

/// What is flown at a progress: where it is, where it heads, with the length 1, or (0, 0) where nothing tells; and the pair of
/// segment, if there is one, and raw parameter at which both were taken.
#[derive(Clone, Copy, Debug, PartialEq)]
pub struct Flight {
    pub position: [Bits; 2],
    pub tangent: [Bits; 2],
    pub segment: Option<usize>,
    pub raw: RawParameter,
}

/// What a batch gives for the segment on a path without segments; no segment has this number. KIHAVUTE_NO_SEGMENT of the header.
pub const NO_SEGMENT: u32 = 4294967295;

impl Flight {
    pub(crate) fn given(values: [u64; 8]) -> Self {
        Self {
            position: [values[0] as Bits, values[1] as Bits],
            tangent: [values[2] as Bits, values[3] as Bits],
            segment: (values[4] != u64::from(NO_SEGMENT)).then_some(values[4] as usize),
            raw: RawParameter::of_bits(values[5] as Bits),
        }
    }
}

/// The raw parameter of a curve with this table at a progress.
#[inline]
pub fn raw_parameter(entries: &[f32], total: f32, progress: Progress) -> Result<RawParameter, Refusal> {
    // SAFETY: both slices are whole, and the answer is the call's own
    let given = judged(|answer, places| unsafe {
        kihavute_raw_parameter(entries.as_ptr(), entries.len() as u64, total, progress.0, answer, places)
    })?;
    Ok(RawParameter::of_bits(given[0] as Bits))
}

/// The segment of a path with these running lengths at a progress, and the progress on it; `None` without segments.
#[inline]
pub fn spot(lengths: &[f32], progress: Progress) -> Result<Option<(usize, Progress)>, Refusal> {
    // SAFETY: both slices are whole, and the answer is the call's own
    let given = judged(|answer, places| unsafe {
        kihavute_spot(lengths.as_ptr(), lengths.len() as u64, progress.0, answer, places)
    })?;
    Ok((!lengths.is_empty()).then_some((given[0] as usize, Progress(f32::from_bits(given[1] as Bits)))))
}
