//! Dry runs: where each second of a recorded flight lies on a stored path.

use crate::{Path, Refusal, Stored};

answering! {
    fn kihavute_dry_run(
        kinds: [u8], fields: [f32], tables: [f32], lengths: [f32], commands: [u32], speeds: [u32], segments: mut [u32],
        raws: mut [f32]
    );
}

impl Stored<'_> {
    /// The segment and the raw parameter reached after each second; [`Path::dry_run`] says it whole.
    pub fn dry_run(&self, speeds: &[u32], segments: &mut [u32], raws: &mut [f32]) -> Result<usize, Refusal> {
        let (lent, count) = (speeds.as_ptr(), speeds.len() as u64);
        let (out, places) = (segments.as_mut_ptr(), segments.len() as u64);
        let given = ask!(self, kihavute_dry_run(lent, count, out, places, raws.as_mut_ptr(), raws.len() as u64))?;
        Ok(given[0] as usize)
    }
}

impl Path {
    /// The segment reached after each second of a recorded flight and its raw parameter, each from its buffer's start:
    /// [`NO_SEGMENT`](crate::NO_SEGMENT) and 0 without segments. Gives how many seconds there are. A speed is in whole millimetres
    /// per second, and path units are metres. The target of a second is the f32 nearest to the exact sum of its speed and those
    /// before it, divided by 1,000; from the second on that reaches the total it is the last segment's 1. A later second never lies
    /// before an earlier one.
    ///
    /// Refused, with nothing written, with 13 above 36,000 seconds (their number), then with 13 for a speed above 100,000 (the first
    /// one), then with 8 where a buffer is too short.
    ///
    /// ```
    /// use kihavute::{Path, Reason};
    ///
    /// let path = Path::from_text(b"M0 0 H5 V5").unwrap();      // 5 metres and 5 metres
    /// let speeds = [2_500, 0, 5_000, 2_500, 9_000];            // 2.5, 2.5, 7.5, 10 and 19 metres
    /// let (mut segments, mut raws) = ([0; 5], [0.0; 5]);
    /// assert_eq!(path.dry_run(&speeds, &mut segments, &mut raws), Ok(5));
    /// assert_eq!(segments, [0, 0, 1, 1, 1]);
    /// assert_eq!(raws, [0.5, 0.5, 0.5, 1.0, 1.0]);
    /// let refusal = path.dry_run(&[7, 100_001], &mut segments, &mut raws).unwrap_err();
    /// assert_eq!(refusal.reason(), Reason::Range { found: 100_001 });
    /// ```
    pub fn dry_run(&self, speeds: &[u32], segments: &mut [u32], raws: &mut [f32]) -> Result<usize, Refusal> {
        self.stored().dry_run(speeds, segments, raws)
    }
}
