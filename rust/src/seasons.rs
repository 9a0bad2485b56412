//! The season report: from plans, each after a line with its byte count, to the bytes of one sheet.

use crate::Refusal;

answering! {
    fn kihavute_season(input: [u8], output: mut [u8]);
}

/// How many bytes every sheet fits in.
pub const SHEET: usize = 1_024;

/// The sheet of a season: how many plans were read, how many were refused under each name, the letters and kinds of the accepted
/// ones, and their shortest, longest and added lengths in whole millimetres. Refused with 13 for more than 17,179,869,184 plans.
///
/// ```
/// let sheet = kihavute::season(b"8\nM1 1L7 93\nM1e").unwrap();
/// assert!(sheet.starts_with(b"readings 1\nrefusals 1\nInvalidNumber 1\nletters 2\nM 1\nL 1\nkinds 1\nline 1\n"));
/// assert!(sheet.ends_with(b"lengths 3\n10000\n10000\n10000\n"));
/// ```
pub fn season(input: &[u8]) -> Result<Vec<u8>, Refusal> {
    let mut out = vec![0; SHEET];
    let size = season_into(input, &mut out)?;
    out.truncate(size);
    Ok(out)
}

/// Writes that sheet from the start of a lent output: how many bytes it has. Refused with 8, which carries that count, where the
/// output is shorter; it is then left as it was.
pub fn season_into(input: &[u8], out: &mut [u8]) -> Result<usize, Refusal> {
    // SAFETY: each pointer is good for the length beside it, no two overlap, and the library keeps none
    let given = crate::judged(|answer, places| unsafe {
        kihavute_season(input.as_ptr(), input.len() as u64, out.as_mut_ptr(), out.len() as u64, answer, places)
    })?;
    Ok(given[0] as usize)
}
