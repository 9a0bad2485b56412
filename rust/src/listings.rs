//! The station tool: from the bytes of a plan to the bytes of its listing.

use crate::Refusal;

answering! {
    fn kihavute_stations(input: [u8], output: mut [u8]);
}

/// How many bytes every listing fits in.
pub const LISTING: usize = 69_632;

/// The listing of a plan as the station tool prints it: its commands, each with the offset of its letter, its segments,
/// each with the number of its command, and its stations, or the line of a refusal.
/// A plan is the number of stations in 1 to 9 digits, a LF, and path data.
///
/// ```
/// let listing = kihavute::listing(b"3\nM0 0L3 4");
/// assert!(listing.starts_with(b"commands 2\nM 00000000 00000000 0\nL 40400000 40800000 4\nsegments 1\nline 40A00000 1\n"));
/// assert_eq!(kihavute::listing(b"1\nM0 0L3 4"), b"refused 13 1\n");
/// ```
pub fn listing(plan: &[u8]) -> Vec<u8> {
    let mut out = vec![0; LISTING];
    let size = listing_into(plan, &mut out).expect("every listing fits");
    out.truncate(size);
    out
}

/// Writes that listing from the start of a lent output: how many bytes it has. Refused with 8, which carries that count, where
/// the output is shorter; it is then left as it was.
pub fn listing_into(plan: &[u8], out: &mut [u8]) -> Result<usize, Refusal> {
    // SAFETY: each pointer is good for the length beside it, no two overlap, and the library keeps none
    let given = crate::judged(|answer, places| unsafe {
        kihavute_stations(plan.as_ptr(), plan.len() as u64, out.as_mut_ptr(), out.len() as u64, answer, places)
    })?;
    Ok(given[0] as usize)
}
