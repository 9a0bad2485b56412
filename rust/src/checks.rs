//! A listing that another tool wrote, held to the one that the station tool writes.

use core::fmt;

use crate::{LISTING, Refusal};

answering! {
    fn kihavute_check_listing(plan: [u8], listing: [u8], output: mut [u8]);
}

/// The number, from 1, of the first line of a listing that is wrong, missing or extra.
#[derive(Clone, Copy, Debug, PartialEq, Eq)]
pub struct WrongLine(pub usize);

impl fmt::Display for WrongLine {
    fn fmt(&self, f: &mut fmt::Formatter<'_>) -> fmt::Result {
        write!(f, "line {} is wrong, missing or extra; compare it with the listing of the plan", self.0)
    }
}

impl std::error::Error for WrongLine {}

/// Whether the lines of a listing are those that the station tool writes for the plan; then the bytes are, too. A line is its bytes
/// and its LF, or what follows the last LF, so a last line without its LF is wrong. A plan that is refused has the one line that
/// says so.
///
/// ```
/// use kihavute::{WrongLine, check_listing};
///
/// let plan = b"3\nM0 0L3 4";
/// let mut listing = kihavute::listing(plan);
/// assert_eq!(check_listing(plan, &listing), Ok(()));
/// listing.pop();
/// assert_eq!(check_listing(plan, &listing), Err(WrongLine(9)));
/// assert_eq!(check_listing(b"1\nM0 0L3 4", b"refused 13 1\n"), Ok(()));
/// ```
pub fn check_listing(plan: &[u8], listing: &[u8]) -> Result<(), WrongLine> {
    check_listing_into(plan, listing, &mut vec![0; LISTING]).expect("every listing fits")
}

/// The same through a lent output, which then has our listing at its start. Refused with 8, which carries that listing's length,
/// where the output is shorter; it is then left as it was.
pub fn check_listing_into(plan: &[u8], listing: &[u8], out: &mut [u8]) -> Result<Result<(), WrongLine>, Refusal> {
    // SAFETY: each pointer is good for the length beside it, the output overlaps nothing, and the library keeps none
    let given = crate::judged(|answer, places| unsafe {
        let (output, room) = (out.as_mut_ptr(), out.len() as u64);
        kihavute_check_listing(plan.as_ptr(), plan.len() as u64, listing.as_ptr(), listing.len() as u64, output, room, answer, places)
    })?;
    Ok(match given[0] as usize {
        0 => Ok(()),
        line => Err(WrongLine(line)),
    })
}
