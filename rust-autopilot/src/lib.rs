//! The autopilot's library from Rust: a stored path of [`kihavute`] as straight legs, safe to call with any argument.
//! `include/autopilot.h` says what the legs of each segment are.
//!
//! ```
//! use kihavute::Path;
//!
//! let path = Path::from_text(b"M0 0 L3 4 M10 0 Q11 1 12 0").unwrap();
//! let legs = autopilot::legs(&path, 0.25).unwrap();
//! let ends: Vec<_> = legs.legs.iter().map(|leg| (leg.start, leg.end)).collect();
//! assert_eq!(ends, [([0.0, 0.0], [3.0, 4.0]), ([10.0, 0.0], [11.0, 0.5]), ([11.0, 0.5], [12.0, 0.0])]);
//! assert!(!legs.far);
//! ```

use core::fmt;
use kihavute::{Path, Stored};

unsafe extern "C" {
    fn autopilot_legs(
        kinds: *const u8,
        _: u64,
        fields: *const f32,
        _: u64,
        tables: *const f32,
        _: u64,
        lengths: *const f32,
        _: u64,
        commands: *const u32,
        _: u64,
        distance: f32,
        out: *mut f32,
        _: u64,
        answer: *mut u64,
        _: u64,
    ) -> u32;
}

/// A straight leg between two points `[x, y]`, in path units.
#[derive(Clone, Copy, Debug, PartialEq)]
pub struct Leg {
    pub start: [f32; 2],
    pub end: [f32; 2],
}

/// The legs of a path in path order, and whether a piece of the tenth halving is still too far from its leg.
#[derive(Clone, Debug, PartialEq)]
pub struct Legs {
    pub legs: Vec<Leg>,
    pub far: bool,
}

/// How many legs were stored, and whether a piece of the tenth halving is still too far from its leg.
#[derive(Clone, Copy, Debug, PartialEq, Eq)]
pub struct Flown {
    pub legs: usize,
    pub far: bool,
}

/// Why a call refuses. Nothing is written then.
#[derive(Clone, Copy, Debug, PartialEq, Eq)]
pub enum Refusal {
    /// 12: the stored path fails its check.
    BadPath,
    /// 13: the distance is a NaN, zero, below zero or infinite. Its bits, a NaN's 7FC00000.
    Distance { bits: u32 },
    /// 8: the output has fewer than four numbers for each of so many legs.
    NoRoom { legs: usize },
    /// A number that this wrapper does not know: the library is of another version.
    Unknown { number: u32 },
}

impl fmt::Display for Refusal {
    fn fmt(&self, f: &mut fmt::Formatter<'_>) -> fmt::Result {
        match *self {
            Refusal::BadPath => write!(f, "the stored path fails its check; build it again from its plan"),
            Refusal::Distance { bits } => {
                write!(f, "the distance {} is not above 0 and finite; give one that is", f32::from_bits(bits))
            }
            Refusal::NoRoom { legs } => write!(f, "the path has {legs} legs; lend an output of four numbers for each"),
            Refusal::Unknown { number } => {
                write!(f, "the library refuses with {number}, which is not known here; use both of one version")
            }
        }
    }
}

impl std::error::Error for Refusal {}

/// Stores the legs of a path from the output's start, four numbers each: x and y of the start, x and y of the end. A curve is
/// halved until its controls lie within `distance`, in path units, of its leg, at most ten times.
///
/// ```
/// use autopilot::{Flown, Refusal, legs_into};
///
/// let path = kihavute::Path::from_text(b"M0 0 L3 4").unwrap();
/// let mut out = [9.0; 5];
/// assert_eq!(legs_into(path.stored(), 1.0, &mut out[..3]), Err(Refusal::NoRoom { legs: 1 }));
/// assert_eq!(legs_into(path.stored(), 1.0, &mut out), Ok(Flown { legs: 1, far: false }));
/// assert_eq!(out, [0.0, 0.0, 3.0, 4.0, 9.0]);
/// ```
pub fn legs_into(path: Stored<'_>, distance: f32, out: &mut [f32]) -> Result<Flown, Refusal> {
    let Stored { kinds, fields, tables, lengths, commands } = path;
    let mut answer = [0u64; 8];
    // SAFETY: the slices are whole, the output is borrowed alone, and the answer is the call's own
    let number = unsafe {
        autopilot_legs(
            kinds.as_ptr(),
            kinds.len() as u64,
            fields.as_ptr(),
            fields.len() as u64,
            tables.as_ptr(),
            tables.len() as u64,
            lengths.as_ptr(),
            lengths.len() as u64,
            commands.as_ptr(),
            commands.len() as u64,
            distance,
            out.as_mut_ptr(),
            out.len() as u64,
            answer.as_mut_ptr(),
            answer.len() as u64,
        )
    };
    match number {
        0 => Ok(Flown { legs: answer[0] as usize, far: answer[1] == 1 }),
        8 => Err(Refusal::NoRoom { legs: answer[0] as usize }),
        12 => Err(Refusal::BadPath),
        13 => Err(Refusal::Distance { bits: answer[0] as u32 }),
        number => Err(Refusal::Unknown { number }),
    }
}

/// The legs of a path. They are counted first, and then stored in a list of just that length.
pub fn legs(path: &Path, distance: f32) -> Result<Legs, Refusal> {
    let mut numbers = Vec::new();
    let flown = match legs_into(path.stored(), distance, &mut numbers) {
        Err(Refusal::NoRoom { legs }) => {
            numbers.resize(4 * legs, 0.0);
            legs_into(path.stored(), distance, &mut numbers)?
        }
        flown => flown?,
    };
    let legs = numbers.chunks_exact(4).map(|leg| Leg { start: [leg[0], leg[1]], end: [leg[2], leg[3]] }).collect();
    Ok(Legs { legs, far: flown.far })
}
