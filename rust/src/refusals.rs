//! Why a call refuses, as an enum, and what to do about it.

use core::fmt;

/// A refusal of the library: its number in the table of `include/kihavute.h`, and the values that it carries. Only a call makes
/// one, so that each says what is the case.
///
/// ```
/// let refusal = kihavute::number(b"1e").unwrap_err();
/// assert_eq!((refusal.number(), refusal.carried()[0]), (4, 1));
/// assert_eq!(refusal.reason(), kihavute::Reason::InvalidNumber { offset: 1 });
/// assert_eq!(refusal.to_string(), "the exponent at byte 1 has no digit; give it one or remove the e");
/// ```
///
/// ```compile_fail,E0624
/// let refusal = kihavute::Refusal::answered(77, [0; 8]);
/// ```
#[derive(Clone, Copy, Debug, PartialEq, Eq)]
pub struct Refusal {
    number: u32,
    carried: [u64; 8],
}

/// A refusal by its name. Offsets count bytes of the text; commands, segments, points and entries count from 0.
#[derive(Clone, Copy, Debug, PartialEq, Eq)]
pub enum Reason {
    TooLong {
        length: u64,
    },
    UnexpectedEnd {
        offset: u64,
    },
    ExpectedNumber {
        offset: u64,
    },
    /// An exponent without a digit: where its e stands. There is no other cause.
    InvalidNumber {
        offset: u64,
    },
    ExpectedFlag {
        offset: u64,
    },
    UnsupportedCommand {
        letter: u8,
        offset: u64,
    },
    MissingMoveTo {
        offset: u64,
    },
    /// The places needed of each output, in the call's order, zeros after the last.
    NoRoom {
        needed: [u64; 5],
    },
    BadList {
        command: u64,
    },
    RotationRange {
        segment: u64,
    },
    NotFinite {
        place: u64,
    },
    BadPath,
    Range {
        found: u64,
    },
    ShortAnswer,
    /// A number that this wrapper does not know: the library is of another version.
    Unknown {
        number: u32,
    },
}

impl Refusal {
    /// What a call of the library answered.
    pub(crate) fn answered(number: u32, carried: [u64; 8]) -> Self {
        Self { number, carried }
    }

    /// Its number.
    pub fn number(&self) -> u32 {
        self.number
    }

    /// The values that it carries, zeros after them.
    pub fn carried(&self) -> [u64; 8] {
        self.carried
    }

    /// The refusal's name with its values.
    pub fn reason(&self) -> Reason {
        Reason::of(self.number, self.carried)
    }
}

impl Reason {
    /// The name that a refusal of this number has, with its values: also of one that C told, or that a log keeps.
    pub fn of(number: u32, carried: [u64; 8]) -> Self {
        let [first, second, third, fourth, fifth, ..] = carried;
        match number {
            1 => Reason::TooLong { length: first },
            2 => Reason::UnexpectedEnd { offset: first },
            3 => Reason::ExpectedNumber { offset: first },
            4 => Reason::InvalidNumber { offset: first },
            5 => Reason::ExpectedFlag { offset: first },
            6 => Reason::UnsupportedCommand { letter: first as u8, offset: second },
            7 => Reason::MissingMoveTo { offset: first },
            8 => Reason::NoRoom { needed: [first, second, third, fourth, fifth] },
            9 => Reason::BadList { command: first },
            10 => Reason::RotationRange { segment: first },
            11 => Reason::NotFinite { place: first },
            12 => Reason::BadPath,
            13 => Reason::Range { found: first },
            255 => Reason::ShortAnswer,
            number => Reason::Unknown { number },
        }
    }
}

impl fmt::Display for Refusal {
    fn fmt(&self, f: &mut fmt::Formatter<'_>) -> fmt::Result {
        self.reason().fmt(f)
    }
}

impl std::error::Error for Refusal {}

impl fmt::Display for Reason {
    fn fmt(&self, f: &mut fmt::Formatter<'_>) -> fmt::Result {
        match *self {
            Reason::TooLong { length } => {
                write!(f, "the text has {length} bytes, more than may be read at once; split the plan")
            }
            Reason::UnexpectedEnd { offset } => {
                write!(f, "the text ends at byte {offset} where a number or flag is due; complete the last group")
            }
            Reason::ExpectedNumber { offset } => write!(f, "no number starts after byte {offset}; write one there"),
            Reason::InvalidNumber { offset } => {
                write!(f, "the exponent at byte {offset} has no digit; give it one or remove the e")
            }
            Reason::ExpectedFlag { offset } => write!(f, "byte {offset} is an arc's flag; write 0 or 1 there"),
            Reason::UnsupportedCommand { letter, offset } => {
                let letter = letter.escape_ascii();
                write!(f, "the command {letter} at byte {offset} is not known; use M, L, H, V, C, S, Q, T, A or Z")
            }
            Reason::MissingMoveTo { offset } => {
                write!(f, "at byte {offset} there is no command or current point to draw from; begin with M")
            }
            Reason::NoRoom { needed } => {
                let count = needed.iter().rposition(|&places| places > 0).map_or(1, |last| last + 1);
                write!(f, "an output is too short; lend these counts of places, in the call's order: ")?;
                for (i, places) in needed[..count].iter().enumerate() {
                    write!(f, "{}{places}", if i == 0 { "" } else { ", " })?;
                }
                Ok(())
            }
            Reason::BadList { command } => {
                write!(f, "the list is malformed at {command}; look at the letter, the numbers and the flags there")
            }
            Reason::RotationRange { segment } => {
                write!(f, "the arc of segment {segment} is turned by no finite number of degrees; give it one")
            }
            Reason::NotFinite { place } => {
                write!(f, "the length is no longer finite at {place}; use smaller coordinates")
            }
            Reason::BadPath => write!(f, "the stored path fails its check; build it anew from its plan"),
            Reason::Range { found } => write!(f, "the number {found} is out of range; see the limits of the call"),
            Reason::ShortAnswer => write!(f, "the answer has fewer than 8 places; lend it 8"),
            Reason::Unknown { number } => {
                write!(f, "the library refuses with {number}, which is not known here; use both of one version")
            }
        }
    }
}
