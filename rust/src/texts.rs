//! Texts: one number, the verdict of an edition, the commands of path data.

use crate::{Bits, Reason, Refusal, judged};

answering! {
    fn kihavute_number(text: [u8]);
    fn kihavute_strict(text: [u8], edition: u32);
    fn kihavute_read(text: [u8], letters: mut [u8], numbers: mut [f32], offsets: mut [u32]);
    fn kihavute_read_lean(text: [u8], letters: mut [u8], numbers: mut [f32], offsets: mut [u32]);
    fn kihavute_check_commands(letters: [u8], numbers: [f32]);
}

/// The decimal number that a text starts with, and how many bytes it takes.
#[inline]
pub fn number(text: &[u8]) -> Result<(Bits, usize), Refusal> {
    // SAFETY: both slices are whole, and the answer is the call's own
    let given = judged(|answer, places| unsafe { kihavute_number(text.as_ptr(), text.len() as u64, answer, places) })?;
    Ok((given[0] as Bits, given[1] as usize))
}

/// The edition whose path grammar decides.
#[derive(Clone, Copy, Debug, PartialEq, Eq)]
pub enum Edition {
    /// SVG 1.1 Second Edition, 8.3.9.
    Svg11 = 1,
    /// SVG 2, Candidate Recommendation of 4 October 2018, 9.3.9, to the letter. Most drawings in use are a no under it: it
    /// writes no white space between commands.
    Svg2 = 2,
}

/// What strict reading says of a text.
#[derive(Clone, Copy, Debug, PartialEq, Eq)]
pub enum Strict {
    Yes,
    No,
    /// The text has this many bytes, more than 65,536.
    TooLong(u64),
}

/// Whether a text of any bytes matches the path grammar of an edition. No sign stands before an arc's radius in either;
/// permissive reading takes one, and building takes a radius by its size.
#[inline]
pub fn strict(text: &[u8], edition: Edition) -> Strict {
    let mut answer = [0; 8];
    // SAFETY: both pointers are good for the lengths beside them, and the library keeps neither.
    let code = unsafe {
        kihavute_strict(text.as_ptr(), text.len() as u64, edition as u32, answer.as_mut_ptr(), answer.len() as u64)
    };
    match (code, answer[0]) {
        (0, 1) => Strict::Yes,
        (0, _) => Strict::No,
        (_, length) => Strict::TooLong(length),
    }
}

/// A command list: a letter for each command, M, L, Q, C, A or Z, and its 2, 2, 4, 6, 7 or 0 numbers; and for each command the
/// offset in the text, in bytes, of the letter that made it. From a progress to that byte:
///
/// ```
/// use kihavute::{Path, Progress};
///
/// let plan = b"M0 0 H30 M0 10 H30 V50";
/// let path = Path::from_text(plan).unwrap(); // three lines, of 30, 30 and 40
/// let list = kihavute::read(plan).unwrap(); // five commands: M L M L L
///
/// let flight = path.flight(Progress(0.5)).unwrap();
/// let segment = flight.segment.unwrap(); // None only on a path without segments
/// let command = path.command(segment).unwrap();
/// let byte = list.offsets[command] as usize;
/// assert_eq!((segment, command, byte), (1, 3, 15));
/// assert_eq!(plan[byte], b'H'); // the second H draws what is flown halfway
/// ```
#[derive(Clone, Debug, Default, PartialEq)]
pub struct Commands {
    pub letters: Vec<u8>,
    pub numbers: Vec<f32>,
    pub offsets: Vec<u32>,
}

/// Why a text is no path. Offsets count bytes of the text.
///
/// ```
/// fn flown(text: &[u8]) -> Result<usize, Box<dyn std::error::Error>> {
///     Ok(kihavute::read(text)?.letters.len())
/// }
/// let why = flown(b"M0 0R1 2 3 4").unwrap_err();
/// assert_eq!(why.to_string(), "the command R at byte 4 is not known; use M, L, H, V, C, S, Q, T, A or Z");
/// ```
#[derive(Clone, Copy, Debug, PartialEq, Eq)]
pub enum ReadError {
    /// The text has this many bytes, more than 65,536.
    TooLong(usize),
    /// The text ends where a number or a flag is due: its length.
    UnexpectedEnd(usize),
    /// No number stands at this offset.
    ExpectedNumber(usize),
    /// The exponent whose e stands at this offset has no digit.
    InvalidNumber(usize),
    /// Neither 0 nor 1 stands at this offset, where a flag is due.
    ExpectedFlag(usize),
    /// A letter that is no command, and its offset.
    UnsupportedCommand(u8, usize),
    /// Something is drawn at this offset without a current point.
    MissingMoveTo(usize),
}

impl From<ReadError> for Reason {
    fn from(error: ReadError) -> Self {
        match error {
            ReadError::TooLong(length) => Reason::TooLong { length: length as u64 },
            ReadError::UnexpectedEnd(at) => Reason::UnexpectedEnd { offset: at as u64 },
            ReadError::ExpectedNumber(at) => Reason::ExpectedNumber { offset: at as u64 },
            ReadError::InvalidNumber(at) => Reason::InvalidNumber { offset: at as u64 },
            ReadError::ExpectedFlag(at) => Reason::ExpectedFlag { offset: at as u64 },
            ReadError::UnsupportedCommand(letter, at) => Reason::UnsupportedCommand { letter, offset: at as u64 },
            ReadError::MissingMoveTo(at) => Reason::MissingMoveTo { offset: at as u64 },
        }
    }
}

impl std::fmt::Display for ReadError {
    fn fmt(&self, f: &mut std::fmt::Formatter<'_>) -> std::fmt::Result {
        Reason::from(*self).fmt(f)
    }
}

impl std::error::Error for ReadError {}

/// Reads path data of any bytes: its commands, with absolute coordinates.
pub fn read(text: &[u8]) -> Result<Commands, ReadError> {
    // one byte in three starts a number or a command in most texts; where this is too little, the call tells the counts
    let guess = text.len() / 4 + 1;
    let mut commands =
        Commands { letters: vec![0; guess], numbers: vec![0.0; text.len() / 2 + 2], offsets: vec![0; guess] };
    let mut found = read_into(text, &mut commands.letters, &mut commands.numbers, &mut commands.offsets);
    if let Err(Reason::NoRoom { needed: [letters, numbers, offsets, ..] }) = found.map_err(|refusal| refusal.reason()) {
        commands.letters.resize(letters as usize, 0);
        commands.numbers.resize(numbers as usize, 0.0);
        commands.offsets.resize(offsets as usize, 0);
        found = read_into(text, &mut commands.letters, &mut commands.numbers, &mut commands.offsets);
    }
    let refusal = match found {
        Ok((letters, numbers)) => {
            commands.letters.truncate(letters);
            commands.numbers.truncate(numbers);
            commands.offsets.truncate(letters);
            return Ok(commands);
        }
        Err(refusal) => refusal,
    };
    Err(match refusal.reason() {
        Reason::TooLong { length } => ReadError::TooLong(length as usize),
        Reason::UnexpectedEnd { offset } => ReadError::UnexpectedEnd(offset as usize),
        Reason::ExpectedNumber { offset } => ReadError::ExpectedNumber(offset as usize),
        Reason::InvalidNumber { offset } => ReadError::InvalidNumber(offset as usize),
        Reason::ExpectedFlag { offset } => ReadError::ExpectedFlag(offset as usize),
        Reason::UnsupportedCommand { letter, offset } => ReadError::UnsupportedCommand(letter, offset as usize),
        Reason::MissingMoveTo { offset } => ReadError::MissingMoveTo(offset as usize),
        other => unreachable!("the reader refuses otherwise: {other}"),
    })
}

// a reader of the library
type Reader = unsafe extern "C" fn(*const u8, u64, *mut u8, u64, *mut f32, u64, *mut u32, u64, *mut u64, u64) -> u32;

#[inline]
fn read_by(
    reader: Reader,
    text: &[u8],
    letters: &mut [u8],
    numbers: &mut [f32],
    offsets: &mut [u32],
) -> Result<(usize, usize), Refusal> {
    // SAFETY: each pointer is good for the length beside it, no two overlap, and the library keeps none
    let given = judged(|answer, places| unsafe {
        reader(
            text.as_ptr(),
            text.len() as u64,
            letters.as_mut_ptr(),
            letters.len() as u64,
            numbers.as_mut_ptr(),
            numbers.len() as u64,
            offsets.as_mut_ptr(),
            offsets.len() as u64,
            answer,
            places,
        )
    })?;
    Ok((given[0] as usize, given[1] as usize))
}

/// Reads path data into lent buffers, from the start of each: how many letters and numbers are stored, and as many offsets as
/// letters. A refusal leaves all as they were; it is 8, with the counts needed, where one is too short. It takes some 24 KB of
/// stack.
#[inline]
pub fn read_into(
    text: &[u8],
    letters: &mut [u8],
    numbers: &mut [f32],
    offsets: &mut [u32],
) -> Result<(usize, usize), Refusal> {
    read_by(kihavute_read, text, letters, numbers, offsets)
}

/// The same in every place and number, for a task with a small stack: at most 2,048 bytes of it, and twice as long, since
/// each text is counted before it is stored.
#[inline]
pub fn read_lean_into(
    text: &[u8],
    letters: &mut [u8],
    numbers: &mut [f32],
    offsets: &mut [u32],
) -> Result<(usize, usize), Refusal> {
    read_by(kihavute_read_lean, text, letters, numbers, offsets)
}

/// Whether letters and numbers are a command list as `read` gives it.
#[inline]
pub fn check_commands(letters: &[u8], numbers: &[f32]) -> Result<(), Refusal> {
    // SAFETY: each pointer is good for the length beside it, and the library keeps none
    judged(|answer, places| unsafe {
        kihavute_check_commands(
            letters.as_ptr(),
            letters.len() as u64,
            numbers.as_ptr(),
            numbers.len() as u64,
            answer,
            places,
        )
    })?;
    Ok(())
}
