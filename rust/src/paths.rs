//! Stored paths: the five arrays that are lent, or a path that owns them, and what is flown along them.

use crate::{Flight, Progress, Reason, Refusal};

answering! {
    fn kihavute_check(kinds: [u8], fields: [f32], tables: [f32], lengths: [f32], commands: [u32]);
    fn kihavute_flight(kinds: [u8], fields: [f32], tables: [f32], lengths: [f32], commands: [u32], progress: f32);
    fn kihavute_rotation(kinds: [u8], fields: [f32], tables: [f32], lengths: [f32], commands: [u32], progress: f32);
    fn kihavute_places(
        kinds: [u8], fields: [f32], tables: [f32], lengths: [f32], commands: [u32], progresses: [f32], segments: mut [u32],
        raws: mut [f32]
    );
    fn kihavute_flights(
        kinds: [u8], fields: [f32], tables: [f32], lengths: [f32], commands: [u32], progresses: [f32], segments: mut [u32],
        raws: mut [f32], out: mut [f32]
    );
}

/// How many segments the path in these five buffers has; refused with 12 where they hold none.
#[inline]
pub fn check(
    kinds: &[u8],
    fields: &[f32],
    tables: &[f32],
    lengths: &[f32],
    commands: &[u32],
) -> Result<usize, Refusal> {
    let lent = Stored { kinds, fields, tables, lengths, commands };
    Ok(ask!(lent, kihavute_check())?[0] as usize)
}

/// A stored path that is lent: its five arrays, as `docs/STORED.md` lays them out. Each call checks them whole.
///
/// ```
/// use kihavute::{Path, Progress};
///
/// let path = Path::from_text(b"M0 0 L1e-8 0").unwrap();
/// // a path this short is at its end throughout, and its segment is not
/// assert_eq!(path.flight(Progress(0.5)).unwrap().position.map(f32::from_bits), [1e-8, 0.0]);
/// assert_eq!(path.stored().segment_position(0, Progress(0.5)).unwrap(), Some([5e-9f32.to_bits(), 0]));
/// assert_eq!(path.stored().segment_position(1, Progress(0.5)).unwrap(), None);
/// ```
#[derive(Clone, Copy, Debug, PartialEq)]
pub struct Stored<'a> {
    pub kinds: &'a [u8],
    pub fields: &'a [f32],
    pub tables: &'a [f32],
    pub lengths: &'a [f32],
    pub commands: &'a [u32],
}

impl Stored<'_> {
    /// What is flown at a progress; [`Path::flight`] says it whole.
    pub fn flight(&self, progress: Progress) -> Result<Flight, Refusal> {
        Ok(Flight::given(ask!(self, kihavute_flight(progress.0))?))
    }

    /// The direction at a progress in degrees from the x axis towards the y axis.
    pub fn rotation_deg(&self, progress: Progress) -> Result<f32, Refusal> {
        Ok(f32::from_bits(ask!(self, kihavute_rotation(progress.0))?[0] as u32))
    }

    /// The segment at each progress and its raw parameter; [`Path::places`] says it whole.
    pub fn places(&self, progresses: &[Progress], segments: &mut [u32], raws: &mut [f32]) -> Result<usize, Refusal> {
        let (lent, count) = (progresses.as_ptr().cast(), progresses.len() as u64);
        let (out, places) = (segments.as_mut_ptr(), segments.len() as u64);
        let given = ask!(self, kihavute_places(lent, count, out, places, raws.as_mut_ptr(), raws.len() as u64))?;
        Ok(given[0] as usize)
    }

    /// All of what is flown at each progress; [`Path::flights`] says it whole.
    pub fn flights(
        &self,
        progresses: &[Progress],
        segments: &mut [u32],
        raws: &mut [f32],
        out: &mut [f32],
    ) -> Result<usize, Refusal> {
        let (lent, count) = (progresses.as_ptr().cast(), progresses.len() as u64);
        let (own, places) = (segments.as_mut_ptr(), segments.len() as u64);
        let (along, more) = (raws.as_mut_ptr(), raws.len() as u64);
        let given =
            ask!(self, kihavute_flights(lent, count, own, places, along, more, out.as_mut_ptr(), out.len() as u64))?;
        Ok(given[0] as usize)
    }
}

/// A stored path with its five buffers; `docs/STORED.md` has their layout. Two are equal where all five are, the numbers of the
/// commands too.
///
/// ```
/// use kihavute::{Path, Progress};
///
/// let path = Path::from_text(b"M0 0 L3 4 Q6 4 6 8").unwrap();
/// assert_eq!(path.len(), 2);
/// let flight = path.flight(Progress(0.25)).unwrap();
/// assert_eq!(flight.segment, Some(0));
/// assert_eq!(flight.tangent.map(f32::from_bits), [0.6, 0.8]);
/// let refusal = Path::from_text(b"M0 0 R1 2 3 4").unwrap_err();
/// assert_eq!(refusal.to_string(), "the command R at byte 5 is not known; use M, L, H, V, C, S, Q, T, A or Z");
/// ```
#[derive(Clone, Debug, Default, PartialEq)]
pub struct Path {
    pub(crate) kinds: Vec<u8>,
    pub(crate) fields: Vec<f32>,
    pub(crate) tables: Vec<f32>,
    pub(crate) lengths: Vec<f32>,
    pub(crate) commands: Vec<u32>,
}

impl Path {
    /// The path of a text of path data. It is built twice: to learn the counts, and to store.
    pub fn from_text(text: &[u8]) -> Result<Self, Refusal> {
        Self::sized(|path| {
            let Self { kinds, fields, tables, lengths, commands } = path;
            crate::build_text(text, kinds, fields, tables, lengths, commands)
        })
    }

    /// The path of a command list: its letters, and the numbers of all of them.
    pub fn from_commands(letters: &[u8], numbers: &[f32]) -> Result<Self, Refusal> {
        Self::sized(|path| {
            let Self { kinds, fields, tables, lengths, commands } = path;
            crate::build(letters, numbers, kinds, fields, tables, lengths, commands)
        })
    }

    // builds into no room; where that is all that is missing, into just the room that the refusal names
    fn sized(mut build: impl FnMut(&mut Self) -> Result<[usize; 5], Refusal>) -> Result<Self, Refusal> {
        let mut path = Self::default();
        let Err(refusal) = build(&mut path) else { return Ok(path) };
        let Reason::NoRoom { needed } = refusal.reason() else { return Err(refusal) };
        let [kinds, fields, tables, lengths, commands] = needed.map(|places| places as usize);
        path = Self {
            kinds: vec![0; kinds],
            fields: vec![0.0; fields],
            tables: vec![0.0; tables],
            lengths: vec![0.0; lengths],
            commands: vec![0; commands],
        };
        build(&mut path)?;
        Ok(path)
    }

    /// How many segments it has.
    pub fn len(&self) -> usize {
        self.kinds.len()
    }

    /// Whether it has no segment.
    pub fn is_empty(&self) -> bool {
        self.kinds.is_empty()
    }

    /// How long it is, in path units: its last running length.
    pub fn arc_length(&self) -> f32 {
        self.lengths.last().copied().unwrap_or(0.0)
    }

    /// The running length at the end of each segment.
    pub fn lengths(&self) -> &[f32] {
        &self.lengths
    }

    /// The number of the command that made a segment; `None` past the last segment. Commands count from 0, in the list that the path
    /// was built from, or, for a text, in the list that [`read`](crate::read) gives; those that draw nothing count too. A segment
    /// that was appended has the number that it was given.
    ///
    /// ```
    /// let path = kihavute::Path::from_text(b"M0 0L3 4M1 1L2 2").unwrap();
    /// assert_eq!([0, 1, 2].map(|segment| path.command(segment)), [Some(1), Some(3), None]);
    /// ```
    pub fn command(&self, segment: usize) -> Option<usize> {
        self.commands.get(segment).map(|&command| command as usize)
    }

    /// Its five arrays, lent.
    pub fn stored(&self) -> Stored<'_> {
        let Self { kinds, fields, tables, lengths, commands } = self;
        Stored { kinds, fields, tables, lengths, commands }
    }

    /// What is flown at a progress: where it is, in path units, where it heads, and the pair of segment and raw parameter at which
    /// both were taken. Without segments there is none, and all numbers are 0. Of two progresses of which the first is not the
    /// larger, the first one's pair is not after the second one's. The whole path is checked at each call:
    /// [`places`](Path::places) and [`flights`](Path::flights) check it once for many progresses.
    pub fn flight(&self, progress: Progress) -> Result<Flight, Refusal> {
        self.stored().flight(progress)
    }

    /// The direction at a progress in degrees from the x axis towards the y axis.
    pub fn rotation_deg(&self, progress: Progress) -> Result<f32, Refusal> {
        self.stored().rotation_deg(progress)
    }

    /// The segment at each progress and its raw parameter, each from its buffer's start: [`NO_SEGMENT`](crate::NO_SEGMENT) and 0
    /// without segments. Gives how many progresses are looked up: each. The path is checked once. A buffer that is too short
    /// refuses the call with what is needed, and nothing is written.
    ///
    /// ```
    /// use kihavute::{Path, Progress};
    ///
    /// let path = Path::from_text(b"M0 0 L3 4 Q6 4 6 8").unwrap();
    /// let progresses = [0.0, 0.25, 1.0].map(Progress);
    /// let (mut segments, mut raws) = ([0; 3], [0.0; 3]);
    /// assert_eq!(path.places(&progresses, &mut segments, &mut raws), Ok(3));
    /// let flight = path.flight(Progress(0.25)).unwrap();
    /// assert_eq!((Some(segments[1] as usize), raws[1]), (flight.segment, flight.raw.value()));
    /// assert_eq!((segments[2], raws[2]), (1, 1.0));
    /// ```
    pub fn places(&self, progresses: &[Progress], segments: &mut [u32], raws: &mut [f32]) -> Result<usize, Refusal> {
        self.stored().places(progresses, segments, raws)
    }

    /// All of what is flown at each progress: segments and raw parameters as [`places`](Path::places) gives them, and x, y and the
    /// direction's x, y, from the third buffer's start, all 0 without segments. Gives how many progresses are looked up: each. A
    /// buffer that is too short refuses the call with what is needed, and nothing is written.
    ///
    /// ```
    /// use kihavute::{Path, Progress};
    ///
    /// let path = Path::from_text(b"M0 0 L3 4").unwrap();
    /// let (mut segments, mut raws, mut out) = ([9; 2], [9.0; 2], [9.0; 8]);
    /// assert_eq!(path.flights(&[Progress(0.0), Progress(0.5)], &mut segments, &mut raws, &mut out), Ok(2));
    /// assert_eq!((segments, raws), ([0, 0], [0.0, 0.5]));
    /// assert_eq!(out, [0.0, 0.0, 0.6, 0.8, 1.5, 2.0, 0.6, 0.8]);
    /// ```
    pub fn flights(
        &self,
        progresses: &[Progress],
        segments: &mut [u32],
        raws: &mut [f32],
        out: &mut [f32],
    ) -> Result<usize, Refusal> {
        self.stored().flights(progresses, segments, raws, out)
    }
}
