//! The lookups on both sides: a curve's raw parameter (ArcTable::raw_t of bezier.rs and of poly.rs, a spline's
//! raw_t) and a path's segment (segment_at).

use crate::compare::{Input, Report};
use crate::math::alike;
use crate::samples::{SPECIALS, Stream, worked_out};
use crate::simple::{effort, simpler_floats};
use animato_path::bezier::{self, CatmullRomSpline, CubicBezierCurve, QuadBezier};
use animato_path::poly::{self, CompoundPath, LineSegment, PathSegment};
use std::fmt;
use std::rc::Rc;

/// Running lengths with their total, and a progress as bits.
#[derive(Clone)]
pub struct Lookup {
    pub lengths: Rc<[f32]>,
    pub total: f32,
    pub progress: u32,
}

/// What a lookup answers; floats as bits.
#[derive(Clone, Copy, PartialEq)]
pub enum Answer {
    Raw(u32),
    Spot(usize, u32),
    NoSegment,
    Refused(u32),
}

use Answer::{NoSegment, Raw, Refused, Spot};

/// The function that is looked up with.
#[derive(Clone, Copy, PartialEq)]
pub enum Query {
    /// A table of 32 entries, in bezier.rs.
    Curve,
    /// A table of 32 entries, in poly.rs.
    Arc,
    /// A table of any count of entries.
    Spline,
    /// A path's running lengths.
    Path,
}

const QUERIES: [(Query, &str); 4] = [
    (Query::Curve, "raw_t of bezier.rs"),
    (Query::Arc, "raw_t of poly.rs"),
    (Query::Spline, "raw_t of a spline"),
    (Query::Path, "segment_at"),
];

impl Query {
    pub fn ours(self, input: &Lookup) -> Answer {
        let progress = kihavute::Progress(f32::from_bits(input.progress));
        if self == Query::Path {
            return match kihavute::spot(&input.lengths, progress) {
                Ok(Some((segment, local))) => Spot(segment, local.0.to_bits()),
                Ok(None) => NoSegment,
                Err(refusal) => Refused(refusal.number()),
            };
        }
        match kihavute::raw_parameter(&input.lengths, input.total, progress) {
            Ok(raw) => Raw(raw.value().to_bits()),
            Err(refusal) => Refused(refusal.number()),
        }
    }

    /// The Rust's answer, where document 01's check passes; it judges nothing itself.
    pub fn theirs(self, input: &Lookup) -> Answer {
        let progress = f32::from_bits(input.progress);
        let (lengths, total) = (&input.lengths[..], input.total);
        if self == Query::Path {
            if !lengths_are_sound(lengths) {
                return Refused(12);
            }
            // a path's total is its last running length
            let total = lengths.last().copied().unwrap_or(0.0);
            let line = PathSegment::Line(LineSegment::new([0.0, 0.0], [1.0, 0.0]));
            let path = CompoundPath::open_from_parts(vec![line; lengths.len()], lengths.to_vec(), total);
            return path.open_segment_at(progress).map_or(NoSegment, |(segment, local)| Spot(segment, alike(local)));
        }
        if !table_is_sound(lengths, total) {
            return Refused(12);
        }
        Raw(alike(match (self, lengths.try_into()) {
            (Query::Curve, Ok(entries)) => bezier::table_raw_t(entries, total, progress),
            (Query::Arc, Ok(entries)) => poly::table_raw_t(entries, total, progress),
            _ => CatmullRomSpline::open_from_parts(Vec::new(), lengths.to_vec(), total).open_raw_t(progress),
        }))
    }

    // how many lengths a query has
    fn count(self, stream: &mut Stream) -> usize {
        match self {
            Query::Curve | Query::Arc => 32,
            Query::Spline => match stream.below(4) {
                0 => stream.below(40) as usize,
                _ => stream.below(8) as usize * 16 + 1,
            },
            Query::Path => stream.below(40) as usize,
        }
    }
}

// ---- document 01's rules for running lengths

fn lengths_are_sound(lengths: &[f32]) -> bool {
    let finite = lengths.iter().all(|own| own.is_finite() && *own >= 0.0);
    finite && lengths.windows(2).all(|pair| pair[0] <= pair[1])
}

/// A table's rules: it starts at 0, is finite, never falls, and its total is the last entry.
pub fn table_is_sound(entries: &[f32], total: f32) -> bool {
    entries.first() == Some(&0.0) && lengths_are_sound(entries) && entries.last() == Some(&total)
}

// ---- running lengths

/// A way to draw running lengths.
#[derive(Clone, Copy, PartialEq)]
pub enum Kind {
    Steps,
    Stalls,
    Subnormal,
    Threshold,
    Huge,
    Wide,
    Close,
    Curved,
    MinusZero,
    Damaged,
}

pub const KINDS: [(Kind, &str); 10] = [
    (Kind::Steps, "random steps"),
    (Kind::Stalls, "equal lengths"),
    (Kind::Subnormal, "subnormal steps"),
    (Kind::Threshold, "totals about 2^-23"),
    (Kind::Huge, "huge"),
    (Kind::Wide, "steps of all sizes"),
    (Kind::Close, "close together"),
    (Kind::Curved, "of curves"),
    (Kind::MinusZero, "from -0"),
    (Kind::Damaged, "damaged"),
];

fn sums(count: usize, mut step: impl FnMut(usize) -> f32) -> Vec<f32> {
    let mut sum = 0.0f32;
    let mut lengths = vec![0.0; count];
    for (place, length) in lengths.iter_mut().enumerate().skip(1) {
        sum = (sum + step(place)).min(f32::MAX);
        *length = sum;
    }
    lengths
}

fn millimetres(stream: &mut Stream) -> f32 {
    stream.below(1 << 20) as f32 / 1000.0
}

// a positive float with an exponent field from least on
fn positive(stream: &mut Stream, least: u32, count: u32) -> f32 {
    let exponent = least + stream.below(count);
    f32::from_bits(stream.bits() & 0x7F_FFFF | exponent << 23)
}

// a table of 32 entries of a drawn curve
fn curved(stream: &mut Stream) -> Vec<f32> {
    let mut point = || [millimetres(stream) - 500.0, millimetres(stream) - 500.0];
    let (a, b, c, d) = (point(), point(), point(), point());
    let quad = QuadBezier::new(a, b, c);
    let cubic = CubicBezierCurve::new(a, b, c, d);
    if stream.below(2) == 0 { quad.open_table().0.to_vec() } else { cubic.open_table().0.to_vec() }
}

/// Running lengths of a kind, with their total.
pub fn lengths(kind: Kind, count: usize, stream: &mut Stream) -> (Vec<f32>, f32) {
    let mut lengths = match kind {
        Kind::Steps => sums(count, |_| millimetres(stream)),
        Kind::Stalls => sums(count, |_| if stream.below(2) == 0 { 0.0 } else { millimetres(stream) }),
        Kind::Subnormal => {
            let small = stream.below(count as u32 + 1) as usize;
            let size = 90 + stream.below(40);
            sums(count, |place| if place < small { positive(stream, 0, 2) } else { positive(stream, size, 4) })
        }
        // places between 0 and a total of a few steps from 2^-23
        Kind::Threshold => {
            let total = f32::from_bits(0x3400_0000 - 4 + stream.below(9));
            let mut places: Vec<f32> = (0..count).map(|_| stream.below(1 << 24) as f32 / 16_777_216.0).collect();
            places.sort_by(f32::total_cmp);
            let mut lengths: Vec<f32> = places.iter().map(|place| total * place).collect();
            if let Some(first) = lengths.first_mut() {
                *first = 0.0;
            }
            if let Some(last) = lengths.last_mut()
                && count > 1
            {
                *last = total;
            }
            lengths
        }
        Kind::Huge => sums(count, |_| positive(stream, 245, 6)),
        Kind::Wide => sums(count, |_| positive(stream, 0, 250)),
        Kind::Close => {
            let start = positive(stream, 80, 100).to_bits();
            let mut bits = start;
            sums(count, |_| 0.0)
                .into_iter()
                .enumerate()
                .map(|(place, zero)| {
                    bits += stream.below(3);
                    if place == 0 { zero } else { f32::from_bits(bits) }
                })
                .collect()
        }
        Kind::Curved if count == 32 => curved(stream),
        Kind::Curved => sums(count, |place| millimetres(stream) / (place + 1) as f32),
        Kind::MinusZero => {
            let last = 1 + stream.below(3) as usize;
            let mut lengths = sums(count, |place| if place <= last { 0.0 } else { millimetres(stream) });
            for length in lengths.iter_mut().take(last) {
                *length = -0.0;
            }
            lengths
        }
        Kind::Damaged => {
            let (other, _) = KINDS[stream.below(9) as usize];
            let mut lengths = self::lengths(other, count, stream).0;
            if count > 0 {
                let place = stream.below(count as u32) as usize;
                lengths[place] = match stream.below(4) {
                    0 => f32::from_bits(stream.bits()),
                    1 => f32::from_bits(SPECIALS[stream.below(SPECIALS.len() as u32) as usize]),
                    2 => f32::from_bits(lengths[place].to_bits() ^ 1 << stream.below(32)),
                    _ => lengths[stream.below(count as u32) as usize],
                };
            }
            lengths
        }
    };
    // a path starts with its first segment's length, often not 0
    if kind != Kind::Damaged && kind != Kind::MinusZero && stream.below(8) == 0 && count > 1 {
        let short = lengths[1];
        lengths[0] = if stream.below(2) == 0 { 0.0 } else { short };
    }
    let last = lengths.last().copied().unwrap_or(0.0);
    let total = if kind == Kind::Damaged && stream.below(4) == 0 { f32::from_bits(stream.bits()) } else { last };
    (lengths, total)
}

/// A progress, often one whose target lies at or beside one of the lengths.
pub fn progress(lengths: &[f32], total: f32, stream: &mut Stream) -> u32 {
    let any =
        |stream: &mut Stream| lengths.get(stream.below(lengths.len() as u32 + 1) as usize).copied().unwrap_or(0.0);
    match stream.below(8) {
        0 => stream.bits(),
        1 => SPECIALS[stream.below(SPECIALS.len() as u32) as usize],
        2..4 => (stream.below(1 << 24) as f32 / 16_777_216.0).to_bits(),
        4..7 => worked_out(any(stream) / total).wrapping_add(stream.below(5)).wrapping_sub(2),
        _ => worked_out((any(stream) * 0.5 + any(stream) * 0.5) / total),
    }
}

// how many progresses each drawn list of lengths is asked for
const ASKED: u32 = 8;

/// Compares every query with every kind of lengths: this many lookups of each pair.
pub fn compare(report: &mut Report, seed: u64, lookups: u32) {
    println!("lookups: {} queries, seed {seed}, {lookups} of each kind", QUERIES.len());
    for (number, (query, title)) in QUERIES.into_iter().enumerate() {
        let mut made = 0;
        for (kind, kind_title) in KINDS {
            let mut stream = Stream::new(seed ^ (number as u64) << 16 ^ (kind as u64) << 8 ^ 1);
            let inputs = (0..lookups / ASKED).flat_map(|_| {
                let count = query.count(&mut stream);
                let (lengths, total) = lengths(kind, count, &mut stream);
                let all: [u32; ASKED as usize] = std::array::from_fn(|_| progress(&lengths, total, &mut stream));
                let lengths: Rc<[f32]> = lengths.into();
                all.into_iter().map(move |progress| Lookup { lengths: lengths.clone(), total, progress })
            });
            let name = format!("{title}, {kind_title}");
            made += report.group(&name, inputs, |input| query.ours(input), |input| query.theirs(input));
        }
        println!("  {title:20} {made:9} lookups");
    }
    largest(report);
}

// a spline's largest table has 65,521 entries
fn largest(report: &mut Report) {
    for (count, most) in [(65_521, true), (65_522, false)] {
        let lengths: Rc<[f32]> = (0..count).map(|place| place as f32).collect();
        let total = (count - 1) as f32;
        let inputs =
            (0..100).map(|k| Lookup { lengths: lengths.clone(), total, progress: (k as f32 / 99.0).to_bits() });
        let theirs = |input: &Lookup| if most { Query::Spline.theirs(input) } else { Refused(12) };
        report.group(&format!("a table of {count}"), inputs, |input| Query::Spline.ours(input), theirs);
    }
}

// ---- making a failing input small

impl Lookup {
    fn effort(&self) -> u64 {
        let floats = self.lengths.iter().map(|own| own.to_bits()).chain([self.total.to_bits(), self.progress]);
        floats.map(|bits| u64::from(effort(bits))).sum()
    }

    // the same with these lengths; a total that was the last of them stays so
    fn with(&self, lengths: Vec<f32>) -> Lookup {
        let was_last = self.lengths.last().map(|last| last.to_bits()) == Some(self.total.to_bits());
        let total = if was_last { lengths.last().copied().unwrap_or(0.0) } else { self.total };
        Lookup { lengths: lengths.into(), total, progress: self.progress }
    }
}

impl Input for Lookup {
    fn simpler(&self) -> Vec<Lookup> {
        let mut found: Vec<Lookup> =
            simpler_floats(self.progress).map(|progress| Lookup { progress, ..self.clone() }).collect();
        for place in 0..self.lengths.len() {
            let neighbours =
                [place.wrapping_sub(1), place + 1].map(|other| self.lengths.get(other).map(|x| x.to_bits()));
            for bits in simpler_floats(self.lengths[place].to_bits()).chain(neighbours.into_iter().flatten()) {
                let mut one = self.lengths.to_vec();
                one[place] = f32::from_bits(bits);
                found.push(self.with(one.clone()));
                one[place..].fill(f32::from_bits(bits));
                found.push(self.with(one));
            }
        }
        let effort = self.effort();
        found.retain(|other| other.effort() < effort);
        found
    }
}

impl fmt::Display for Lookup {
    fn fmt(&self, f: &mut fmt::Formatter<'_>) -> fmt::Result {
        write!(
            f,
            "progress {:08X} = {:e}, total {:08X}",
            self.progress,
            f32::from_bits(self.progress),
            self.total.to_bits()
        )?;
        write!(f, ", {} lengths", self.lengths.len())?;
        for run in self.lengths.chunk_by(|a, b| a.to_bits() == b.to_bits()) {
            let times = if run.len() > 1 { format!("*{}", run.len()) } else { String::new() };
            write!(f, " {:08X}{times}", run[0].to_bits())?;
        }
        Ok(())
    }
}

impl fmt::Display for Answer {
    fn fmt(&self, f: &mut fmt::Formatter<'_>) -> fmt::Result {
        match self {
            Raw(bits) => write!(f, "{bits:08X}"),
            Spot(segment, local) => write!(f, "segment {segment} at {local:08X}"),
            NoSegment => write!(f, "no segment"),
            Refused(number) => write!(f, "refused {number}"),
        }
    }
}
