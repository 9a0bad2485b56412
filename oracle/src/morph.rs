//! Resampled lines and morphs on both sides: lists of numbers, two for each point, into outputs of some room.

use crate::compare::{Input, Report};
use crate::math::alike;
use crate::samples::{SPECIALS, Stream};
use crate::simple::{effort, simpler_floats};
use animato_path::math::open::distance;
use animato_path::morph::{MorphPath, resample};
use std::fmt;
use std::rc::Rc;

/// What is asked of one or two lists.
#[derive(Clone, Copy, PartialEq)]
pub enum Query {
    Resample,
    Morph,
    MorphDefault,
    Evaluate,
    Bounds,
}

const QUERIES: [(Query, &str); 5] = [
    (Query::Resample, "resample"),
    (Query::Morph, "with_resolution"),
    (Query::MorphDefault, "the default"),
    (Query::Evaluate, "evaluate"),
    (Query::Bounds, "bounds_at"),
];

// what is asked of the Rust where our default is asked: 128 points, or the larger shape's count if that is more
fn default_resolution(from: &[u32], to: &[u32]) -> usize {
    (from.len() / 2).max(to.len() / 2).max(128)
}

/// Two lists of patterns (the first alone for `resample`), a count, a progress and the outputs' places.
#[derive(Clone)]
pub struct Asked {
    pub query: Query,
    pub from: Rc<[u32]>,
    pub to: Rc<[u32]>,
    pub count: usize,
    pub progress: u32,
    pub rooms: [usize; 2],
}

/// The whole outputs afterwards as bits, with a refusal's number (0: accepted) and what goes with it.
#[derive(Clone, PartialEq)]
pub struct Answer {
    pub number: u32,
    pub values: [u64; 4],
    pub outputs: [Vec<u32>; 2],
}

/// What stands in an output before a call.
const BEFORE: u32 = 0xC2F6_E979;

fn floats(bits: &[u32]) -> Vec<f32> {
    bits.iter().map(|bits| f32::from_bits(*bits)).collect()
}

fn pairs(bits: &[u32]) -> Vec<[f32; 2]> {
    bits.chunks_exact(2).map(|pair| [f32::from_bits(pair[0]), f32::from_bits(pair[1])]).collect()
}

fn four(carried: &[u64; 8]) -> [u64; 4] {
    [carried[0], carried[1], carried[2], carried[3]]
}

impl Asked {
    pub fn ours(&self) -> Answer {
        let (from, to) = (floats(&self.from), floats(&self.to));
        let t = f32::from_bits(self.progress);
        let mut outputs = self.rooms.map(|room| vec![f32::from_bits(BEFORE); room]);
        let [one, other] = &mut outputs;
        let given = match self.query {
            Query::Resample => kihavute::resample(&from, self.count, one).map(|numbers| [numbers as u64, 0, 0, 0]),
            Query::Morph => kihavute::morph(&from, &to, self.count, one, other)
                .map(|numbers| [numbers[0] as u64, numbers[1] as u64, 0, 0]),
            Query::MorphDefault => kihavute::morph_default(&from, &to, one, other)
                .map(|numbers| [numbers[0] as u64, numbers[1] as u64, 0, 0]),
            Query::Evaluate => kihavute::evaluate(&from, &to, t, one).map(|numbers| [numbers as u64, 0, 0, 0]),
            Query::Bounds => kihavute::bounds(&from, &to, t).map(|bounds| bounds.map(u64::from)),
        };
        let outputs = outputs.map(|output| output.iter().map(|x| x.to_bits()).collect());
        match given {
            Ok(values) => Answer { number: 0, values, outputs },
            Err(refusal) => Answer { number: refusal.number(), values: four(&refusal.carried()), outputs },
        }
    }

    /// The Rust's answer where document 01 accepts; it judges nothing itself and goes on where a length is not finite.
    pub fn theirs(&self) -> Answer {
        let (lists, count): (Vec<&[u32]>, usize) = match self.query {
            Query::Resample => (vec![&self.from], self.count),
            Query::Morph => (vec![&self.from, &self.to], self.count.max(2)),
            Query::MorphDefault => (vec![&self.from, &self.to], default_resolution(&self.from, &self.to)),
            Query::Evaluate | Query::Bounds => (vec![&self.from, &self.to], 0),
        };
        if let Some(list) = lists.iter().find(|list| list.len() % 2 == 1) {
            return self.refused(9, [list.len() as u64 / 2, 0, 0, 0]);
        }
        if let Some(list) = lists.iter().find(|list| list.len() / 2 > 4096) {
            return self.refused(13, [list.len() as u64 / 2, 0, 0, 0]);
        }
        if count > 4096 {
            return self.refused(13, [count as u64, 0, 0, 0]);
        }
        let points: Vec<Vec<[f32; 2]>> = lists.iter().map(|list| pairs(list)).collect();
        if let Some(place) = points.iter().filter(|_| count > 1).find_map(|points| not_finite(points)) {
            return self.refused(11, [place as u64, 0, 0, 0]);
        }
        let t = f32::from_bits(self.progress);
        let given: Vec<Vec<[f32; 2]>> = match self.query {
            Query::Resample => vec![resample(&points[0], count)],
            Query::Morph | Query::MorphDefault => {
                shapes(&MorphPath::with_resolution(points[0].clone(), points[1].clone(), count))
            }
            Query::Evaluate => vec![MorphPath::open_from_parts(points[0].clone(), points[1].clone()).evaluate(t)],
            Query::Bounds => return self.bounds(&points[0], &points[1], t),
        };
        let mut values = [0; 4];
        for (value, list) in values.iter_mut().zip(&given) {
            *value = 2 * list.len() as u64;
        }
        if given.iter().zip(self.rooms).any(|(list, room)| room < 2 * list.len()) {
            return self.refused(8, values);
        }
        let mut outputs = self.rooms.map(|room| vec![BEFORE; room]);
        for (output, list) in outputs.iter_mut().zip(&given) {
            for (place, x) in output.iter_mut().zip(list.iter().flatten()) {
                *place = alike(*x);
            }
        }
        Answer { number: 0, values, outputs }
    }

    fn refused(&self, number: u32, values: [u64; 4]) -> Answer {
        Answer { number, values, outputs: self.rooms.map(|room| vec![BEFORE; room]) }
    }

    // Document 01 gives four zeros where the Rust panics (the second shape alone is empty), and of equal zeros the first,
    // where the Rust may give either: those signs are taken from the points in their order.
    fn bounds(&self, from: &[[f32; 2]], to: &[[f32; 2]], t: f32) -> Answer {
        let mut bounds = [0.0f32; 4];
        if !from.is_empty() && !to.is_empty() {
            let path = MorphPath::open_from_parts(from.to_vec(), to.to_vec());
            bounds = path.bounds_at(t);
            let shape = path.evaluate(t);
            for (place, bound) in bounds.iter_mut().enumerate().filter(|(_, bound)| **bound == 0.0) {
                *bound = *shape.iter().map(|point| &point[place % 2]).find(|x| **x == 0.0).unwrap_or(bound);
            }
        }
        Answer { values: bounds.map(|x| u64::from(alike(x))), ..self.refused(0, [0; 4]) }
    }
}

fn shapes(path: &MorphPath) -> Vec<Vec<[f32; 2]>> {
    vec![path.from_shape().to_vec(), path.to_shape().to_vec()]
}

// the first point at which the running length is infinite or a NaN
fn not_finite(points: &[[f32; 2]]) -> Option<usize> {
    let mut sum = 0.0f32;
    (1..points.len()).find(|place| {
        sum += distance(points[place - 1], points[*place]);
        !sum.is_finite()
    })
}

// ---- lists

/// A way to draw points.
#[derive(Clone, Copy)]
pub enum Kind {
    Planned,
    Collinear,
    Coincident,
    Threshold,
    Wide,
    Huge,
    Edge,
    AnyBits,
}

pub const KINDS: [(Kind, &str); 8] = [
    (Kind::Planned, "as planned"),
    (Kind::Collinear, "collinear"),
    (Kind::Coincident, "coincident"),
    (Kind::Threshold, "totals about 2^-23"),
    (Kind::Wide, "legs of all sizes"),
    (Kind::Huge, "huge"),
    (Kind::Edge, "at the edges"),
    (Kind::AnyBits, "any bits"),
];

fn metres(stream: &mut Stream) -> f32 {
    (stream.below(1 << 25) as f32 - 16_777_216.0) / 1000.0
}

// a float with an exponent field from least on, of either sign
fn sized(stream: &mut Stream, least: u32, count: u32) -> f32 {
    let exponent = least + stream.below(count);
    f32::from_bits(stream.bits() & 0x807F_FFFF | exponent << 23)
}

/// The numbers of so many points.
pub fn numbers(kind: Kind, points: usize, stream: &mut Stream) -> Vec<u32> {
    let start = [metres(stream), metres(stream)];
    let step = [metres(stream), if stream.below(2) == 0 { 0.0 } else { metres(stream) }];
    let few = 1 + stream.below(4);
    let mut list: Vec<f32> = Vec::with_capacity(2 * points);
    for _ in 0..points {
        let earlier = stream.below(list.len() as u32 / 2 + 1) as usize;
        let point = match kind {
            Kind::Planned => [metres(stream), metres(stream)],
            // whole steps along one direction, forwards and back
            Kind::Collinear => {
                let count = stream.below(17) as f32 - 8.0;
                [start[0] + count * step[0], start[1] + count * step[1]]
            }
            // often one of the points before it
            Kind::Coincident if stream.below(few + 1) > 0 && 2 * earlier < list.len() => {
                [list[2 * earlier], list[2 * earlier + 1]]
            }
            Kind::Coincident => [metres(stream), metres(stream)],
            Kind::Threshold => [sized(stream, 98, 6), sized(stream, 98, 6)],
            Kind::Wide => [sized(stream, 60, 120), sized(stream, 60, 120)],
            Kind::Huge => [sized(stream, 184, 8), sized(stream, 184, 8)],
            Kind::Edge => {
                let mut one = || match stream.below(3) {
                    0 => f32::from_bits(SPECIALS[stream.below(SPECIALS.len() as u32) as usize]),
                    _ => metres(stream),
                };
                [one(), one()]
            }
            Kind::AnyBits => [f32::from_bits(stream.bits()), f32::from_bits(stream.bits())],
        };
        list.extend(point);
    }
    // now and then a number too many, or one too few
    if stream.below(64) == 0 {
        list.push(start[0]);
    }
    list.into_iter().map(f32::to_bits).collect()
}

// 0 to 40 points, now and then about 128, the limit and one more
fn points(stream: &mut Stream) -> usize {
    match stream.below(4096) {
        0 => 4096,
        1 => 4097,
        2..600 => stream.below(3) as usize,
        600..700 => 126 + stream.below(5) as usize,
        _ => stream.below(41) as usize,
    }
}

fn count(stream: &mut Stream) -> usize {
    match stream.below(4096) {
        0 => 4096,
        1 => 4097,
        2 => stream.next() as usize,
        3..900 => stream.below(4) as usize,
        _ => 2 * stream.below(50) as usize + stream.below(2) as usize,
    }
}

// from 0 to 1 for the most part
fn progress(stream: &mut Stream) -> u32 {
    match stream.below(8) {
        0 => SPECIALS[stream.below(SPECIALS.len() as u32) as usize],
        1 => stream.bits(),
        _ => (stream.below(1_000_001) as f32 / 1_000_000.0).to_bits(),
    }
}

/// One call with lists of a kind; `most` bounds the lists where it is given.
pub fn draw(query: Query, kind: Kind, most: Option<usize>, stream: &mut Stream) -> Asked {
    let list = |stream: &mut Stream| {
        let points = match most {
            Some(most) => stream.below(most as u32 + 1) as usize,
            None => points(stream),
        };
        numbers(kind, points, stream)
    };
    let from = list(stream);
    let to = if query == Query::Resample { Vec::new() } else { list(stream) };
    let count = match most {
        Some(most) => stream.below(most as u32 + 1) as usize,
        None => count(stream),
    };
    let mut asked = Asked { query, from: from.into(), to: to.into(), count, progress: progress(stream), rooms: [0, 0] };
    // the room needed, now and then one place less, a few more, or none
    let needed = match query {
        Query::Bounds => [0, 0],
        Query::Resample | Query::Evaluate => [asked.need()[0], 0],
        Query::Morph | Query::MorphDefault => asked.need(),
    };
    asked.rooms = needed.map(|need| match stream.below(16) {
        0 => need.saturating_sub(1),
        1 => need + stream.below(5) as usize,
        2 => 0,
        _ => need,
    });
    asked
}

impl Asked {
    // the most that the outputs may need
    fn need(&self) -> [usize; 2] {
        let count = match self.query {
            Query::Resample => self.count,
            Query::Morph => self.count.max(2),
            Query::MorphDefault => default_resolution(&self.from, &self.to),
            Query::Evaluate | Query::Bounds => (self.from.len() / 2).min(self.to.len() / 2),
        };
        [2 * count.min(4097); 2]
    }
}

/// Compares each query with lists of every kind: this many calls of each pair.
pub fn compare(report: &mut Report, seed: u64, calls: u32) {
    println!("shapes: {} kinds, seed {seed}, {calls} calls of each", KINDS.len());
    for (query, title) in QUERIES {
        let mut made = 0;
        for (kind, kind_title) in KINDS {
            let mut stream = Stream::new(seed ^ (query as u64) << 16 ^ (kind as u64) << 8 ^ 3);
            let inputs = (0..calls).map(|_| draw(query, kind, None, &mut stream));
            made += report.group(&format!("{title}, {kind_title}"), inputs, Asked::ours, Asked::theirs);
        }
        println!("  {title:20} {made:9} calls");
    }
}

// ---- making a failing input small

impl Asked {
    fn effort(&self) -> u64 {
        let lists = self.from.iter().chain(self.to.iter()).chain([&self.progress]);
        let floats: u64 = lists.map(|bits| u64::from(effort(*bits))).sum();
        floats
            + (self.from.len() + self.to.len()) as u64 * 100_000
            + self.count as u64 * 10
            + (self.rooms[0] + self.rooms[1]) as u64
    }
}

impl Input for Asked {
    fn simpler(&self) -> Vec<Asked> {
        let mut found: Vec<Asked> =
            simpler_floats(self.progress).map(|progress| Asked { progress, ..self.clone() }).collect();
        for count in [self.count / 2, self.count.saturating_sub(1)] {
            found.push(Asked { count, ..self.clone() });
        }
        let shorter = |list: &Rc<[u32]>| -> Vec<Rc<[u32]>> {
            (0..list.len() / 2).map(|at| [&list[..2 * at], &list[2 * at + 2..]].concat().into()).take(64).collect()
        };
        let simpler = |list: &Rc<[u32]>| -> Vec<Rc<[u32]>> {
            let places = (0..list.len().min(32)).flat_map(|at| simpler_floats(list[at]).map(move |bits| (at, bits)));
            let put = |(at, bits): (usize, u32)| {
                let mut list = list.to_vec();
                list[at] = bits;
                list.into()
            };
            places.map(put).collect()
        };
        for list in shorter(&self.from).into_iter().chain(simpler(&self.from)) {
            found.push(Asked { from: list, ..self.clone() });
        }
        for list in shorter(&self.to).into_iter().chain(simpler(&self.to)) {
            found.push(Asked { to: list, ..self.clone() });
        }
        let effort = self.effort();
        found.retain(|other| other.effort() < effort);
        found
    }
}

impl fmt::Display for Asked {
    fn fmt(&self, f: &mut fmt::Formatter<'_>) -> fmt::Result {
        write!(f, "count {}, progress {:08X}, places {:?}, from", self.count, self.progress, self.rooms)?;
        self.from.iter().take(64).try_for_each(|bits| write!(f, " {bits:08X}"))?;
        write!(f, ", to")?;
        self.to.iter().take(64).try_for_each(|bits| write!(f, " {bits:08X}"))
    }
}

impl fmt::Display for Answer {
    fn fmt(&self, f: &mut fmt::Formatter<'_>) -> fmt::Result {
        write!(f, "number {}, values {:?}, outputs", self.number, self.values)?;
        for output in &self.outputs {
            write!(f, " [")?;
            output.iter().take(64).try_for_each(|bits| write!(f, " {bits:08X}"))?;
            write!(f, " ]")?;
        }
        Ok(())
    }
}
