//! Splines on both sides: a table is made of points and asked at progresses, and stored ones, damaged too, are asked.
//! `CatmullRomSpline` of bezier.rs and `PolyPath` of poly.rs, which holds one, are run each.

use crate::compare::{Input, Report};
use crate::math::alike;
use crate::samples::{self, SPECIALS, Stream};
use crate::simple::{effort, simpler_floats};
use crate::table;
use animato_path::bezier::{CatmullRomSpline, PathEvaluate};
use animato_path::poly::PolyPath;
use std::fmt;
use std::rc::Rc;

/// Which type of the Rust answers.
#[derive(Clone, Copy, PartialEq)]
pub enum Side {
    Spline,
    Poly,
}

const SIDES: [(Side, &str); 2] = [(Side::Spline, "splines"), (Side::Poly, "poly paths")];

/// A refusal's number and the first value that it carries; or a word for what no refusal may do.
#[derive(Clone, PartialEq)]
pub enum Why {
    Refused(u32, u64),
    Broken(&'static str),
}

use Why::{Broken, Refused};

impl From<kihavute::Refusal> for Why {
    fn from(refusal: kihavute::Refusal) -> Why {
        Refused(refusal.number(), refusal.carried()[0])
    }
}

/// An answer, or why there is none.
#[derive(Clone, PartialEq)]
pub struct Answer<A>(pub Result<A, Why>);

/// What a spline answers at a progress, as bits: position, tangent, heading, length and raw parameter.
pub type Told = [u32; 7];

/// The entries of a made table, and what it answers; all as bits.
#[derive(Clone, PartialEq)]
pub struct Made {
    pub entries: Vec<u32>,
    pub told: Vec<Told>,
}

/// The patterns of the points' numbers, an even count or not, and of progresses.
#[derive(Clone)]
pub struct Points {
    pub side: Side,
    pub numbers: Rc<[u32]>,
    pub progresses: Vec<u32>,
}

/// The entries that document 01 counts for so many numbers: 16 for each span and one more.
pub fn count_of(numbers: usize) -> usize {
    (numbers / 2).saturating_sub(1) * 16 + 1
}

fn floats(patterns: &[u32]) -> Vec<f32> {
    patterns.iter().map(|bits| f32::from_bits(*bits)).collect()
}

fn pairs(numbers: &[f32]) -> Vec<[f32; 2]> {
    numbers.chunks_exact(2).map(|pair| [pair[0], pair[1]]).collect()
}

/// What the proved library tells of a stored spline at a progress.
pub fn ours_told(numbers: &[f32], table: &[f32], progress: u32) -> Result<Told, Why> {
    let t = kihavute::Progress(f32::from_bits(progress));
    let kihavute::Flight { position: [x, y], tangent: [u, v], segment, raw } = kihavute::spline_flight(numbers, table, t)?;
    if segment != Some(0) {
        return Err(Broken("another segment than 0"));
    }
    let heading = kihavute::spline_rotation_deg(numbers, table, t)?;
    Ok([x, y, u, v, heading, kihavute::spline_length(numbers, table)?, raw.value().to_bits()])
}

/// Either type of the Rust, and its lookup.
trait Curve: PathEvaluate {
    fn raw(&self, t: f32) -> f32;
}

impl Curve for CatmullRomSpline {
    fn raw(&self, t: f32) -> f32 {
        self.open_raw_t(t)
    }
}

impl Curve for PolyPath {
    fn raw(&self, t: f32) -> f32 {
        self.open_raw_t(t)
    }
}

fn told(curve: &impl Curve, progress: u32) -> Told {
    let t = f32::from_bits(progress);
    let [x, y] = curve.position(t).map(alike);
    let [u, v] = curve.tangent(t).map(alike);
    [x, y, u, v, alike(curve.rotation_deg(t)), alike(curve.arc_length()), alike(curve.raw(t))]
}

// what stands in a buffer that no call has written to
const LEFT: f32 = -77.0;

fn is_left(places: &[f32]) -> bool {
    places.iter().all(|place| place.to_bits() == LEFT.to_bits())
}

impl Points {
    fn ours(&self) -> Result<Made, Why> {
        let numbers = floats(&self.numbers);
        let due = count_of(numbers.len());
        let mut table = vec![LEFT; due + 3];
        let refused = kihavute::spline_table(&numbers, &mut table);
        let count = match refused {
            Ok(count) => count,
            Err(refusal) => return Err(if is_left(&table) { refusal.into() } else { Broken("a refusal wrote") }),
        };
        if !is_left(&table[count..]) {
            return Err(Broken("written past the count"));
        }
        let entries: Vec<u32> = table[..count].iter().map(|entry| entry.to_bits()).collect();
        // one place short: the count needed, and nothing written
        let mut short = vec![LEFT; count - 1];
        match kihavute::spline_table(&numbers, &mut short) {
            Err(refusal) if (refusal.number(), refusal.carried()[0]) == (8, count as u64) && is_left(&short) => {}
            _ => return Err(Broken("one place short")),
        }
        let told = self.progresses.iter().map(|progress| ours_told(&numbers, &table[..count], *progress));
        Ok(Made { entries, told: told.collect::<Result<_, _>>()? })
    }

    /// The Rust's answer, where document 01 refuses nothing; it refuses in the order 9, 13, 11.
    fn theirs(&self) -> Result<Made, Why> {
        let numbers = floats(&self.numbers);
        if numbers.len() % 2 == 1 {
            return Err(Refused(9, numbers.len() as u64 / 2));
        }
        if numbers.len() / 2 > 4096 {
            return Err(Refused(13, numbers.len() as u64 / 2));
        }
        match self.side {
            Side::Spline => {
                let spline = CatmullRomSpline::new(pairs(&numbers));
                made(spline.open_table().0, &spline, &self.progresses)
            }
            Side::Poly => {
                let path = PolyPath::new(pairs(&numbers));
                made(path.open_table().0, &path, &self.progresses)
            }
        }
    }
}

fn made(entries: &[f32], curve: &impl Curve, progresses: &[u32]) -> Result<Made, Why> {
    if let Some(place) = entries.iter().position(|entry| !entry.is_finite()) {
        return Err(Refused(11, place as u64));
    }
    let entries = entries.iter().map(|entry| entry.to_bits()).collect();
    Ok(Made { entries, told: progresses.iter().map(|progress| told(curve, *progress)).collect() })
}

/// A stored spline as patterns, and a progress.
#[derive(Clone)]
pub struct Stored {
    pub numbers: Rc<[u32]>,
    pub table: Rc<[u32]>,
    pub progress: u32,
}

impl Stored {
    /// The proved library's answer.
    pub fn ours(&self) -> Result<Told, Why> {
        ours_told(&floats(&self.numbers), &floats(&self.table), self.progress)
    }

    /// The Rust's answer, where document 01's check passes; it judges nothing itself.
    pub fn theirs(&self) -> Result<Told, Why> {
        let (numbers, table) = (floats(&self.numbers), floats(&self.table));
        let count = numbers.len() / 2;
        let size = numbers.len() % 2 == 0 && count <= 4096 && table.len() == count_of(numbers.len());
        let last = table.last().copied().unwrap_or(f32::NAN);
        if !size || !table::table_is_sound(&table, last) {
            return Err(Refused(12, 0));
        }
        Ok(told(&CatmullRomSpline::open_from_parts(pairs(&numbers), table, last), self.progress))
    }
}

// ---- points

/// A way to draw points.
#[derive(Clone, Copy, PartialEq)]
pub enum Kind {
    Planned,
    OneSize,
    Straight,
    Coincident,
    Threshold,
    Subnormal,
    Huge,
    Edge,
    AnyBits,
    Odd,
}

pub const KINDS: [(Kind, &str); 10] = [
    (Kind::Planned, "as planned"),
    (Kind::OneSize, "of one size"),
    (Kind::Straight, "straight"),
    (Kind::Coincident, "coincident points"),
    (Kind::Threshold, "lengths about 2^-23"),
    (Kind::Subnormal, "subnormal"),
    (Kind::Huge, "huge"),
    (Kind::Edge, "at the edges"),
    (Kind::AnyBits, "any bits"),
    (Kind::Odd, "an odd count"),
];

// a float with an exponent field from least on, of either sign
fn sized(stream: &mut Stream, least: u32, count: u32) -> u32 {
    let exponent = least + stream.below(count);
    stream.bits() & 0x807F_FFFF | exponent << 23
}

fn metres(stream: &mut Stream) -> u32 {
    ((stream.below(1 << 25) as f32 - 16_777_216.0) / 1000.0).to_bits()
}

/// The patterns of this many points of a kind.
pub fn draw(kind: Kind, count: usize, stream: &mut Stream) -> Vec<u32> {
    let base = 20 + stream.below(170);
    let mut each = |coordinate: &mut dyn FnMut(&mut Stream) -> u32| -> Vec<u32> {
        (0..2 * count).map(|_| coordinate(stream)).collect()
    };
    match kind {
        Kind::Planned => each(&mut metres),
        Kind::OneSize => each(&mut |stream| sized(stream, base, 3)),
        // whole steps along one direction, forwards and back
        Kind::Straight => {
            let [x, y, dx, dy] = std::array::from_fn(|_| f32::from_bits(metres(stream)));
            let [dx, dy] = [[dx, dy], [dx, 0.0], [0.0, dy]][stream.below(3) as usize];
            (0..count)
                .flat_map(|_| {
                    let steps = stream.below(17) as f32 - 8.0;
                    [x + steps * dx, y + steps * dy].map(f32::to_bits)
                })
                .collect()
        }
        // each point is one of a few
        Kind::Coincident => {
            let few: Vec<[u32; 2]> = (0..1 + stream.below(3)).map(|_| [metres(stream), metres(stream)]).collect();
            (0..count).flat_map(|_| few[stream.below(few.len() as u32) as usize]).collect()
        }
        Kind::Threshold => each(&mut |stream| sized(stream, 97, 6)),
        Kind::Subnormal => each(&mut |stream| sized(stream, 0, 2)),
        Kind::Huge => each(&mut |stream| sized(stream, 180, 12)),
        Kind::Edge => {
            let mut numbers = each(&mut metres);
            for _ in 0..1 + stream.below(3) {
                if numbers.is_empty() {
                    break;
                }
                let place = stream.below(numbers.len() as u32) as usize;
                numbers[place] = match stream.below(2) {
                    0 => SPECIALS[stream.below(SPECIALS.len() as u32) as usize],
                    _ => samples::draw::<1>(samples::Kind::Edge, stream)[0],
                };
            }
            numbers
        }
        Kind::AnyBits => each(&mut |stream| stream.bits()),
        Kind::Odd => {
            let mut numbers = each(&mut metres);
            if stream.below(2) == 0 {
                numbers.pop();
            }
            if numbers.len() % 2 == 0 {
                numbers.push(metres(stream));
            }
            numbers
        }
    }
}

// how many progresses each drawn spline is asked for
const ASKED: usize = 4;

fn progresses(numbers: &[u32], stream: &mut Stream) -> Vec<u32> {
    let spline = CatmullRomSpline::new(pairs(&floats(numbers)));
    let (entries, total) = spline.open_table();
    (0..ASKED).map(|_| table::progress(entries, total, stream)).collect()
}

/// Compares both of the Rust's types with points of every kind: this many splines of each pair, of 0 to 40 points; then
/// stored splines, and a few of 4,096 points.
pub fn compare(report: &mut Report, seed: u64, splines: u32) {
    println!("splines: {} kinds, seed {seed}, {splines} of each", KINDS.len());
    for (side, title) in SIDES {
        let mut made = 0;
        for (kind, kind_title) in KINDS {
            let mut stream = Stream::new(seed ^ (side as u64) << 16 ^ (kind as u64) << 8 ^ 3);
            let inputs = (0..splines).map(|_| {
                let count = stream.below(41) as usize;
                let numbers = draw(kind, count, &mut stream);
                let progresses = progresses(&numbers, &mut stream);
                Points { side, numbers: numbers.into(), progresses }
            });
            made += report.group(
                &format!("{title}, {kind_title}"),
                inputs,
                |points| Answer(points.ours()),
                |points| Answer(points.theirs()),
            );
        }
        println!("  {title:20} {made:9} splines");
    }
    compare_stored(report, seed, splines);
    compare_largest(report, seed, if splines > 2_000 { 8 } else { 1 });
}

// ---- stored splines, whole and damaged

/// A stored spline: what the Rust made of points, then often damaged.
pub fn draw_stored(stream: &mut Stream, most: u32) -> Stored {
    let (kind, _) = KINDS[stream.below(KINDS.len() as u32) as usize];
    let count = stream.below(most + 1) as usize;
    let mut numbers = draw(kind, count, stream);
    let spline = CatmullRomSpline::new(pairs(&floats(&numbers)));
    let (entries, total) = spline.open_table();
    let progress = table::progress(entries, total, stream);
    let mut table: Vec<u32> = entries.iter().map(|entry| entry.to_bits()).collect();
    let place = stream.below(table.len() as u32) as usize;
    match stream.below(8) {
        0 => table[place] = SPECIALS[stream.below(SPECIALS.len() as u32) as usize],
        1 => table[place] ^= 1 << stream.below(32),
        2 => table[place] = table[place.saturating_sub(1)],
        3 => table[0] = 0x8000_0000,
        4 => drop(table.pop()),
        5 => table.push(table[place]),
        6 => numbers.truncate(numbers.len().saturating_sub(stream.below(3) as usize)),
        _ => {}
    }
    Stored { numbers: numbers.into(), table: table.into(), progress }
}

fn compare_stored(report: &mut Report, seed: u64, splines: u32) {
    let mut stream = Stream::new(seed ^ 4);
    let inputs = (0..splines).map(|_| draw_stored(&mut stream, 12));
    let made = report.group("stored splines", inputs, |stored| Answer(stored.ours()), |stored| Answer(stored.theirs()));
    println!("  {:20} {made:9} splines", "stored, and damaged");
}

// ---- the most points

fn compare_largest(report: &mut Report, seed: u64, splines: u32) {
    for (side, title) in SIDES {
        let mut stream = Stream::new(seed ^ (side as u64) << 16 ^ 5);
        let inputs = (0..splines).flat_map(|place| {
            let (kind, _) = KINDS[[0, 2, 3, 8][place as usize % 4]];
            [4095, 4096, 4097].map(|count| {
                let numbers = draw(kind, count, &mut stream);
                let progresses = progresses(&numbers, &mut stream);
                Points { side, numbers: numbers.into(), progresses }
            })
        });
        let made = report.group(
            &format!("{title} of 4,096 points"),
            inputs,
            |points| Answer(points.ours()),
            |points| Answer(points.theirs()),
        );
        println!("  {:20} {made:9} {title}", "4,095 to 4,097 points");
    }
}

// ---- making a failing input small

fn efforts(numbers: &[u32]) -> u64 {
    numbers.iter().map(|bits| 1 + u64::from(effort(*bits))).sum()
}

// the same numbers without a pair, and with a simpler one
fn simpler_numbers(numbers: &[u32]) -> Vec<Rc<[u32]>> {
    let mut found: Vec<Rc<[u32]>> = Vec::new();
    for place in (0..numbers.len()).step_by(2) {
        let mut fewer = numbers.to_vec();
        fewer.drain(place..(place + 2).min(numbers.len()));
        found.push(fewer.into());
    }
    for place in 0..numbers.len().min(100) {
        for bits in simpler_floats(numbers[place]) {
            let mut one = numbers.to_vec();
            one[place] = bits;
            found.push(one.into());
        }
    }
    found
}

impl Input for Points {
    fn simpler(&self) -> Vec<Points> {
        let mut found: Vec<Points> =
            simpler_numbers(&self.numbers).into_iter().map(|numbers| Points { numbers, ..self.clone() }).collect();
        for place in 0..self.progresses.len() {
            let mut fewer = self.clone();
            fewer.progresses.remove(place);
            found.push(fewer);
            for bits in simpler_floats(self.progresses[place]) {
                let mut one = self.clone();
                one.progresses[place] = bits;
                found.push(one);
            }
        }
        let effort = |points: &Points| efforts(&points.numbers) + efforts(&points.progresses);
        let own = effort(self);
        found.retain(|other| effort(other) < own);
        found
    }
}

impl Input for Stored {
    fn simpler(&self) -> Vec<Stored> {
        let mut found: Vec<Stored> =
            simpler_floats(self.progress).map(|progress| Stored { progress, ..self.clone() }).collect();
        found.extend(simpler_numbers(&self.numbers).into_iter().map(|numbers| Stored { numbers, ..self.clone() }));
        found.extend(simpler_numbers(&self.table).into_iter().map(|table| Stored { table, ..self.clone() }));
        let effort = |stored: &Stored| efforts(&stored.numbers) + efforts(&stored.table) + efforts(&[stored.progress]);
        let own = effort(self);
        found.retain(|other| effort(other) < own);
        found
    }
}

fn list(f: &mut fmt::Formatter<'_>, title: &str, patterns: &[u32]) -> fmt::Result {
    write!(f, "{title} {}:", patterns.len())?;
    patterns.iter().take(40).try_for_each(|bits| write!(f, " {bits:08X}"))
}

impl fmt::Display for Points {
    fn fmt(&self, f: &mut fmt::Formatter<'_>) -> fmt::Result {
        list(f, "numbers", &self.numbers)?;
        list(f, ", progresses", &self.progresses)
    }
}

impl fmt::Display for Stored {
    fn fmt(&self, f: &mut fmt::Formatter<'_>) -> fmt::Result {
        list(f, "numbers", &self.numbers)?;
        list(f, ", table", &self.table)?;
        write!(f, ", progress {:08X}", self.progress)
    }
}

fn refused(f: &mut fmt::Formatter<'_>, why: &Why) -> fmt::Result {
    match why {
        Refused(number, carried) => write!(f, "refused {number} with {carried}"),
        Broken(what) => write!(f, "{what}"),
    }
}

impl fmt::Display for Answer<Made> {
    fn fmt(&self, f: &mut fmt::Formatter<'_>) -> fmt::Result {
        match &self.0 {
            Ok(made) => {
                list(f, "entries", &made.entries)?;
                made.told.iter().try_for_each(|told| list(f, ", told", told))
            }
            Err(why) => refused(f, why),
        }
    }
}

impl fmt::Display for Answer<Told> {
    fn fmt(&self, f: &mut fmt::Formatter<'_>) -> fmt::Result {
        match &self.0 {
            Ok(told) => list(f, "told", told),
            Err(why) => refused(f, why),
        }
    }
}
