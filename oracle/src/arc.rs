//! Lone lines and elliptical arcs on both sides: a segment is made of what a path's text gives, and asked at a progress.

use crate::bezier::{self, metres, sized, stored};
use crate::compare::{Input, Report};
use crate::math::alike;
use crate::samples::{SPECIALS, Stream};
use crate::simple::{effort, simpler_floats};
use crate::table;
use crate::turns;
use animato_path::bezier::PathEvaluate;
use animato_path::poly::{EllipticalArc, LineSegment};
use kihavute::Chord;
use std::cell::Cell;
use std::fmt;

// ---- lines

/// The patterns of the ends' coordinates and of a progress.
#[derive(Clone)]
pub struct Line {
    pub ends: [[u32; 2]; 2],
    pub progress: u32,
}

/// All that a line answers at a progress, as bits; or the number of a refusal, and what it carries.
#[derive(Clone, Copy, PartialEq)]
pub enum Drawn {
    Known(Lone),
    Refused(u32, u64),
}

/// Position and tangent as bits, the heading of the tangent, the raw parameter and the length.
#[derive(Clone, Copy, PartialEq)]
pub struct Lone {
    pub position: [u32; 2],
    pub tangent: [u32; 2],
    pub rotation_deg: u32,
    pub raw: u32,
    pub length: u32,
}

// the heading is that of the tangent that was answered
fn known(lone: kihavute::Lone) -> Lone {
    let kihavute::Lone { position, tangent, raw, length } = lone;
    let rotation_deg = kihavute::rotation_deg(tangent.map(f32::from_bits));
    Lone { position, tangent, rotation_deg, raw: raw.value().to_bits(), length }
}

// the same of the Rust's segment, with its raw parameter
fn theirs(segment: &impl PathEvaluate, raw: f32, t: f32) -> Lone {
    Lone {
        position: segment.position(t).map(alike),
        tangent: segment.tangent(t).map(alike),
        rotation_deg: alike(segment.rotation_deg(t)),
        raw: alike(raw),
        length: alike(segment.arc_length()),
    }
}

// a progress clamped, a NaN as 0: the raw parameter of a line and of a fallback (document 01)
fn clamped(t: f32) -> f32 {
    if t.is_nan() { 0.0 } else { t.clamp(0.0, 1.0) }
}

impl Line {
    pub fn ours(&self) -> Drawn {
        self.ours_or_refusal().unwrap_or_else(|refusal| Drawn::Refused(refusal.number(), refusal.carried()[0]))
    }

    fn ours_or_refusal(&self) -> Result<Drawn, kihavute::Refusal> {
        let ends = self.ends.map(|point| point.map(f32::from_bits));
        let lone = kihavute::line(&ends, kihavute::Progress(f32::from_bits(self.progress)))?;
        Ok(Drawn::Known(known(lone)))
    }

    /// The Rust's answer where the length is finite; elsewhere the Rust goes on, and document 01 refuses segment 0.
    pub fn theirs(&self) -> Drawn {
        let [start, end] = self.ends.map(|point| point.map(f32::from_bits));
        let line = LineSegment::new(start, end);
        if !line.arc_length().is_finite() {
            return Drawn::Refused(11, 0);
        }
        let t = f32::from_bits(self.progress);
        Drawn::Known(theirs(&line, clamped(t), t))
    }
}

// ---- arcs

/// The patterns of an arc's start, radii, rotation and end, its flags, and the pattern of a progress.
#[derive(Clone)]
pub struct Arc {
    pub numbers: [u32; 7],
    pub large: bool,
    pub sweep: bool,
    pub progress: u32,
}

/// All that an arc answers at a progress, as bits: its numbers and whether it fell back to a line, its table unless it
/// did, and the rest; or the number of a refusal, and what it carries.
#[derive(Clone, Copy, PartialEq)]
pub enum Answer {
    Known {
        shape: [u32; 11],
        fell_back: bool,
        table: Option<[u32; 33]>,
        lone: Lone,
    },
    Refused(u32, u64),
}

use Answer::{Known, Refused};

impl Arc {
    fn chord(&self) -> Chord {
        let [sx, sy, rx, ry, x_axis_rotation, ex, ey] = self.numbers.map(f32::from_bits);
        Chord {
            start: [sx, sy],
            radii: [rx, ry],
            x_axis_rotation,
            large_arc: self.large,
            sweep: self.sweep,
            end: [ex, ey],
        }
    }

    /// The Rust's arc, of what is left of the rotation.
    pub fn made(&self) -> EllipticalArc {
        let chord = self.chord();
        EllipticalArc::from_svg(
            chord.start,
            chord.radii,
            turns::rest(chord.x_axis_rotation),
            chord.large_arc,
            chord.sweep,
            chord.end,
        )
    }

    pub fn ours(&self) -> Answer {
        self.ours_or_refusal().unwrap_or_else(|refusal| Refused(refusal.number(), refusal.carried()[0]))
    }

    fn ours_or_refusal(&self) -> Result<Answer, kihavute::Refusal> {
        let chord = self.chord();
        let t = kihavute::Progress(f32::from_bits(self.progress));
        let (shape, fell_back) = kihavute::arc_shape(&chord)?;
        Ok(Known {
            shape,
            fell_back,
            table: kihavute::arc_table(&chord)?,
            lone: known(kihavute::arc(&chord, t)?),
        })
    }

    /// The Rust's answer where rotation and length are finite, with the rotation as it was given; elsewhere the Rust goes on, and
    /// document 01 refuses segment 0, the rotation first, unless the arc falls back to a line.
    pub fn theirs(&self) -> Answer {
        let arc = self.made();
        let fell_back = arc.open_is_fallback();
        let [_, from, by] = arc.open_angles();
        let rotation = self.chord().x_axis_rotation;
        if !fell_back && !rotation.is_finite() {
            return Refused(10, 0);
        }
        if !arc.arc_length().is_finite() {
            return Refused(11, 0);
        }
        let t = f32::from_bits(self.progress);
        let ([sx, sy], [ex, ey], [cx, cy], [rx, ry]) = (arc.start(), arc.end(), arc.center(), arc.radii());
        let (entries, total) = arc.open_table();
        Known {
            shape: [sx, sy, ex, ey, cx, cy, rx, ry, rotation, from, by].map(alike),
            fell_back,
            table: (!fell_back).then(|| stored(&entries, total)),
            lone: theirs(&arc, if fell_back { clamped(t) } else { arc.open_raw_t(t) }, t),
        }
    }
}

/// A way to draw arcs.
#[derive(Clone, Copy)]
pub enum Kind {
    Planned,
    Circles,
    Scaled,
    Turned,
    AnyRadii,
    LargeRadii,
    Near,
    Threshold,
    Subnormal,
    Huge,
    Edge,
    AnyBits,
}

pub const KINDS: [(Kind, &str); 12] = [
    (Kind::Planned, "as planned"),
    (Kind::Circles, "circles of whole numbers"),
    (Kind::Scaled, "radii too small"),
    (Kind::Turned, "rotations of every size"),
    (Kind::AnyRadii, "radii of every size"),
    (Kind::LargeRadii, "large radii"),
    (Kind::Near, "ends near each other"),
    (Kind::Threshold, "sizes about 2^-23"),
    (Kind::Subnormal, "subnormal"),
    (Kind::Huge, "huge"),
    (Kind::Edge, "at the edges"),
    (Kind::AnyBits, "any bits"),
];

fn degrees(stream: &mut Stream) -> f32 {
    let quarters = stream.below(41) as f32 * 45.0 - 900.0;
    if stream.below(2) == 0 { quarters } else { stream.below(7_200_001) as f32 / 1000.0 - 3600.0 }
}

// rotations at which the rule changes, and any
fn any_degrees(stream: &mut Stream) -> f32 {
    match stream.below(8) {
        0..5 => turns::any(stream),
        5 => sized(stream, 90, 50),
        _ => degrees(stream),
    }
}

fn special_or(x: f32, stream: &mut Stream) -> f32 {
    if stream.below(3) == 0 { f32::from_bits(SPECIALS[stream.below(SPECIALS.len() as u32) as usize]) } else { x }
}

/// Start, radii, rotation and end.
pub fn numbers(kind: Kind, stream: &mut Stream) -> [f32; 7] {
    let base = 20 + stream.below(170);
    let radius = |stream: &mut Stream| (1 + stream.below(1 << 24)) as f32 / 1000.0;
    let planned = [
        metres(stream),
        metres(stream),
        radius(stream),
        radius(stream),
        degrees(stream),
        metres(stream),
        metres(stream),
    ];
    let [sx, sy, rx, ry, rotation, ex, ey] = planned;
    match kind {
        Kind::Planned => planned,
        // ends and radii of small whole numbers, with half and quarter circles among them
        Kind::Circles => {
            let mut whole = || stream.below(9) as f32 - 4.0;
            let [sx, sy, ex, ey, rx, ry] = std::array::from_fn(|_| whole());
            let rotation = stream.below(9) as f32 * 90.0 - 360.0;
            [sx, sy, rx, if stream.below(2) == 0 { rx } else { ry }, rotation, ex, ey]
        }
        Kind::Scaled => [sx, sy, rx / 1000.0, ry / 1000.0, rotation, ex, ey],
        Kind::Turned => [sx, sy, rx, ry, any_degrees(stream), ex, ey],
        Kind::AnyRadii => [sx, sy, sized(stream, 0, 255), sized(stream, 0, 255), rotation, ex, ey],
        Kind::LargeRadii => [sx, sy, sized(stream, 130, 90), sized(stream, 130, 90), rotation, ex, ey],
        Kind::Near => [sx, sy, rx, ry, rotation, sx + sized(stream, 90, 30), sy + sized(stream, 90, 30)],
        Kind::Threshold => {
            let [sx, sy, rx, ry, ex, ey] = std::array::from_fn(|_| sized(stream, 101, 5));
            [sx, sy, rx, ry, rotation, ex, ey]
        }
        Kind::Subnormal => {
            let [sx, sy, rx, ry, ex, ey] = std::array::from_fn(|_| sized(stream, 0, 2));
            [sx, sy, rx, ry, rotation, ex, ey]
        }
        Kind::Huge => {
            let [sx, sy, rx, ry, ex, ey] = std::array::from_fn(|_| sized(stream, base, 30));
            [sx, sy, rx, ry, rotation, ex, ey]
        }
        Kind::Edge => planned.map(|x| special_or(x, stream)),
        Kind::AnyBits => std::array::from_fn(|_| f32::from_bits(stream.bits())),
    }
}

// ---- vectors: what docs/DIFFERENCES.md and document 01 say of single arcs

/// The ends, the radius, the rotation's pattern, the flags, and the pattern of the length or the refusal's number.
pub type Vector = ([f32; 4], f32, u32, [bool; 2], Result<u32, u32>);

pub const VECTORS: [Vector; 13] = [
    ([0.0, 0.0, 3.0, 4.0], 5e9, 0, [false, true], Err(11)),
    ([0.0, 0.0, 3.0, 4.0], 1e9, 0, [false, true], Ok(0)),
    ([0.0, 0.0, 3.0, 4.0], 1e20, 0, [false, false], Ok(0x61CC_2BAB)),
    ([0.0, 0.0, 0.01, 0.01], 0.02, 0, [false, true], Ok(0x3D80_9FE4)),
    ([0.0, 0.0, 3.0, 4.0], 5.0, 0x4561_0000, [false, true], Ok(0x40A7_8B2C)),
    ([0.0, 0.0, 3.0, 4.0], 5.0, 0x4561_0001, [false, true], Ok(0x40A7_8B2D)),
    ([0.0, 0.0, 3.0, 4.0], 5.0, 0x443F_4000, [false, true], Ok(0x40A7_8B2A)),
    ([0.0, 0.0, 3.0, 4.0], 5.0, 0xC43F_4000, [false, true], Ok(0x40A7_8B2C)),
    ([0.0, 0.0, 3.0, 4.0], 5.0, 0x7F7F_FFFF, [false, true], Ok(0x40A7_8B2C)),
    ([0.0, 0.0, 3.0, 4.0], 5.0, 0x7F80_0000, [false, true], Err(10)),
    ([0.0, 0.0, 3.0, 4.0], 5.0, 0x7FC0_0000, [false, true], Err(10)),
    ([0.0, 0.0, 3.0, f32::INFINITY], 5.0, 0x457A_0000, [false, true], Err(11)),
    ([0.0, 0.0, 3.0, 4.0], 0.0, 0xFF80_0000, [false, true], Ok(0x40A0_0000)),
];

/// The arc of a vector, at its start.
pub fn vector((ends, radius, rotation, [large, sweep], _): &Vector) -> Arc {
    let [sx, sy, ex, ey] = ends.map(f32::to_bits);
    let numbers = [sx, sy, radius.to_bits(), radius.to_bits(), *rotation, ex, ey];
    Arc { numbers, large: *large, sweep: *sweep, progress: 0 }
}

fn compare_vectors(report: &mut Report) {
    for given in &VECTORS {
        let arc = vector(given);
        let found = match arc.ours() {
            Known { lone, .. } => Ok(lone.length),
            Refused(number, _) => Err(number),
        };
        let equal = found == given.4 && arc.ours() == arc.theirs();
        if !equal {
            println!("  DIFFERENT in vectors: {arc}\n    ours {}, the Rust {}", arc.ours(), arc.theirs());
        }
        report.count(1, equal);
    }
}

/// Compares the vectors, lines with ends of every kind, and arcs of every kind: this many of each.
pub fn compare(report: &mut Report, seed: u64, count: u32) {
    println!("lines and arcs: {} kinds of arcs, seed {seed}, {count} of each", KINDS.len());
    compare_vectors(report);
    let mut made = 0;
    for (kind, kind_title) in bezier::KINDS {
        let mut stream = Stream::new(seed ^ (kind as u64) << 8 ^ 3);
        let lines = (0..count).map(|_| {
            let [start, end, ..] = bezier::points(kind, &mut stream).map(|point| point.map(f32::to_bits));
            Line { ends: [start, end], progress: table::progress(&[], 1.0, &mut stream) }
        });
        made += report.group(&format!("lines, {kind_title}"), lines, Line::ours, Line::theirs);
    }
    println!("  lines {made:9}");
    let (mut made, counts) = (0, [const { Cell::new(0u64) }; 3]);
    for (kind, kind_title) in KINDS {
        let mut stream = Stream::new(seed ^ (kind as u64) << 8 ^ 4);
        let arcs = (0..count).map(|_| {
            let numbers = numbers(kind, &mut stream).map(f32::to_bits);
            let arc = Arc { numbers, large: stream.below(2) == 0, sweep: stream.below(2) == 0, progress: 0 };
            let (entries, total) = arc.made().open_table();
            Arc { progress: table::progress(&entries, total, &mut stream), ..arc }
        });
        made += report.group(&format!("arcs, {kind_title}"), arcs, Arc::ours, |arc| {
            let answer = arc.theirs();
            let place = match answer {
                Known { fell_back, .. } => usize::from(!fell_back) * 3,
                Refused(number, _) => number as usize - 9,
            };
            if let Some(count) = counts.get(place) {
                count.set(count.get() + 1);
            }
            answer
        });
    }
    let [fallbacks, tens, elevens] = counts.map(Cell::into_inner);
    println!("  arcs  {made:9}, of them {fallbacks} line fallbacks, {tens} refused with 10 and {elevens} with 11");
}

// ---- making a failing input small

impl Input for Line {
    fn simpler(&self) -> Vec<Line> {
        let [[sx, sy], [ex, ey]] = self.ends;
        simpler_lists(&[sx, sy, ex, ey, self.progress])
            .map(|list| Line { ends: [[list[0], list[1]], [list[2], list[3]]], progress: list[4] })
            .collect()
    }
}

impl Input for Arc {
    fn simpler(&self) -> Vec<Arc> {
        let list: Vec<u32> = self.numbers.iter().chain([&self.progress]).copied().collect();
        simpler_lists(&list)
            .map(|list| Arc { numbers: std::array::from_fn(|place| list[place]), progress: list[7], ..self.clone() })
            .collect()
    }
}

// lists in which one float is simpler
fn simpler_lists(list: &[u32]) -> impl Iterator<Item = Vec<u32>> {
    (0..list.len()).flat_map(move |place| {
        simpler_floats(list[place]).filter(move |bits| effort(*bits) < effort(list[place])).map(move |bits| {
            let mut other = list.to_vec();
            other[place] = bits;
            other
        })
    })
}

struct Patterns<'a>(&'a [u32]);

impl fmt::Display for Patterns<'_> {
    fn fmt(&self, f: &mut fmt::Formatter<'_>) -> fmt::Result {
        self.0.iter().try_for_each(|own| write!(f, " {own:08X}"))
    }
}

impl fmt::Display for Line {
    fn fmt(&self, f: &mut fmt::Formatter<'_>) -> fmt::Result {
        write!(f, "line, ends{}{}, progress {:08X}", Patterns(&self.ends[0]), Patterns(&self.ends[1]), self.progress)
    }
}

impl fmt::Display for Lone {
    fn fmt(&self, f: &mut fmt::Formatter<'_>) -> fmt::Result {
        write!(f, "position{}, tangent{}, ", Patterns(&self.position), Patterns(&self.tangent))?;
        write!(f, "rotation {:08X}, raw {:08X}, length {:08X}", self.rotation_deg, self.raw, self.length)
    }
}

impl fmt::Display for Drawn {
    fn fmt(&self, f: &mut fmt::Formatter<'_>) -> fmt::Result {
        match self {
            Drawn::Known(lone) => lone.fmt(f),
            Drawn::Refused(number, carried) => write!(f, "refused {number} with {carried}"),
        }
    }
}

impl fmt::Display for Arc {
    fn fmt(&self, f: &mut fmt::Formatter<'_>) -> fmt::Result {
        write!(f, "arc, start radii rotation end{}, ", Patterns(&self.numbers))?;
        write!(f, "large {}, sweep {}, progress {:08X}", self.large, self.sweep, self.progress)
    }
}

impl fmt::Display for Answer {
    fn fmt(&self, f: &mut fmt::Formatter<'_>) -> fmt::Result {
        match self {
            Known { shape, fell_back, table, lone } => {
                write!(f, "shape{}, fallback {fell_back}, {lone}", Patterns(shape))?;
                table.iter().try_for_each(|table| write!(f, ", table{}", Patterns(table)))
            }
            Refused(number, carried) => write!(f, "refused {number} with {carried}"),
        }
    }
}
