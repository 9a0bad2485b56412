//! Quads and cubics on both sides: a curve is made of its points and asked at a progress.

use crate::compare::{Input, Report};
use crate::math::alike;
use crate::samples::{self, SPECIALS, Stream};
use crate::simple::{effort, simpler_floats};
use crate::table;
use animato_path::bezier::{CubicBezierCurve, PathEvaluate, QuadBezier};
use std::cell::Cell;
use std::fmt;

/// Which curve is made.
#[derive(Clone, Copy, PartialEq)]
pub enum Curve {
    Quad,
    Cubic,
}

pub const CURVES: [(Curve, &str); 2] = [(Curve::Quad, "quads"), (Curve::Cubic, "cubics")];

/// The patterns of the points' coordinates, of which a quad has three, and of a progress.
#[derive(Clone)]
pub struct Asked {
    pub curve: Curve,
    pub points: [[u32; 2]; 4],
    pub progress: u32,
}

/// All that a curve answers at a progress, as bits, and its table, entries and total; or the number of a refusal, and what
/// it carries.
#[derive(Clone, Copy, PartialEq)]
pub enum Answer {
    Known { position: [u32; 2], tangent: [u32; 2], rotation_deg: u32, raw: u32, length: u32, table: [u32; 33] },
    Refused(u32, u64),
}

use Answer::{Known, Refused};

impl Asked {
    fn three(&self) -> [[f32; 2]; 3] {
        let [start, control, end, _] = self.points.map(|point| point.map(f32::from_bits));
        [start, control, end]
    }

    fn four(&self) -> [[f32; 2]; 4] {
        self.points.map(|point| point.map(f32::from_bits))
    }

    pub fn ours(&self) -> Answer {
        self.ours_or_refusal().unwrap_or_else(|refusal| Refused(refusal.number(), refusal.carried()[0]))
    }

    fn ours_or_refusal(&self) -> Result<Answer, kihavute::Refusal> {
        let t = kihavute::Progress(f32::from_bits(self.progress));
        Ok(match self.curve {
            Curve::Quad => known(kihavute::quad(&self.three(), t)?, kihavute::quad_table(&self.three())?),
            Curve::Cubic => known(kihavute::cubic(&self.four(), t)?, kihavute::cubic_table(&self.four())?),
        })
    }

    /// The Rust's answer where the length is finite; elsewhere the Rust goes on, and document 01 refuses segment 0.
    pub fn theirs(&self) -> Answer {
        match self.curve {
            Curve::Quad => {
                let [start, control, end] = self.three();
                let curve = QuadBezier::new(start, control, end);
                answer(&curve, curve.open_table(), |t| curve.open_raw_t(t), self.progress)
            }
            Curve::Cubic => {
                let [start, control1, control2, end] = self.four();
                let curve = CubicBezierCurve::new(start, control1, control2, end);
                answer(&curve, curve.open_table(), |t| curve.open_raw_t(t), self.progress)
            }
        }
    }

    /// The running lengths of the Rust, and their total.
    pub fn table(&self) -> ([f32; 32], f32) {
        match self.curve {
            Curve::Quad => {
                let [start, control, end] = self.three();
                QuadBezier::new(start, control, end).open_table()
            }
            Curve::Cubic => {
                let [start, control1, control2, end] = self.four();
                CubicBezierCurve::new(start, control1, control2, end).open_table()
            }
        }
    }
}

// the heading is that of the tangent that was answered
fn known(lone: kihavute::Lone, table: [u32; 33]) -> Answer {
    let kihavute::Lone { position, tangent, raw, length } = lone;
    let rotation_deg = kihavute::rotation_deg(tangent.map(f32::from_bits));
    Known { position, tangent, rotation_deg, raw: raw.value().to_bits(), length, table }
}

fn answer(curve: &impl PathEvaluate, (entries, total): ([f32; 32], f32), raw: impl Fn(f32) -> f32, progress: u32) -> Answer {
    let t = f32::from_bits(progress);
    if !curve.arc_length().is_finite() {
        return Refused(11, 0);
    }
    Known {
        position: curve.position(t).map(alike),
        tangent: curve.tangent(t).map(alike),
        rotation_deg: alike(curve.rotation_deg(t)),
        raw: alike(raw(t)),
        length: alike(curve.arc_length()),
        table: stored(&entries, total),
    }
}

/// A table's entries, then its total, as bits.
pub fn stored(entries: &[f32; 32], total: f32) -> [u32; 33] {
    std::array::from_fn(|place| alike(*entries.get(place).unwrap_or(&total)))
}

// ---- points

/// A way to draw points.
#[derive(Clone, Copy)]
pub enum Kind {
    Planned,
    OneSize,
    Straight,
    Coincident,
    Cusps,
    Threshold,
    Subnormal,
    Huge,
    Edge,
    AnyBits,
}

pub const KINDS: [(Kind, &str); 10] = [
    (Kind::Planned, "as planned"),
    (Kind::OneSize, "of one size"),
    (Kind::Straight, "straight"),
    (Kind::Coincident, "coincident points"),
    (Kind::Cusps, "cusps"),
    (Kind::Threshold, "lengths about 2^-23"),
    (Kind::Subnormal, "subnormal"),
    (Kind::Huge, "huge"),
    (Kind::Edge, "at the edges"),
    (Kind::AnyBits, "any bits"),
];

/// A float with an exponent field from least on, of either sign.
pub fn sized(stream: &mut Stream, least: u32, count: u32) -> f32 {
    let exponent = least + stream.below(count);
    f32::from_bits(stream.bits() & 0x807F_FFFF | exponent << 23)
}

/// A coordinate in metres with three digits after the point, up to some 16 km.
pub fn metres(stream: &mut Stream) -> f32 {
    (stream.below(1 << 25) as f32 - 16_777_216.0) / 1000.0
}

/// The points of a curve.
pub fn points(kind: Kind, stream: &mut Stream) -> [[f32; 2]; 4] {
    let base = 20 + stream.below(170);
    let mut each = |coordinate: &mut dyn FnMut(&mut Stream) -> f32| -> [[f32; 2]; 4] {
        std::array::from_fn(|_| std::array::from_fn(|_| coordinate(stream)))
    };
    match kind {
        Kind::Planned => each(&mut metres),
        Kind::OneSize => each(&mut |stream| sized(stream, base, 3)),
        // whole steps along one direction, forwards and back
        Kind::Straight => {
            let [start, step] = [[metres(stream), metres(stream)], [metres(stream), metres(stream)]];
            let step = [step, [step[0], 0.0], [0.0, step[1]]][stream.below(3) as usize];
            std::array::from_fn(|_| {
                let count = stream.below(17) as f32 - 8.0;
                [start[0] + count * step[0], start[1] + count * step[1]]
            })
        }
        // each point is one of the first few
        Kind::Coincident => {
            let few = each(&mut metres);
            let distinct = 1 + stream.below(3);
            std::array::from_fn(|_| few[stream.below(distinct) as usize])
        }
        // the corners of a rectangle in an order that crosses, or a turn back, moved and scaled
        Kind::Cusps => {
            let scale = sized(stream, 110, 30);
            let [dx, dy] = if stream.below(2) == 0 { [0.0, 0.0] } else { [metres(stream), metres(stream)] };
            let shapes = [
                [[0.0, 0.0], [1.0, 1.0], [0.0, 1.0], [1.0, 0.0]],
                [[0.0, 0.0], [1.0, 0.0], [0.0, 0.0], [1.0, 0.0]],
                [[0.0, 0.0], [2.0, 0.0], [1.0, 0.0], [-1.0, 0.0]],
                [[-1.0, 0.0], [1.0, 2.0], [-1.0, 2.0], [1.0, 0.0]],
                [[0.0, 0.0], [0.0, 0.0], [1.0, 1.0], [1.0, 1.0]],
            ];
            shapes[stream.below(5) as usize].map(|[x, y]| [x * scale + dx, y * scale + dy])
        }
        Kind::Threshold => each(&mut |stream| sized(stream, 100, 6)),
        Kind::Subnormal => each(&mut |stream| sized(stream, 0, 2)),
        Kind::Huge => each(&mut |stream| sized(stream, 180, 12)),
        Kind::Edge => {
            let few = each(&mut metres);
            few.map(|point| {
                point.map(|x| match stream.below(4) {
                    0 => f32::from_bits(SPECIALS[stream.below(SPECIALS.len() as u32) as usize]),
                    1 => f32::from_bits(samples::draw::<1>(samples::Kind::Edge, stream)[0]),
                    _ => x,
                })
            })
        }
        Kind::AnyBits => each(&mut |stream| f32::from_bits(stream.bits())),
    }
}

// how many progresses each drawn curve is asked for
const ASKED: u32 = 4;

/// Compares both curves with points of every kind: this many progresses of each pair.
pub fn compare(report: &mut Report, seed: u64, progresses: u32) {
    println!("curves: {} kinds, seed {seed}, {progresses} progresses of each", KINDS.len());
    for (curve, title) in CURVES {
        let mut made = 0;
        let refused = Cell::new(0u64);
        for (kind, kind_title) in KINDS {
            let mut stream = Stream::new(seed ^ (curve as u64) << 16 ^ (kind as u64) << 8 ^ 2);
            let inputs = (0..progresses / ASKED).flat_map(|_| {
                let points = points(kind, &mut stream).map(|point| point.map(f32::to_bits));
                let asked = Asked { curve, points, progress: 0 };
                let (lengths, total) = asked.table();
                let all: [u32; ASKED as usize] = std::array::from_fn(|_| table::progress(&lengths, total, &mut stream));
                all.map(|progress| Asked { progress, ..asked.clone() })
            });
            made += report.group(&format!("{title}, {kind_title}"), inputs, Asked::ours, |asked| {
                let answer = asked.theirs();
                refused.set(refused.get() + u64::from(matches!(answer, Refused(..))));
                answer
            });
        }
        println!("  {title:20} {made:9} progresses, {} of them on curves that are refused", refused.get());
    }
}

// ---- making a failing input small

impl Asked {
    fn effort(&self) -> u64 {
        self.points.iter().flatten().chain([&self.progress]).map(|bits| u64::from(effort(*bits))).sum()
    }
}

impl Input for Asked {
    fn simpler(&self) -> Vec<Asked> {
        let mut found: Vec<Asked> =
            simpler_floats(self.progress).map(|progress| Asked { progress, ..self.clone() }).collect();
        for place in 0..8 {
            for bits in simpler_floats(self.points[place / 2][place % 2]) {
                let mut one = self.clone();
                one.points[place / 2][place % 2] = bits;
                found.push(one);
            }
        }
        let effort = self.effort();
        found.retain(|other| other.effort() < effort);
        found
    }
}

impl fmt::Display for Asked {
    fn fmt(&self, f: &mut fmt::Formatter<'_>) -> fmt::Result {
        let used = if self.curve == Curve::Quad { 3 } else { 4 };
        write!(f, "progress {:08X} = {:e}, points", self.progress, f32::from_bits(self.progress))?;
        for [x, y] in &self.points[..used] {
            write!(f, " ({x:08X} {y:08X} = {:e} {:e})", f32::from_bits(*x), f32::from_bits(*y))?;
        }
        Ok(())
    }
}

impl fmt::Display for Answer {
    fn fmt(&self, f: &mut fmt::Formatter<'_>) -> fmt::Result {
        match self {
            Known { position: [x, y], tangent: [u, v], rotation_deg, raw, length, table } => {
                write!(f, "position {x:08X} {y:08X}, tangent {u:08X} {v:08X}, rotation {rotation_deg:08X}, ")?;
                write!(f, "raw {raw:08X}, length {length:08X}, table")?;
                table.iter().try_for_each(|own| write!(f, " {own:08X}"))
            }
            Refused(number, carried) => write!(f, "refused {number} with {carried}"),
        }
    }
}
