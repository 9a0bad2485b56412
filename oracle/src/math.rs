//! The helpers of math.rs, and what stands below them, on both sides.

use crate::compare::{Input, Report};
use crate::samples::{KINDS, Kind, SPECIALS, Stream, combinations, draw};
use crate::simple::simpler_floats;
use animato_path::math::open;
use std::fmt;

/// The bit patterns of up to five operands, in the call's order; those past the helper's count are 0.
#[derive(Clone)]
pub struct Operands {
    pub bits: [u32; 5],
    count: usize,
}

/// The bit patterns of a number, or of a point's x and y. A NaN is 7FC00000.
#[derive(Clone, Copy, PartialEq)]
pub enum Answer {
    Number(u32),
    Point([u32; 2]),
}

/// A helper: `within` says where the Rust side is defined.
pub struct Helper {
    pub name: &'static str,
    pub letter: char,
    pub count: usize,
    pub ours: fn(&[f32; 5]) -> Answer,
    pub theirs: fn(&[f32; 5]) -> Answer,
    pub within: fn(&[f32; 5]) -> bool,
}

/// Helpers that are compared alike.
pub struct Family {
    pub helpers: &'static [Helper],
    /// The ways to draw their operands.
    pub kinds: &'static [(Kind, &'static str)],
    /// Operands that are recorded in any case, with the helper's letter.
    pub telling: &'static [(char, [u32; 5])],
    /// How many records each case of each helper has at most.
    pub recorded: usize,
}

use Answer::{Number, Point};

/// The helpers that need no trigonometry, and what stands below them.
pub const FAMILY: Family = Family { helpers: &HELPERS, kinds: &KINDS, telling: &TIES, recorded: 4 };

// each helper with the letter that stands for it in the recorded list.
const HELPERS: [Helper; 17] = [
    Helper {
        name: "sqrt",
        letter: 'r',
        count: 1,
        ours: |v| Number(kihavute::sqrt(v[0]).to_bits()),
        theirs: |v| number(open::sqrt(v[0])),
        within: anywhere,
    },
    Helper {
        name: "tidy",
        letter: 't',
        count: 1,
        ours: |v| Number(kihavute::tidy(v[0]).to_bits()),
        theirs: |v| number(v[0]),
        within: anywhere,
    },
    Helper {
        name: "min",
        letter: 'm',
        count: 2,
        ours: |v| Number(kihavute::min(v[0], v[1])),
        theirs: |v| number(if v[0] == v[1] { v[0] } else { quiet(v[0]).min(quiet(v[1])) }),
        within: anywhere,
    },
    Helper {
        name: "max",
        letter: 'M',
        count: 2,
        ours: |v| Number(kihavute::max(v[0], v[1])),
        theirs: |v| number(if v[0] == v[1] { v[0] } else { quiet(v[0]).max(quiet(v[1])) }),
        within: anywhere,
    },
    Helper {
        name: "clamp",
        letter: 'c',
        count: 3,
        ours: |v| Number(kihavute::clamp(v[0], v[1], v[2])),
        theirs: |v| number(v[0].clamp(v[1], v[2])),
        // the Rust panics elsewhere
        within: |v| v[1] <= v[2],
    },
    Helper {
        name: "clamp01",
        letter: 'C',
        count: 1,
        ours: |v| Number(kihavute::clamp01(v[0])),
        theirs: |v| number(open::clamp01(v[0])),
        within: anywhere,
    },
    Helper {
        name: "lerp",
        letter: 'l',
        count: 3,
        ours: |v| Number(kihavute::lerp(v[0], v[1], v[2])),
        theirs: |v| number(open::lerp(v[0], v[1], v[2])),
        within: anywhere,
    },
    Helper {
        name: "deg_to_rad",
        letter: 'd',
        count: 1,
        ours: |v| Number(kihavute::deg_to_rad(v[0])),
        theirs: |v| number(open::deg_to_rad(v[0])),
        within: anywhere,
    },
    Helper {
        name: "rad_to_deg",
        letter: 'D',
        count: 1,
        ours: |v| Number(kihavute::rad_to_deg(v[0])),
        theirs: |v| number(open::rad_to_deg(v[0])),
        within: anywhere,
    },
    Helper {
        name: "add",
        letter: 'a',
        count: 4,
        ours: |v| Point(kihavute::add([v[0], v[1]], [v[2], v[3]])),
        theirs: |v| point(open::add([v[0], v[1]], [v[2], v[3]])),
        within: anywhere,
    },
    Helper {
        name: "sub",
        letter: 's',
        count: 4,
        ours: |v| Point(kihavute::sub([v[0], v[1]], [v[2], v[3]])),
        theirs: |v| point(open::sub([v[0], v[1]], [v[2], v[3]])),
        within: anywhere,
    },
    Helper {
        name: "scale",
        letter: 'k',
        count: 3,
        ours: |v| Point(kihavute::scale([v[0], v[1]], v[2])),
        theirs: |v| point(open::scale([v[0], v[1]], v[2])),
        within: anywhere,
    },
    Helper {
        name: "dot",
        letter: 'p',
        count: 4,
        ours: |v| Number(kihavute::dot([v[0], v[1]], [v[2], v[3]])),
        theirs: |v| number(open::dot([v[0], v[1]], [v[2], v[3]])),
        within: anywhere,
    },
    Helper {
        name: "length",
        letter: 'n',
        count: 2,
        ours: |v| Number(kihavute::length([v[0], v[1]])),
        theirs: |v| number(open::length([v[0], v[1]])),
        within: anywhere,
    },
    Helper {
        name: "distance",
        letter: 'w',
        count: 4,
        ours: |v| Number(kihavute::distance([v[0], v[1]], [v[2], v[3]])),
        theirs: |v| number(open::distance([v[0], v[1]], [v[2], v[3]])),
        within: anywhere,
    },
    Helper {
        name: "normalize",
        letter: 'u',
        count: 2,
        ours: |v| Point(kihavute::normalize([v[0], v[1]])),
        theirs: |v| point(open::normalize([v[0], v[1]])),
        within: anywhere,
    },
    Helper {
        name: "lerp_point",
        letter: 'L',
        count: 5,
        ours: |v| Point(kihavute::lerp_point([v[0], v[1]], [v[2], v[3]], v[4])),
        theirs: |v| point(open::lerp_point([v[0], v[1]], [v[2], v[3]], v[4])),
        within: anywhere,
    },
];

// exact results halfway between two floats, below and above the even one; roots that lie nearest to halfway; and lengths: with a
// square beyond f32, of one smallest step both ways, on a middle to either side, with an f64 root on a middle above and below which
// the exact length lies, and beyond the largest
const TIES: [(char, [u32; 5]); 27] = [
    ('r', [0x3F7F_FFFF, 0, 0, 0, 0]),
    ('r', [0x3F80_0001, 0, 0, 0, 0]),
    ('r', [0x3F80_0003, 0, 0, 0, 0]),
    ('r', [0x407F_FFFF, 0, 0, 0, 0]),
    ('r', [0x4000_0001, 0, 0, 0, 0]),
    ('a', [0x4B80_0000, 0x4B80_0001, 0x3F80_0000, 0x3F80_0000, 0]),
    ('a', [0xCB80_0000, 0xCB80_0001, 0xBF80_0000, 0xBF80_0000, 0]),
    ('s', [0x4B80_0000, 0x4B80_0001, 0xBF80_0000, 0xBF80_0000, 0]),
    ('s', [0x4B80_0000, 0x4B80_0000, 0x3F00_0000, 0x3F80_0000, 0]),
    ('k', [0x4B00_0001, 0x4B00_0003, 0x3FC0_0000, 0, 0]),
    ('k', [0x0000_0001, 0x0000_0003, 0x3F00_0000, 0, 0]),
    ('k', [0x8000_0001, 0x8000_0003, 0x3F00_0000, 0, 0]),
    ('p', [0x4B80_0000, 0x3F80_0000, 0x3F80_0000, 0x3F80_0000, 0]),
    ('p', [0x4B80_0001, 0x3F80_0000, 0x3F80_0000, 0x3F80_0000, 0]),
    ('l', [0x4B80_0000, 0x4B80_0001, 0x3F00_0000, 0, 0]),
    ('l', [0x4B80_0001, 0x4B80_0002, 0x3F00_0000, 0, 0]),
    ('L', [0x4B80_0000, 0x4B80_0001, 0x4B80_0001, 0x4B80_0002, 0x3F00_0000]),
    ('n', [0x4580_0000, 0x3F80_0000, 0, 0, 0]),
    ('n', [0x5F8A_C723, 0, 0, 0, 0]),
    ('n', [0x0000_0001, 0x0000_0001, 0, 0, 0]),
    ('n', [0x4B7F_FFFF, 0x4600_0000, 0, 0, 0]),
    ('n', [0x4B7F_FF0F, 0x48CF_DC80, 0, 0, 0]),
    ('n', [0x4B32_FBFA, 0x4556_0E57, 0, 0, 0]),
    ('n', [0x4B29_5A85, 0x4550_37AD, 0, 0, 0]),
    ('n', [0x7F61_B1E6, 0x7F61_B1E6, 0, 0, 0]),
    ('w', [0x3F80_0000, 0x3F80_0000, 0x4580_0800, 0x4000_0000, 0]),
    ('u', [0x4580_0000, 0x3F80_0000, 0, 0, 0]),
];

pub fn anywhere(_: &[f32; 5]) -> bool {
    true
}

/// The Rust's answer as bits, its NaNs all alike.
pub fn number(x: f32) -> Answer {
    Number(alike(x))
}

pub fn point(v: [f32; 2]) -> Answer {
    Point(v.map(alike))
}

/// The bits of a float, NaNs all alike.
pub fn alike(x: f32) -> u32 {
    if x.is_nan() { 0x7FC0_0000 } else { x.to_bits() }
}

// The same number, and the quiet NaN for any NaN: aarch64's minimum of a signalling NaN is a NaN, where that of
// x86-64, and the words of the standard library, give the other operand.
fn quiet(x: f32) -> f32 {
    if x.is_nan() { f32::NAN } else { x }
}

impl Helper {
    /// The call's operands, or nothing where the Rust side is not defined.
    pub fn operands(&self, bits: [u32; 5]) -> Option<Operands> {
        let mut own = [0; 5];
        own[..self.count].copy_from_slice(&bits[..self.count]);
        let operands = Operands { bits: own, count: self.count };
        (self.within)(&operands.floats()).then_some(operands)
    }

    /// The specials in every combination.
    pub fn specials(&self) -> impl Iterator<Item = Operands> {
        let values = if self.count > 4 { &SPECIALS[..16] } else { &SPECIALS[..] };
        combinations(values, self.count).filter_map(|bits| self.operands(bits))
    }
}

impl Operands {
    pub fn floats(&self) -> [f32; 5] {
        self.bits.map(f32::from_bits)
    }
}

/// Compares these helpers: the specials, and this many calls of each kind of operands.
pub fn compare(report: &mut Report, family: &Family, seed: u64, calls: u32) {
    println!("{} helpers, seed {seed}, {calls} calls of each kind", family.helpers.len());
    for (number, helper) in family.helpers.iter().enumerate() {
        let ours = |operands: &Operands| (helper.ours)(&operands.floats());
        let theirs = |operands: &Operands| (helper.theirs)(&operands.floats());
        let mut made = report.group(&format!("{}, specials", helper.name), helper.specials(), ours, theirs);
        for (kind, title) in family.kinds {
            let mut stream = Stream::new(seed ^ (number as u64) << 8 ^ *kind as u64);
            let inputs = (0..calls).filter_map(|_| helper.operands(draw(*kind, &mut stream)));
            made += report.group(&format!("{}, {title}", helper.name), inputs, ours, theirs);
        }
        println!("  {:13} {made:9} calls", helper.name);
    }
}

// ---- making a failing input small

impl Input for Operands {
    fn simpler(&self) -> Vec<Operands> {
        let mut found = Vec::new();
        for place in 0..self.count {
            for bits in simpler_floats(self.bits[place]) {
                let mut other = self.clone();
                other.bits[place] = bits;
                found.push(other);
            }
        }
        found
    }
}

impl fmt::Display for Operands {
    fn fmt(&self, f: &mut fmt::Formatter<'_>) -> fmt::Result {
        for (place, bits) in self.bits[..self.count].iter().enumerate() {
            let comma = if place == 0 { "(" } else { ", " };
            write!(f, "{comma}{bits:08X} = {:e}", f32::from_bits(*bits))?;
        }
        write!(f, ")")
    }
}

impl fmt::Display for Answer {
    fn fmt(&self, f: &mut fmt::Formatter<'_>) -> fmt::Result {
        match self {
            Number(bits) => write!(f, "{bits:08X}"),
            Point([x, y]) => write!(f, "{x:08X} {y:08X}"),
        }
    }
}
