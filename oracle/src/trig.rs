//! Sine, cosine and atan2, which are the proved library's own on both sides, and the angles of math.rs above them. The
//! three are held to each other: one call for both to the two, and atan2 to itself in the other half plane.

use crate::math::{Answer, Family, Helper, anywhere, number};
use crate::samples::Kind;
use animato_path::math::open;

use Answer::{Number, Point};

/// The six functions.
pub const FAMILY: Family = Family {
    helpers: &HELPERS,
    kinds: &[
        (Kind::Angle, "angles"),
        (Kind::AnyBits, "any bits"),
        (Kind::Subnormal, "subnormals"),
        (Kind::Close, "close together"),
        (Kind::Planned, "as planned"),
        (Kind::Edge, "at the edges"),
    ],
    telling: &TELLING,
    recorded: 12,
};

// quarter turns, the ends of the reach, and pairs on the axes
const TELLING: [(char, [u32; 5]); 24] = [
    ('s', [0x3FC9_0FDB, 0, 0, 0, 0]),
    ('s', [0x4049_0FDB, 0, 0, 0, 0]),
    ('s', [0x40C9_0FDB, 0, 0, 0, 0]),
    ('s', [0x4280_0000, 0, 0, 0, 0]),
    ('s', [0xC280_0000, 0, 0, 0, 0]),
    ('s', [0x4280_0001, 0, 0, 0, 0]),
    ('c', [0x3FC9_0FDB, 0, 0, 0, 0]),
    ('c', [0x4049_0FDB, 0, 0, 0, 0]),
    ('c', [0x40C9_0FDB, 0, 0, 0, 0]),
    ('c', [0x4280_0000, 0, 0, 0, 0]),
    ('c', [0xC280_0001, 0, 0, 0, 0]),
    ('p', [0x4280_0000, 0, 0, 0, 0]),
    ('p', [0x4280_0001, 0, 0, 0, 0]),
    ('a', [0x0000_0000, 0xBF80_0000, 0, 0, 0]),
    ('a', [0x8000_0000, 0xBF80_0000, 0, 0, 0]),
    ('a', [0x8000_0000, 0x3F80_0000, 0, 0, 0]),
    ('a', [0x3F80_0000, 0x0000_0000, 0, 0, 0]),
    ('a', [0x0000_0001, 0xFF7F_FFFF, 0, 0, 0]),
    ('a', [0x7F7F_FFFF, 0x0000_0001, 0, 0, 0]),
    ('h', [0x0000_0000, 0x8000_0000, 0, 0, 0]),
    ('h', [0xBF80_0000, 0x8000_0000, 0, 0, 0]),
    ('b', [0x3F80_0000, 0, 0xBF80_0000, 0, 0]),
    ('b', [0x3F80_0000, 0, 0, 0xBF80_0000, 0]),
    ('b', [0, 0, 0x3F80_0000, 0, 0]),
];

// each function with the letter that stands for it in the recorded list
const HELPERS: [Helper; 6] = [
    Helper {
        name: "sin",
        letter: 's',
        count: 1,
        ours: |v| Number(kihavute::sin(v[0]).to_bits()),
        theirs: |v| Number(kihavute::sin_cos(v[0])[1]),
        within: anywhere,
    },
    Helper {
        name: "cos",
        letter: 'c',
        count: 1,
        ours: |v| Number(kihavute::cos(v[0]).to_bits()),
        theirs: |v| Number(kihavute::sin_cos(v[0])[0]),
        within: anywhere,
    },
    Helper {
        name: "sin_cos",
        letter: 'p',
        count: 1,
        ours: |v| Point(kihavute::sin_cos(v[0])),
        theirs: |v| Point([kihavute::cos(v[0]).to_bits(), kihavute::sin(v[0]).to_bits()]),
        within: anywhere,
    },
    Helper {
        name: "atan2",
        letter: 'a',
        count: 2,
        ours: |v| Number(kihavute::atan2(v[0], v[1]).to_bits()),
        theirs: |v| number(-kihavute::atan2(-v[0], v[1])),
        // of two zeros the angle is +0, whatever their signs
        within: |v| v[0] != 0.0 || v[1] != 0.0,
    },
    Helper {
        name: "rotation_deg",
        letter: 'h',
        count: 2,
        ours: |v| Number(kihavute::rotation_deg([v[0], v[1]])),
        theirs: |v| number(open::rotation_deg([v[0], v[1]])),
        within: anywhere,
    },
    Helper {
        name: "angle_between",
        letter: 'b',
        count: 4,
        ours: |v| Number(kihavute::angle_between([v[0], v[1]], [v[2], v[3]])),
        theirs: |v| number(open::angle_between([v[0], v[1]], [v[2], v[3]])),
        within: anywhere,
    },
];
