//! Rotations in full turns. The library takes full turns off a rotation beyond 360 degrees and the Rust does not, so beyond that the
//! Rust is handed the rest; what a path stores is the rotation as it was given.

use crate::samples::{SPECIALS, Stream};
use animato_path::poly::{CompoundPath, PathCommand};

/// What is left of full turns, by the Rust's own remainder, which is exact. Up to 360 a rotation stays, and infinity and NaN do.
pub fn rest(rotation: f32) -> f32 {
    if rotation.is_finite() && rotation.abs() > 360.0 { rotation % 360.0 } else { rotation }
}

/// The Rust's path of a command list, each rotation without its full turns.
pub fn path(commands: &[PathCommand]) -> CompoundPath {
    let mut lessened = commands.to_vec();
    for command in &mut lessened {
        if let PathCommand::ArcTo { x_axis_rotation, .. } = command {
            *x_axis_rotation = rest(*x_axis_rotation);
        }
    }
    CompoundPath::from_commands(&lessened)
}

/// The rotations of the arcs that a list draws, as they are given. One without a current point draws nothing.
pub fn given(commands: &[PathCommand]) -> impl Iterator<Item = f32> {
    let first = commands.iter().position(|command| !matches!(command, PathCommand::ClosePath)).unwrap_or(0);
    commands.iter().enumerate().filter_map(move |(place, command)| match command {
        PathCommand::ArcTo { x_axis_rotation, .. } if place > first => Some(*x_axis_rotation),
        _ => None,
    })
}

/// Rotations at which the rule changes: about 360 and its multiples, sums of headings to 100,000, every exponent up to the largest
/// f32, whole eighths of a turn, infinity and NaN.
pub fn any(stream: &mut Stream) -> f32 {
    let sign = stream.below(2) << 31;
    let size = match stream.below(6) {
        0 | 1 => {
            let turns = if stream.below(2) == 0 { 1 + stream.below(12) } else { 1 + stream.below(1 << 20) };
            (360.0 * turns as f32).to_bits() + stream.below(5) - 2
        }
        2 => (stream.below(100_000_001) as f32 / 1000.0).to_bits(),
        3 => (135 + stream.below(120)) << 23 | stream.below(1 << 23),
        4 => (45.0 * stream.below(2223) as f32).to_bits(),
        _ => SPECIALS[stream.below(SPECIALS.len() as u32) as usize] & 0x7FFF_FFFF,
    };
    f32::from_bits(sign | size)
}
