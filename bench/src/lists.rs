//! Command lists and texts of any size, the same for both sides, and buffers to build into.

use crate::patterns;
use animato_path::poly::PathCommand;
use std::fmt::Write;

/// A MoveTo and so many segments of some hundred metres each, as each side takes them.
pub struct List {
    pub letters: Vec<u8>,
    pub numbers: Vec<f32>,
    pub commands: Vec<PathCommand>,
}

impl List {
    /// A list of so many segments, whose letters, L, Q, C and A, are these in turn.
    pub fn of(count: usize, turn: &[u8]) -> List {
        let bits: Vec<u32> = patterns().collect();
        let metres = |k: usize| (bits[k % bits.len()] % 1_000_000) as f32 / 1000.0;
        let point = |k: usize| [metres(k), metres(k + 1)];
        let mut list =
            List { letters: vec![b'M'], numbers: point(0).to_vec(), commands: vec![PathCommand::MoveTo(point(0))] };
        for k in 0..count {
            let [control1, control2, end, radii] = [0, 2, 4, 6].map(|more| point(7 * k + more));
            let (large_arc, sweep) = (k % 2 == 0, k % 3 == 0);
            let letter = turn[k % turn.len()];
            let (own, command) = match letter {
                b'L' => (vec![], PathCommand::LineTo(end)),
                b'Q' => (control1.to_vec(), PathCommand::QuadTo { control: control1, end }),
                b'C' => ([control1, control2].concat(), PathCommand::CubicTo { control1, control2, end }),
                _ => {
                    let flags = [large_arc, sweep].map(|flag| f32::from(u8::from(flag)));
                    let arc = PathCommand::ArcTo { radii, x_axis_rotation: 30.0, large_arc, sweep, end };
                    (vec![radii[0], radii[1], 30.0, flags[0], flags[1]], arc)
                }
            };
            list.letters.push(letter);
            list.numbers.extend(own.into_iter().chain(end));
            list.commands.push(command);
        }
        list
    }

    /// As many of its commands as a text of so many bytes holds, each number with at most two decimals.
    pub fn text(&self, bytes: usize) -> Vec<u8> {
        let mut text = String::new();
        let mut numbers = &self.numbers[..];
        for letter in &self.letters {
            let taken = match letter {
                b'M' | b'L' => 2,
                b'Q' => 4,
                b'C' => 6,
                _ => 7,
            };
            let (own, rest) = numbers.split_at(taken);
            numbers = rest;
            let mut command = char::from(*letter).to_string();
            for (k, number) in own.iter().enumerate() {
                let gap = if k == 0 { "" } else { " " };
                write!(command, "{gap}{}", (number * 100.0).round() / 100.0).expect("a string takes text");
            }
            if text.len() + command.len() > bytes {
                break;
            }
            text += &command;
        }
        text.into_bytes()
    }
}

/// The five buffers of a stored path, with room for so many segments of any kind.
pub struct Room {
    kinds: Vec<u8>,
    fields: Vec<f32>,
    tables: Vec<f32>,
    lengths: Vec<f32>,
    commands: Vec<u32>,
}

impl Room {
    pub fn of(segments: usize) -> Room {
        Room {
            kinds: vec![0; segments],
            fields: vec![0.0; 11 * segments],
            tables: vec![0.0; 33 * segments],
            lengths: vec![0.0; segments],
            commands: vec![0; segments],
        }
    }

    /// Builds the list into them: how many fields there are, 0 where it is refused.
    pub fn build(&mut self, list: &List) -> u32 {
        let Room { kinds, fields, tables, lengths, commands } = self;
        let given = kihavute::build(&list.letters, &list.numbers, kinds, fields, tables, lengths, commands);
        given.map_or(0, |counts| counts[1] as u32)
    }

    /// The same for a text.
    pub fn build_text(&mut self, text: &[u8]) -> u32 {
        let Room { kinds, fields, tables, lengths, commands } = self;
        let given = kihavute::build_text(text, kinds, fields, tables, lengths, commands);
        given.map_or(0, |counts| counts[1] as u32)
    }
}
