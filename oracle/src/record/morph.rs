//! The list of shapes, m and d, that the program replay_curves runs through the proved crates.
//!
//! A line has a letter (r: resample, m: a morph with a resolution, e: evaluate, b: bounds) and patterns of eight
//! hexadecimal digits: the counts of the two lists' numbers, the count, the progress, the lists (16 numbers each, zeros
//! past the count), the refusal's number or 0, four values, and the 16 places of each output afterwards, which both have
//! 16 places. The last lines are morphs with the default: the letter d, the counts, the lists (258 numbers each), the
//! refusal's number or 0, two values, and the 258 places of each output.

use crate::compare::Report;
use crate::morph::{Answer, Asked, KINDS, Kind, Query, draw, numbers};
use crate::samples::Stream;
use std::fmt::Write;

const PLACES: usize = 16;
const EACH: usize = 10;

const LETTERS: [(Query, char); 4] =
    [(Query::Resample, 'r'), (Query::Morph, 'm'), (Query::Evaluate, 'e'), (Query::Bounds, 'b')];

// the places of a default's outputs, and the points of its shapes: on both sides of 128, few and none
const WIDE: usize = 258;
const POINTS: [[usize; 2]; 16] = [
    [127, 4],
    [128, 4],
    [129, 4],
    [4, 127],
    [4, 128],
    [4, 129],
    [127, 128],
    [129, 128],
    [127, 129],
    [129, 129],
    [4, 4],
    [7, 3],
    [1, 1],
    [1, 129],
    [0, 129],
    [0, 0],
];

/// The lines, with the Rust's answers, and how many there are; the proved library is to give the same.
pub fn list(report: &mut Report, seed: u64) -> (Vec<u8>, u64) {
    let mut stream = Stream::new(seed);
    let mut lines = String::new();
    let mut count = 0;
    for (query, letter) in LETTERS {
        for (kind, _) in KINDS {
            let calls: Vec<Asked> = (0..EACH)
                .map(|_| {
                    let call = draw(query, kind, Some(7), &mut stream);
                    // counts about what the outputs hold, and now and then one that is refused
                    let count = [call.count, call.count, 8, 9, 4097][stream.below(5) as usize];
                    Asked { rooms: [PLACES; 2], count, ..call }
                })
                .collect();
            for call in &calls {
                lines.push_str(&line(letter, call, &call.theirs()));
            }
            count += calls.len() as u64;
            report.group("shapes, recorded", calls.into_iter(), Asked::ours, Asked::theirs);
        }
    }
    let defaults = POINTS.map(|points| by_default(points, &mut stream));
    for call in &defaults {
        lines.push_str(&wide_line(call, &call.theirs()));
    }
    count += defaults.len() as u64;
    report.group("defaults, recorded", defaults.into_iter(), Asked::ours, Asked::theirs);
    (lines.into_bytes(), count)
}

fn by_default(points: [usize; 2], stream: &mut Stream) -> Asked {
    let [from, to] = points.map(|points| {
        let mut list = numbers(Kind::Planned, points, stream);
        list.truncate(2 * points);
        list.into()
    });
    Asked { query: Query::MorphDefault, from, to, count: 0, progress: 0, rooms: [WIDE; 2] }
}

fn padded(list: &[u32], places: usize) -> impl Iterator<Item = u32> + '_ {
    list.iter().copied().chain(std::iter::repeat(0)).take(places)
}

fn line(letter: char, call: &Asked, answer: &Answer) -> String {
    let mut all = vec![call.from.len() as u32, call.to.len() as u32, call.count as u32, call.progress];
    all.extend(padded(&call.from, PLACES).chain(padded(&call.to, PLACES)));
    all.push(answer.number);
    all.extend(answer.values.map(|value| value as u32));
    all.extend(answer.outputs.iter().flatten());
    written('m', letter, &all)
}

fn wide_line(call: &Asked, answer: &Answer) -> String {
    let mut all = vec![call.from.len() as u32, call.to.len() as u32];
    all.extend(padded(&call.from, WIDE).chain(padded(&call.to, WIDE)));
    all.extend([answer.number, answer.values[0] as u32, answer.values[1] as u32]);
    all.extend(answer.outputs.iter().flatten());
    written('d', 'd', &all)
}

fn written(kind: char, letter: char, all: &[u32]) -> String {
    let mut line = String::from_iter([kind, letter]);
    all.iter().for_each(|bits| write!(line, " {bits:08X}").expect("a string takes it"));
    line.push('\n');
    line
}
