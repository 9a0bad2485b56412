//! The list of lookups, t, that the program replay_curves runs through the proved crates.
//!
//! A block has running lengths and 16 lookups. Its first line has a letter (t: a table by value, e: a table's entries,
//! p: a path), the count of lengths, 32 lengths (zeros past the count) and the total; each further line has a progress,
//! the refusal's number or 0, and two places for what is given. All numbers are patterns of eight hexadecimal digits.

use crate::compare::Report;
use crate::samples::Stream;
use crate::table::{Answer, KINDS, Kind, Lookup, Query, lengths, progress};
use std::rc::Rc;

const LOOKUPS: usize = 16;
const LENGTHS: usize = 32;

// progresses that every block has, before those drawn
const ALWAYS: [f32; 7] = [0.0, 1.0, f32::NAN, -0.0, 2.0, 0.5, 0.99999994];

/// The blocks, with the Rust's answers, and how many there are; the proved library is to give the same.
pub fn list(report: &mut Report, seed: u64) -> (Vec<u8>, u64) {
    let mut stream = Stream::new(seed);
    let mut blocks = String::new();
    let mut count = 0;
    for (query, letter) in [(Query::Curve, 't'), (Query::Spline, 'e'), (Query::Path, 'p')] {
        for (lengths, total) in chosen(query, &mut stream) {
            let lookups = lookups(&lengths, total, &mut stream);
            blocks.push_str(&first_line(letter, &lengths, total));
            for lookup in &lookups {
                blocks.push_str(&line(lookup.progress, query.theirs(lookup)));
            }
            count += lookups.len() as u64;
            let (ours, theirs) = (|lookup: &Lookup| query.ours(lookup), |lookup: &Lookup| query.theirs(lookup));
            report.group("lookups, recorded", lookups.into_iter(), ours, theirs);
        }
    }
    (blocks.into_bytes(), count)
}

// lengths of every kind, and those at which a rule changes
fn chosen(query: Query, stream: &mut Stream) -> Vec<(Vec<f32>, f32)> {
    let mut all: Vec<_> = KINDS.iter().map(|(kind, _)| lengths(*kind, drawn(query, stream), stream)).collect();
    match query {
        // totals at 2^-23, the next below and the next above
        Query::Curve => {
            for bits in [0x3400_0000, 0x33FF_FFFF, 0x3400_0001] {
                let (mut lengths, _) = lengths(Kind::Threshold, LENGTHS, stream);
                let total = f32::from_bits(bits);
                lengths.iter_mut().for_each(|own| *own = own.min(total));
                lengths[LENGTHS - 1] = total;
                all.push((lengths, total));
            }
        }
        // a single 0, and no entry at all
        Query::Spline => all.extend([(vec![0.0], 0.0), (Vec::new(), 0.0)]),
        // no segments
        _ => all.push((Vec::new(), 0.0)),
    }
    all
}

fn drawn(query: Query, stream: &mut Stream) -> usize {
    if query == Query::Curve { LENGTHS } else { 2 + stream.below(LENGTHS as u32 - 1) as usize }
}

fn lookups(lengths: &[f32], total: f32, stream: &mut Stream) -> Vec<Lookup> {
    let own: Rc<[f32]> = lengths.into();
    let drawn = std::iter::repeat_with(|| progress(lengths, total, stream));
    let progresses = ALWAYS.into_iter().map(f32::to_bits).chain(drawn).take(LOOKUPS);
    progresses.map(|progress| Lookup { lengths: own.clone(), total, progress }).collect()
}

fn first_line(letter: char, lengths: &[f32], total: f32) -> String {
    let mut floats = [0.0; LENGTHS];
    floats[..lengths.len()].copy_from_slice(lengths);
    let words: Vec<String> = floats.iter().chain([&total]).map(|float| format!("{:08X}", float.to_bits())).collect();
    format!("t{letter} {:08X} {}\n", lengths.len(), words.join(" "))
}

fn line(progress: u32, answer: Answer) -> String {
    let [number, first, second] = match answer {
        Answer::Raw(bits) => [0, bits, 0],
        Answer::Spot(segment, local) => [0, segment as u32, local],
        Answer::NoSegment => [0; 3],
        Answer::Refused(number) => [number, 0, 0],
    };
    format!("{progress:08X} {number:08X} {first:08X} {second:08X}\n")
}
