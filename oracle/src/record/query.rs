//! The list of recorded queries, q, that the program replay_paths runs through the proved crates.
//!
//! A block is a path and six progresses. Its first line has the text's length as two digits, and the text and blanks up to 90
//! bytes; each further line has a progress, the segment there, or FFFFFFFF where the path has none, its raw parameter, the
//! position, the tangent and the heading, each as eight hexadecimal digits without blanks.

use super::bezier::patterns;
use super::path;
use crate::build::Due;
use crate::compare::Report;
use crate::query::{Answer, Asked, Flight};
use crate::samples::Stream;
use crate::smooth;
use crate::turns;
use animato_path::poly::PathCommand;

// the longest text that a block holds, and the places of the program's buffers: 8 segments of any kind
const LONGEST: usize = 90;
const ROOM: [usize; 5] = [8, 88, 264, 8, 8];

const PATHS: usize = 100;

// paths with a segment of a kind, beside those that tell
const EACH: usize = 12;

// what document 01 decides, and where a mistake would show: no segment, a total of at most 2^-23 and the next above it, lengths
// that meet, pieces of length 0 at the start, between and at the end, tables that are short, and each kind
const TELLING: [&str; 31] = [
    "",
    "M1 2",
    "ZL1 2",
    "M1 1L1 1",
    "M1 1Z",
    "M0 0L1e-8 0L1e-8 1e-8",
    "M0 0L1.1920929e-7 0",
    "M0 0L1.1920930e-7 0",
    "M0 0Q1e-8 0 0 1e-8",
    "M0 0L3 4",
    "M0 0L1 0L2 0L3 0L4 0",
    "M0 0L1 0L2 0L4 0L8 0L16 0",
    "M0 0L0 0L3 4",
    "M0 0L3 4L3 4L6 8",
    "M0 0L3 4L3 4",
    "M0 0L3 4Z",
    "M0 0L1e19 0",
    "M0 0L1e-30 0L1 0",
    "M0 0H400A20 20 0 0 1 400 40H0",
    "M0 0Q1 2 3 4",
    "M0 0Q0 0 0 0L1 0",
    "M0 0Q5 0 0 0",
    "M0 0C1 2 3 4 5 6",
    "M0 0C0 0 0 0 5 0",
    "M0 0c1e-8 0 0 1e-8 1e-8 1e-8l1 0",
    "M0 0A1 1 0 0 0 3 4",
    "M0 0A9 1 45 1 0 3 4L5 5",
    "M0 0A0 1 0 0 0 3 4",
    "M0 0A5 5 0 0 1 5 5A0 5 0 0 1 9 9Z",
    "M0 0L3 4Q6 4 6 8C6 12 9 12 9 8A2 2 0 0 1 13 8A0 1 0 0 1 14 8",
    "M0 0C0 5 5 5 5 0S10-5 10 0s5 5 5 0T20 0t5 0T30 5",
];

// a NaN and what is out of range, in turn
const BEYOND: [f32; 6] = [f32::NAN, -1.0, 2.0, f32::INFINITY, f32::NEG_INFINITY, -0.0];

/// The blocks, and how many answers they have.
pub fn list(report: &mut Report, seed: u64) -> (Vec<u8>, u64) {
    let mut stream = Stream::new(seed);
    let (mut blocks, mut count) = (String::new(), 0);
    for (number, text) in chosen(&mut stream).into_iter().enumerate() {
        let commands = smooth::try_parse(&text).expect("the text is read");
        let progresses = progresses(&mut stream, &commands, BEYOND[number % BEYOND.len()]);
        let asked = Asked { commands, progresses };
        blocks.push_str(&format!("q{:02}{text:90}\n", text.len()));
        blocks.push_str(&lines(&asked));
        count += asked.progresses.len() as u64;
        report.group("queries, recorded", std::iter::once(asked), Asked::ours, Asked::theirs);
    }
    (blocks.into_bytes(), count)
}

fn lines(asked: &Asked) -> String {
    let Answer::Flown(places) = asked.theirs() else { panic!("the path is built") };
    let line = |(progress, (segment, numbers)): (&f32, &Flight)| {
        let segment = segment.map_or(u32::MAX, |(number, _)| number as u32);
        patterns([progress.to_bits(), segment].into_iter().chain(*numbers)) + "\n"
    };
    asked.progresses.iter().zip(&places).map(line).collect()
}

// the ends, one beyond them, one whose target meets a running length, where there is such a one, its neighbour above, and any
fn progresses(stream: &mut Stream, commands: &[PathCommand], beyond: f32) -> Vec<f32> {
    let path = turns::path(commands);
    let (lengths, total) = path.open_lengths();
    let near =
        |length: f32| (-4..=4).map(move |more| f32::from_bits((length / total).to_bits().wrapping_add_signed(more)));
    let meeting = lengths.iter().flat_map(|length| near(*length).filter(move |t| total * t == *length && *t < 1.0));
    let met: Vec<f32> = meeting.collect();
    let meets = if met.is_empty() { 0.5 } else { met[stream.below(met.len() as u32) as usize] };
    let any = stream.below(1 << 24) as f32 / 16_777_216.0;
    vec![0.0, 1.0, beyond, meets, f32::from_bits(meets.to_bits() + 1), any]
}

// the telling texts, then texts with each kind of segment, then others; each builds
fn chosen(stream: &mut Stream) -> Vec<String> {
    let mut found: Vec<String> = TELLING.iter().map(|text| text.to_string()).collect();
    for kind in 0..5 {
        let whole = found.len() + EACH;
        more(stream, &mut found, whole, |due| due.kinds.contains(&kind));
    }
    more(stream, &mut found, PATHS, |due| due.kinds.len() > 1);
    found
}

fn more(stream: &mut Stream, found: &mut Vec<String>, whole: usize, fits: impl Fn(&Due) -> bool) {
    while found.len() < whole {
        let text = path::text(stream);
        let due = Due::of(&text, ROOM);
        if text.len() <= LONGEST && !found.contains(&text) && due.number == 0 && fits(&due) {
            found.push(text);
        }
    }
}
