//! The list of lines and arcs, a, that the program replay_curves runs through the proved crates.
//!
//! A block is a segment and six progresses. Its first line has a letter (a or l), the refusal's number or 0, start, radii,
//! rotation and end, the flags and whether the arc fell back to a line, each 0 or 1, then the arc's 11 numbers (a line's
//! length), 32 entries and the total; each further line has a progress, and the position, the tangent and the heading
//! there. All numbers are patterns of eight hexadecimal digits without blanks; what there is none of is zeros.

use super::bezier::patterns;
use crate::arc::{Answer, Arc, Drawn, KINDS, Line, Lone, VECTORS, numbers, vector};
use crate::bezier;
use crate::compare::Report;
use crate::samples::Stream;
use crate::table::progress;

// arcs of each kind besides the vectors, and progresses of each segment
const EACH: usize = 5;
const LINES: usize = 6;

// progresses that every segment has, before those drawn
const ALWAYS: [f32; 4] = [0.0, 1.0, f32::NAN, 2.0];

/// The blocks, with the Rust's answers, and how many answers there are; the proved library is to give the same.
pub fn list(report: &mut Report, seed: u64) -> (Vec<u8>, u64) {
    let mut stream = Stream::new(seed);
    let mut blocks = String::new();
    let mut count = 0;
    let mut arcs: Vec<Arc> = VECTORS.iter().map(vector).collect();
    for (kind, _) in KINDS {
        for _ in 0..EACH {
            let numbers = numbers(kind, &mut stream).map(f32::to_bits);
            arcs.push(Arc { numbers, large: stream.below(2) == 0, sweep: stream.below(2) == 0, progress: 0 });
        }
    }
    for arc in arcs {
        let (entries, total) = arc.made().open_table();
        let all: Vec<Arc> = six(&entries, total, &mut stream).map(|progress| Arc { progress, ..arc.clone() }).collect();
        blocks.push_str(&arc_first(&all[0]));
        for arc in &all {
            let given = match arc.theirs() {
                Answer::Known { lone, .. } => five(&lone),
                Answer::Refused(..) => [0; 5],
            };
            blocks.push_str(&line(arc.progress, given));
        }
        count += all.len() as u64;
        report.group("arcs, recorded", all.into_iter(), Arc::ours, Arc::theirs);
    }
    for (kind, _) in bezier::KINDS {
        let [start, end, ..] = bezier::points(kind, &mut stream).map(|point| point.map(f32::to_bits));
        let own = Line { ends: [start, end], progress: 0 };
        let all: Vec<Line> = six(&[], 1.0, &mut stream).map(|progress| Line { progress, ..own.clone() }).collect();
        blocks.push_str(&line_first(&all[0]));
        for own in &all {
            let given = match own.theirs() {
                Drawn::Known(lone) => five(&lone),
                Drawn::Refused(..) => [0; 5],
            };
            blocks.push_str(&line(own.progress, given));
        }
        count += all.len() as u64;
        report.group("lines, recorded", all.into_iter(), Line::ours, Line::theirs);
    }
    (blocks.into_bytes(), count)
}

fn six(entries: &[f32], total: f32, stream: &mut Stream) -> impl Iterator<Item = u32> {
    let drawn: Vec<u32> = (ALWAYS.len()..LINES).map(|_| progress(entries, total, stream)).collect();
    ALWAYS.into_iter().map(f32::to_bits).chain(drawn)
}

fn five(lone: &Lone) -> [u32; 5] {
    let ([x, y], [u, v]) = (lone.position, lone.tangent);
    [x, y, u, v, lone.rotation_deg]
}

fn arc_first(arc: &Arc) -> String {
    let (number, shape, fell_back, table) = match arc.theirs() {
        Answer::Known { shape, fell_back, table, .. } => (0, shape, fell_back, table.unwrap_or([0; 33])),
        Answer::Refused(number, _) => (number, [0; 11], false, [0; 33]),
    };
    let flags = [arc.large, arc.sweep, fell_back].map(|flag| if flag { '1' } else { '0' });
    let given = patterns([number].into_iter().chain(arc.numbers));
    format!("aa{given}{}{}\n", String::from_iter(flags), patterns(shape.into_iter().chain(table)))
}

fn line_first(own: &Line) -> String {
    let (number, length) = match own.theirs() {
        Drawn::Known(lone) => (0, lone.length),
        Drawn::Refused(number, _) => (number, 0),
    };
    let [[sx, sy], [ex, ey]] = own.ends;
    let given = patterns([number, sx, sy, 0, 0, 0, ex, ey]);
    format!("al{given}000{}{}\n", patterns([length]), patterns([0; 43]))
}

fn line(progress: u32, given: [u32; 5]) -> String {
    format!("{}\n", patterns([progress].into_iter().chain(given)))
}
