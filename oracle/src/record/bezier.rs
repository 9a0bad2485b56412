//! The list of quads and cubics, b, that the program replay_curves runs through the proved crates.
//!
//! A block is a curve and five progresses. Its first line has a letter (q or c), the refusal's number or 0, the
//! coordinates of four points (zeros for a quad's second control), 32 entries and the total; each further line has a
//! progress, and the position, the tangent and the heading there. All are patterns of eight hexadecimal digits without
//! blanks; those of a refusal are zeros.

use crate::bezier::{Answer, Asked, CURVES, Curve, KINDS, points};
use crate::compare::Report;
use crate::samples::Stream;
use crate::table::progress;

// curves of each kind, and progresses of each curve
const EACH: usize = 5;
const LINES: usize = 5;

// progresses that every curve has, before those drawn
const ALWAYS: [f32; 3] = [0.0, 1.0, f32::NAN];

/// The blocks, with the Rust's answers, and how many answers there are; the proved library is to give the same.
pub fn list(report: &mut Report, seed: u64) -> (Vec<u8>, u64) {
    let mut stream = Stream::new(seed);
    let mut blocks = String::new();
    let mut count = 0;
    for (curve, _) in CURVES {
        for (kind, _) in KINDS {
            for _ in 0..EACH {
                let points = points(kind, &mut stream).map(|point| point.map(f32::to_bits));
                let asked = Asked { curve, points, progress: 0 };
                let (lengths, total) = asked.table();
                let drawn = std::iter::repeat_with(|| progress(&lengths, total, &mut stream));
                let progresses = ALWAYS.into_iter().map(f32::to_bits).chain(drawn).take(LINES);
                let all: Vec<Asked> = progresses.map(|progress| Asked { progress, ..asked.clone() }).collect();
                blocks.push_str(&first_line(&all[0]));
                all.iter().for_each(|asked| blocks.push_str(&line(asked)));
                count += all.len() as u64;
                report.group("curves, recorded", all.into_iter(), Asked::ours, Asked::theirs);
            }
        }
    }
    (blocks.into_bytes(), count)
}

/// Numbers of eight hexadecimal digits each, without blanks.
pub fn patterns(words: impl IntoIterator<Item = u32>) -> String {
    words.into_iter().map(|word| format!("{word:08X}")).collect()
}

fn first_line(asked: &Asked) -> String {
    let (letter, points) = match (asked.curve, asked.points) {
        (Curve::Quad, [start, control, end, _]) => ('q', [start, control, [0, 0], end]),
        (Curve::Cubic, points) => ('c', points),
    };
    let (number, table) = match asked.theirs() {
        Answer::Known { table, .. } => (0, table),
        Answer::Refused(number, _) => (number, [0; 33]),
    };
    format!("b{letter}{}\n", patterns([number].into_iter().chain(points.concat()).chain(table)))
}

fn line(asked: &Asked) -> String {
    let given = match asked.theirs() {
        Answer::Known { position: [x, y], tangent: [u, v], rotation_deg, .. } => [x, y, u, v, rotation_deg],
        Answer::Refused(..) => [0; 5],
    };
    format!("{}\n", patterns([asked.progress].into_iter().chain(given)))
}
