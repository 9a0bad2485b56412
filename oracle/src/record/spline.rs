//! The list of splines, s, that the program replay_curves runs through the proved crates.
//!
//! A block has points and five answers, as crates/replay_curves says: a table that is made in so many places, and four
//! queries of it, often after one place was damaged. All numbers are patterns of eight hexadecimal digits.

use crate::compare::Report;
use crate::samples::{SPECIALS, Stream};
use crate::spline::{Answer, KINDS, Kind, Stored, Why, count_of, draw};
use crate::table;
use animato_path::bezier::CatmullRomSpline;

const NUMBERS: usize = 9;
const ENTRIES: usize = 64;
const SHOWN: usize = 8;
const QUERIES: usize = 4;

// blocks of each kind
const BLOCKS: usize = 10;

// progresses of a kind's first block
const ALWAYS: [f32; QUERIES] = [0.0, 1.0, f32::NAN, 0.5];

/// The blocks, with the Rust's answers, and how many there are; the proved library is to give the same.
pub fn list(report: &mut Report, seed: u64) -> (Vec<u8>, u64) {
    let mut stream = Stream::new(seed ^ 6);
    let mut blocks = String::new();
    let mut count = 0;
    for (kind, _) in KINDS {
        for block in 0..BLOCKS {
            blocks.push_str(&one(report, kind, block, &mut stream));
            count += 1 + QUERIES as u64;
        }
    }
    (blocks.into_bytes(), count)
}

// a block: 0 to 4 points, the more the later
fn one(report: &mut Report, kind: Kind, block: usize, stream: &mut Stream) -> String {
    let numbers = draw(kind, (block / 2).min(4), stream);
    let floats: Vec<f32> = numbers.iter().map(|bits| f32::from_bits(*bits)).collect();
    let pairs: Vec<[f32; 2]> = floats.chunks_exact(2).map(|pair| [pair[0], pair[1]]).collect();
    let spline = CatmullRomSpline::new(pairs);
    let entries = spline.open_table().0;
    let needed = count_of(numbers.len());

    // what making the table answers and leaves
    let room = if stream.below(8) == 0 { needed - 1 } else { ENTRIES };
    let infinite = entries.iter().position(|entry| !entry.is_finite());
    let (number, value) = match infinite {
        _ if numbers.len() % 2 == 1 => (9, numbers.len() / 2),
        Some(place) => (11, place),
        None if room < needed => (8, needed),
        None => (0, needed),
    };
    let mut left = [0u32; ENTRIES];
    if number == 0 {
        left.iter_mut().zip(entries).for_each(|(place, entry)| *place = entry.to_bits());
    }
    let places: [usize; SHOWN] = std::array::from_fn(|i| match i {
        0 => needed - 1,
        1 => needed,
        _ => stream.below(needed as u32) as usize,
    });
    let shown: Vec<u32> = places.iter().flat_map(|place| [*place as u32, left[*place]]).collect();

    // the table that is asked
    let (place, by) = match stream.below(6) {
        0 => (stream.below(needed as u32) as usize, SPECIALS[stream.below(SPECIALS.len() as u32) as usize]),
        1 => (0, 0x8000_0000),
        _ => (ENTRIES, 0),
    };
    let mut asked = left;
    if place < ENTRIES {
        asked[place] = by;
    }
    let size = if stream.below(10) == 0 { needed + 1 } else { needed };

    let mut first = vec![numbers.len() as u32];
    first.extend(numbers.iter().copied().chain(std::iter::repeat(0)).take(NUMBERS));
    first.extend([room as u32, number, value as u32, size as u32]);
    let mut lines = vec![first, shown, vec![place as u32, by]];
    let lengths: Vec<f32> = asked[..size].iter().map(|bits| f32::from_bits(*bits)).collect();
    for always in ALWAYS {
        let drawn = table::progress(&lengths, lengths[size - 1], stream);
        let progress = if block == BLOCKS - 1 { always.to_bits() } else { drawn };
        let stored = Stored { numbers: numbers.clone().into(), table: asked[..size].into(), progress };
        let answer = stored.theirs();
        let (number, told) = match &answer {
            Ok(told) => (0, *told),
            Err(Why::Refused(number, _)) => (*number, [0; 7]),
            Err(Why::Broken(what)) => panic!("{what}"),
        };
        let mut line = vec![progress, number];
        line.extend(told);
        lines.push(line);
        report.group("splines, recorded", [stored].into_iter(), |one| Answer(one.ours()), |one| Answer(one.theirs()));
    }
    std::iter::once("s".to_string()).chain(lines.iter().map(|line| words(line))).collect()
}

fn words(patterns: &[u32]) -> String {
    let words: Vec<String> = patterns.iter().map(|bits| format!("{bits:08X}")).collect();
    words.join(" ") + "\n"
}
