//! How cost grows with the segments of a path and with the bytes of a text.

use crate::clock::repeated;
use crate::lists::{List, Room};
use crate::{original_build, original_reads, patterns, row, row_alone};
use animato_path::bezier::PathEvaluate;
use animato_path::poly::CompoundPath;
use animato_path::svg::SvgPathParser;
use kihavute::{Path, Progress};
use std::cell::RefCell;

// the last is the most that a list builds: 65,536 commands with one MoveTo
const SIZES: [usize; 4] = [16, 256, 4096, 65_535];
const KILOBYTES: [usize; 4] = [1, 4, 16, 64];

// the segments of a path of every kind
const MIXED: &[u8] = b"LQCA";

// building, by the segment, of lines and of every kind in turn: ours into lent buffers, the Rust into a vector that grows. Then
// the check of a stored path, which the Rust has no need of.
pub fn sizes() {
    for (turn, name) in [(&b"L"[..], "lines"), (MIXED, "mixed")] {
        for count in SIZES {
            let list = List::of(count, turn);
            let room = RefCell::new(Room::of(count));
            let calls = (SIZES[3] / count).max(2);
            let times = repeated(calls, || room.borrow_mut().build(&list), || original_build(&list.commands));
            row(&format!("building {count} {name}, each"), times.map(|time| time / count as f64));
        }
    }
    for path in SIZES.map(Flown::of) {
        let stored = path.ours.stored();
        let check = || {
            let passed = kihavute::check(stored.kinds, stored.fields, stored.tables, stored.lengths, stored.commands);
            passed.map_or(0, |count| count as u32)
        };
        let [time, _] = repeated(4 * SIZES[3] / path.count, check, || 0);
        row_alone(&format!("check of {}, each segment", path.count), time / path.count as f64);
    }
}

// a path of so many segments of every kind in turn, on both sides
struct Flown {
    count: usize,
    ours: Path,
    theirs: CompoundPath,
}

impl Flown {
    fn of(count: usize) -> Flown {
        let list = List::of(count, MIXED);
        let ours = Path::from_commands(&list.letters, &list.numbers).expect("it builds");
        Flown { count, ours, theirs: CompoundPath::from_commands(&list.commands) }
    }

    // the elements of the five buffers
    fn elements(&self) -> usize {
        let stored = self.ours.stored();
        stored.kinds.len() + stored.fields.len() + stored.tables.len() + stored.lengths.len() + stored.commands.len()
    }
}

#[inline(never)]
fn original_place(path: &CompoundPath, t: f32) -> (u32, f32) {
    path.open_place_at(t).map_or((0, 0.0), |(segment, raw)| (segment as u32, raw))
}

#[inline(never)]
fn original_flown(path: &CompoundPath, t: f32) -> [f32; 4] {
    let ([x, y], [tx, ty]) = (path.position(t), path.tangent(t));
    [x, y, tx, ty]
}

// one query, against the original's position and tangent; ours checks the whole path first: its time by the element stored
// stands below
pub fn flight() {
    let inputs: Vec<f32> = patterns().take(16).map(|bits| (bits >> 8) as f32 / 16_777_216.0).collect();
    let all = |side: &dyn Fn(f32) -> u32| inputs.iter().fold(0u32, |sum, t| sum.wrapping_add(side(*t)));
    for path in SIZES.map(Flown::of) {
        let ours = |t: f32| path.ours.flight(Progress(t)).map_or(0, |there| there.position[0] ^ there.tangent[0]);
        let theirs = |t: f32| original_flown(&path.theirs, t)[0].to_bits();
        let calls = (SIZES[3] / path.count).clamp(2, 64);
        let times = repeated(calls, || all(&ours), || all(&theirs)).map(|time| time / inputs.len() as f64);
        row(&format!("a flight on {} segments", path.count), times);
        println!("{:28} {:9.3}", "  for each number stored", times[0] / path.elements() as f64);
    }
}

// a batch of 1,000, by the progress: ours checks the path once; the Rust is asked one by one
pub fn places() {
    const COUNT: usize = 1000;
    let rising: Vec<Progress> = (0..COUNT).map(|k| Progress(k as f32 / 999.0)).collect();
    let any: Vec<Progress> = patterns().take(COUNT).map(|bits| Progress((bits >> 8) as f32 / 16_777_216.0)).collect();
    let lent = RefCell::new((vec![0; COUNT], vec![0.0f32; COUNT], vec![0.0f32; 4 * COUNT]));
    let each = |times: [f64; 2]| times.map(|time| time / COUNT as f64);
    for path in SIZES.map(Flown::of) {
        let calls = (SIZES[3] / path.count).clamp(2, 16);
        for (order, progresses) in [("rising", &rising), ("any", &any)] {
            let ours = || {
                let (segments, raws, _) = &mut *lent.borrow_mut();
                path.ours.places(progresses, segments, raws).map_or(0, |count| count as u32)
            };
            let theirs = || {
                let (segments, raws, _) = &mut *lent.borrow_mut();
                for (k, t) in progresses.iter().enumerate() {
                    (segments[k], raws[k]) = original_place(&path.theirs, t.0);
                }
                segments[0]
            };
            row(&format!("places on {}, {order}", path.count), each(repeated(calls, ours, theirs)));
            let ours = || {
                let (segments, raws, out) = &mut *lent.borrow_mut();
                path.ours.flights(progresses, segments, raws, out).map_or(0, |count| count as u32)
            };
            let theirs = || {
                let (_, _, out) = &mut *lent.borrow_mut();
                for (four, t) in out.chunks_exact_mut(4).zip(progresses) {
                    four.copy_from_slice(&original_flown(&path.theirs, t.0));
                }
                out[0].to_bits()
            };
            row(&format!("flights on {}, {order}", path.count), each(repeated(calls, ours, theirs)));
        }
    }
}

#[inline(never)]
fn original_second(path: &CompoundPath, target: f32) -> (u32, f32) {
    path.open_place_toward(target).map_or((0, 0.0), |(segment, raw)| (segment as u32, raw))
}

// a dry run of 1,000 seconds once along the path, by the second; the Rust's lookup is asked for each target, which an f64 division makes
pub fn seconds() {
    const COUNT: usize = 1000;
    let lent = RefCell::new((vec![0; COUNT], vec![0.0f32; COUNT]));
    for path in SIZES.map(Flown::of) {
        let calls = (SIZES[3] / path.count).clamp(2, 16);
        let speed = (path.ours.arc_length() as u32 + 1).min(100_000);
        let speeds: Vec<u32> = patterns().take(COUNT).map(|bits| speed / 2 + bits % (speed / 2 + 1)).collect();
        let ours = || {
            let (segments, raws) = &mut *lent.borrow_mut();
            path.ours.dry_run(&speeds, segments, raws).map_or(0, |count| count as u32)
        };
        let theirs = || {
            let (segments, raws) = &mut *lent.borrow_mut();
            let mut sum = 0u64;
            for (k, speed) in speeds.iter().enumerate() {
                sum += u64::from(*speed);
                (segments[k], raws[k]) = original_second(&path.theirs, (sum as f64 / 1000.0) as f32);
            }
            segments[0]
        };
        row(&format!("a dry run on {}, a second", path.count), repeated(calls, ours, theirs).map(|time| time / COUNT as f64));
    }
}

#[inline(never)]
fn original_builds(text: &[u8]) -> u32 {
    let text = std::str::from_utf8(text).expect("it is ASCII");
    SvgPathParser::try_parse(text).map_or(0, |commands| CompoundPath::from_commands(&commands).arc_length().to_bits())
}

// texts of every kind of segment in turn, by the byte: read, and built from the text
pub fn texts() {
    let list = List::of(SIZES[1] * 16, MIXED);
    let texts = KILOBYTES.map(|kilobytes| (kilobytes, list.text(kilobytes * 1024)));
    let lent = RefCell::new((vec![0u8; 65_536], vec![0f32; 65_536], vec![0u32; 65_536]));
    let room = RefCell::new(Room::of(SIZES[2]));
    let calls = |text: &[u8]| (4 * 65_536 / text.len()).max(4);
    for (kilobytes, text) in &texts {
        let ours = || {
            let (letters, numbers, offsets) = &mut *lent.borrow_mut();
            kihavute::read_into(text, letters, numbers, offsets).map_or(0, |(commands, _)| commands as u32)
        };
        let times = repeated(calls(text), ours, || original_reads(text) as u32);
        row(&format!("reading {kilobytes} KB, a byte"), times.map(|time| time / text.len() as f64));
    }
    for (kilobytes, text) in &texts {
        let times = repeated(calls(text), || room.borrow_mut().build_text(text), || original_builds(text));
        row(&format!("building {kilobytes} KB, a byte"), times.map(|time| time / text.len() as f64));
    }
}
