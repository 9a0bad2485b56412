//! Two other libraries, svgtypes and kurbo, which bench/others compiles. Both work in f64.

use crate::lists::{List, Room};
use crate::{clock, patterns, per_byte, row};
use kihavute::{Path, Progress};
use kurbo::{BezPath, ParamCurveArclen, PathSeg, Point};
use std::cell::RefCell;

/// Two other readers on the texts that they read too; they keep each command as it is written.
pub fn readers(texts: &[&[u8]], ours: &dyn Fn(&[u8]) -> usize) {
    fn svgtypes(text: &[u8]) -> usize {
        let text = std::str::from_utf8(text).expect("a drawing is ASCII");
        text.parse::<svgtypes::Path>().map_or(0, |path| path.len())
    }
    fn kurbo(text: &[u8]) -> usize {
        let text = std::str::from_utf8(text).expect("a drawing is ASCII");
        BezPath::from_svg(text).map_or(0, |path| path.elements().len())
    }
    let readers: [(&str, fn(&[u8]) -> usize); 2] = [("read, beside svgtypes", svgtypes), ("read, beside kurbo", kurbo)];
    for (name, reader) in readers {
        let read: Vec<&[u8]> = texts.iter().copied().filter(|text| reader(text) > 0).collect();
        row(name, per_byte(&read, ours, reader));
    }
}

// how far off kurbo's lengths may be, in metres. Ours, the sum of 31 chords, is off by more than a third of a metre on half of
// these cubics.
const ACCURACY: f64 = 0.1;

// the same segments in kurbo's path, which has no arcs: lines, quads and cubics
const SHARED: &[u8] = b"LQC";

fn bezier(list: &List) -> BezPath {
    let mut path = BezPath::new();
    let mut points = list.numbers.chunks_exact(2).map(|pair| Point::new(f64::from(pair[0]), f64::from(pair[1])));
    let mut next = || points.next().expect("each command has its points");
    for letter in &list.letters {
        match letter {
            b'M' => path.move_to(next()),
            b'L' => path.line_to(next()),
            b'Q' => path.quad_to(next(), next()),
            _ => path.curve_to(next(), next(), next()),
        }
    }
    path
}

// the segments of a path, and the running length at the end of each
#[inline(never)]
fn measured(path: &BezPath) -> (Vec<PathSeg>, Vec<f64>) {
    let segments: Vec<PathSeg> = path.segments().collect();
    let mut total = 0.0;
    let lengths = segments.iter().map(|segment| {
        total += segment.arclen(ACCURACY);
        total
    });
    let lengths = lengths.collect();
    (segments, lengths)
}

// the segment at this progress, by halving, and its parameter there
#[inline(never)]
fn place((segments, lengths): &(Vec<PathSeg>, Vec<f64>), progress: f32) -> (u32, f32) {
    let wanted = f64::from(progress) * lengths[lengths.len() - 1];
    let at = lengths.partition_point(|length| *length < wanted).min(lengths.len() - 1);
    let before = if at == 0 { 0.0 } else { lengths[at - 1] };
    (at as u32, segments[at].inv_arclen(wanted - before, ACCURACY) as f32)
}

/// Building beside kurbo's lengths of the same segments, and places beside its parameters at a length.
pub fn lengths() {
    const COUNT: usize = 256;
    for (turn, name) in
        [(&b"Q"[..], "building quads, kurbo"), (b"C", "building cubics, kurbo"), (SHARED, "building mixed, kurbo")]
    {
        let list = List::of(COUNT, turn);
        let room = RefCell::new(Room::of(COUNT));
        let theirs = || measured(&bezier(&list)).1[COUNT - 1].to_bits() as u32;
        let times = clock::large(|| room.borrow_mut().build(&list), theirs);
        row(name, times.map(|time| time / COUNT as f64));
    }
    let list = List::of(COUNT, SHARED);
    let path = Path::from_commands(&list.letters, &list.numbers).expect("it builds");
    let other = measured(&bezier(&list));
    let rising: Vec<Progress> = (0..1000).map(|k| Progress(k as f32 / 999.0)).collect();
    let any: Vec<Progress> = patterns().take(1000).map(|bits| Progress((bits >> 8) as f32 / 16_777_216.0)).collect();
    let lent = RefCell::new((vec![0; 1000], vec![0.0f32; 1000]));
    for (name, progresses) in [("places rising, kurbo", &rising), ("places any, kurbo", &any)] {
        let ours = || {
            let (segments, raws) = &mut *lent.borrow_mut();
            path.places(progresses, segments, raws).map_or(0, |count| count as u32)
        };
        let theirs = || {
            let (segments, raws) = &mut *lent.borrow_mut();
            for (k, t) in progresses.iter().enumerate() {
                (segments[k], raws[k]) = place(&other, t.0);
            }
            segments[0]
        };
        row(name, clock::large(ours, theirs).map(|time| time / 1000.0));
    }
}
