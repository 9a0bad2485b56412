//! Segments one by one on both sides: a path appended segment by segment, and each segment asked by itself, by bits.

use crate::build;
use crate::compare::{Input, Report};
use crate::math::alike;
use crate::samples::Stream;
use crate::turns;
use animato_path::bezier::PathEvaluate;
use animato_path::poly::{CompoundPath, PathCommand, PathSegment};
use kihavute::{Chord, Growing, Path, Progress, Refusal, Stored};
use std::fmt;

/// One segment to append, as each call takes it.
#[derive(Clone, Debug)]
pub enum One {
    Line([[f32; 2]; 2]),
    Quad([[f32; 2]; 3]),
    Cubic([[f32; 2]; 4]),
    Arc(Chord),
    /// A segment of another path, by its kind and its numbers: `push_segment`.
    Whole(Box<One>),
}

/// Segments in their order, each with the number of its command, the buffer that has no place for the last (its number, or none),
/// and progresses.
#[derive(Clone)]
struct Asked {
    segments: Vec<(One, u32)>,
    short: Option<usize>,
    progresses: Vec<f32>,
}

/// After each segment: the counts in use, or the refusal's number and what it carries. Then the path by bits, and of each segment
/// at each progress x, y, the direction's two and the heading.
#[derive(Clone, PartialEq)]
enum Answer {
    Grown {
        steps: Vec<Result<[u64; 5], (u32, [u64; 5])>>,
        path: [Vec<u32>; 5],
        asked: Vec<[u32; 5]>,
    },
    /// A place was written that should not have been, or two calls disagree.
    Overwritten(&'static str),
}

use Answer::{Grown, Overwritten};

const BYTE: u8 = 0xA5;
const FLOAT: u32 = 0xC0DE_F00D;
const NUMBER: u32 = 0xA5A5_A5A5;
/// The most that a segment adds to each buffer.
const MOST: [usize; 5] = [1, 11, 33, 1, 1];

impl One {
    // the rotation that is given for an arc
    fn given(&self) -> Option<f32> {
        match self {
            One::Arc(c) => Some(c.x_axis_rotation),
            One::Whole(one) => one.given(),
            _ => None,
        }
    }

    // the Rust's own call
    fn onto(&self, path: CompoundPath) -> CompoundPath {
        match self {
            One::Line([start, end]) => path.line_to(*start, *end),
            One::Quad([start, control, end]) => path.quad_to(*start, *control, *end),
            One::Cubic([start, control1, control2, end]) => path.cubic_to(*start, *control1, *control2, *end),
            One::Arc(c) => path.arc_to(c.start, c.radii, turns::rest(c.x_axis_rotation), c.large_arc, c.sweep, c.end),
            One::Whole(one) => path.push_segment(one.segment()),
        }
    }

    fn segment(&self) -> PathSegment {
        self.onto(CompoundPath::new()).segments()[0].clone()
    }

    fn append(&self, command: u32, room: &mut Growing) -> Result<[usize; 5], Refusal> {
        match self {
            One::Line(points) => room.line_to(command, *points),
            One::Quad(points) => room.quad_to(command, *points),
            One::Cubic(points) => room.cubic_to(command, *points),
            One::Arc(chord) => room.arc_to(command, chord),
            One::Whole(one) => {
                let (mut kinds, mut fields, mut tables) = (vec![], vec![], vec![]);
                build::lay(&one.segment(), one.given(), &mut kinds, &mut fields, &mut tables);
                let numbers: Vec<f32> = fields.into_iter().map(f32::from_bits).collect();
                room.push_segment(command, kinds[0], &numbers)
            }
        }
    }
}

// what document 01 has for a segment that is the Rust path's last: 10 before 11
fn refused(path: &CompoundPath, given: Option<f32>) -> Option<u32> {
    let (lengths, _) = path.open_lengths();
    match path.segments().last() {
        Some(PathSegment::Arc(arc)) if !arc.open_is_fallback() && !given.is_some_and(f32::is_finite) => Some(10),
        _ => lengths.last().filter(|length| !length.is_finite()).map(|_| 11),
    }
}

// a path's buffers, with the rotation and the command number that were given for each segment
fn laid(path: &CompoundPath, given: &[(Option<f32>, u32)]) -> [Vec<u32>; 5] {
    let (mut kinds, mut fields, mut tables, mut commands) = (vec![], vec![], vec![], vec![]);
    for (segment, (rotation, command)) in path.segments().iter().zip(given) {
        build::lay(segment, *rotation, &mut kinds, &mut fields, &mut tables);
        commands.push(*command);
    }
    let lengths = path.open_lengths().0.iter().map(|x| alike(*x)).collect();
    [kinds.into_iter().map(u32::from).collect(), fields, tables, lengths, commands]
}

impl Asked {
    fn theirs(&self) -> Answer {
        let mut path = CompoundPath::new();
        let (mut steps, mut given) = (vec![], vec![]);
        for (k, (one, command)) in self.segments.iter().enumerate() {
            given.truncate(path.len());
            // 02, L5: a path whose command numbers fall is none, and so none grows so; the Rust has no such number
            if given.last().is_some_and(|(_, last)| command < last) {
                steps.push(Err((12, [0; 5])));
                continue;
            }
            let grown = one.onto(path.clone());
            let count = path.len() as u64;
            given.push((one.given(), *command));
            if let Some(number) = refused(&grown, one.given()) {
                steps.push(Err((number, [count, 0, 0, 0, 0])));
                continue;
            }
            let [before, needs] = [laid(&path, &given), laid(&grown, &given)].map(|buffers| buffers.map(|buffer| buffer.len() as u64));
            let last = k + 1 == self.segments.len();
            match self.short {
                // a buffer that ends where the path in use ends, and has no place for what the segment adds
                Some(short) if last && before[short] < needs[short] => steps.push(Err((8, needs))),
                _ => {
                    steps.push(Ok(needs));
                    path = grown;
                }
            }
        }
        let asked = (path.segments().iter())
            .flat_map(|segment| {
                self.progresses.iter().map(|t| {
                    let ([x, y], [tx, ty]) = (segment.position(*t), segment.tangent(*t));
                    [x, y, tx, ty, segment.rotation_deg(*t)].map(alike)
                })
            })
            .collect();
        Grown { steps, path: laid(&path, &given), asked }
    }

    fn ours(&self) -> Answer {
        let room = MOST.map(|most| most * self.segments.len() + 3);
        let mut kinds = vec![BYTE; room[0]];
        let [mut fields, mut tables, mut lengths] = [1, 2, 3].map(|k| vec![f32::from_bits(FLOAT); room[k]]);
        let mut commands = vec![NUMBER; room[4]];
        let mut steps = vec![];
        let mut used = [0; 5];
        for (k, (one, command)) in self.segments.iter().enumerate() {
            let mut ends = room;
            if let (Some(short), true) = (self.short, k + 1 == self.segments.len()) {
                ends[short] = used[short];
            }
            let mut lent = Growing {
                kinds: &mut kinds[..ends[0]],
                fields: &mut fields[..ends[1]],
                tables: &mut tables[..ends[2]],
                lengths: &mut lengths[..ends[3]],
                commands: &mut commands[..ends[4]],
                count: used[0],
            };
            let given = one.append(*command, &mut lent);
            used = given.unwrap_or(used);
            let untouched = kinds.iter().skip(used[0]).all(|byte| *byte == BYTE)
                && commands.iter().skip(used[4]).all(|number| *number == NUMBER)
                && [(&fields, used[1]), (&tables, used[2]), (&lengths, used[3])]
                    .iter()
                    .all(|(buffer, count)| buffer.iter().skip(*count).all(|x| x.to_bits() == FLOAT));
            if !untouched {
                return Overwritten("past the counts");
            }
            steps.push(given.map(|counts| counts.map(|n| n as u64)).map_err(|refusal| {
                let [a, b, c, d, e, ..] = refusal.carried();
                (refusal.number(), [a, b, c, d, e])
            }));
        }
        let stored = Stored {
            kinds: &kinds[..used[0]],
            fields: &fields[..used[1]],
            tables: &tables[..used[2]],
            lengths: &lengths[..used[3]],
            commands: &commands[..used[4]],
        };
        let total = stored.lengths.last().map_or(0, |length| length.to_bits());
        if (stored.len(), stored.is_empty(), stored.arc_length()) != (Ok(used[0]), Ok(used[0] == 0), Ok(total)) {
            return Overwritten("count, emptiness or length");
        }
        let (mut own, mut more, mut asked) = (0, 0, vec![]);
        for (i, kind) in stored.kinds.iter().enumerate() {
            // the segment's numbers are those that stand in the buffers
            let mut out = [f32::from_bits(FLOAT); 45];
            let given = stored.segment(i, &mut out);
            let (fields, tables) = ([4, 6, 8, 11, 11][usize::from(*kind)], if (1..4).contains(kind) { 33 } else { 0 });
            let due = stored.fields[own..own + fields].iter().chain(&stored.tables[more..more + tables]);
            let same = due.zip(&out).all(|(a, b)| a.to_bits() == b.to_bits());
            if given != Ok(Some((*kind, fields + tables))) || !same || out[fields + tables].to_bits() != FLOAT {
                return Overwritten("a segment's numbers");
            }
            (own, more) = (own + fields, more + tables);
            for t in self.progresses.iter().map(|t| Progress(*t)) {
                let found =
                    (stored.segment_position(i, t), stored.segment_tangent(i, t), stored.segment_rotation_deg(i, t));
                let (Ok(Some([x, y])), Ok(Some([tx, ty])), Ok(Some(degrees))) = found else {
                    return Overwritten("a segment that is refused");
                };
                asked.push([x, y, tx, ty, degrees]);
            }
        }
        if stored.segment_position(used[0], Progress(0.5)) != Ok(None) {
            return Overwritten("a segment past the last");
        }
        let bits = |buffer: &[f32]| buffer.iter().map(|x| x.to_bits()).collect();
        let path = [
            stored.kinds.iter().map(|kind| u32::from(*kind)).collect(),
            bits(stored.fields),
            bits(stored.tables),
            bits(stored.lengths),
            stored.commands.to_vec(),
        ];
        Grown { steps, path, asked }
    }
}

impl fmt::Display for Asked {
    fn fmt(&self, out: &mut fmt::Formatter) -> fmt::Result {
        let bits: Vec<u32> = self.progresses.iter().map(|t| t.to_bits()).collect();
        write!(out, "{:?}, short {:?}, at {bits:X?}", self.segments, self.short)
    }
}

impl fmt::Display for Answer {
    fn fmt(&self, out: &mut fmt::Formatter) -> fmt::Result {
        match self {
            Grown { steps, path, asked } => write!(out, "steps {steps:?} path {path:X?} asked {asked:X?}"),
            Overwritten(what) => write!(out, "wrong: {what}"),
        }
    }
}

impl Input for Asked {
    // without a segment, or at half of the progresses
    fn simpler(&self) -> Vec<Asked> {
        let fewer = (0..self.segments.len()).map(|left_out| {
            let mut segments = self.segments.clone();
            segments.remove(left_out);
            Asked { segments, ..self.clone() }
        });
        let half = self.progresses.len() / 2;
        let halves = [&self.progresses[..half], &self.progresses[half..]];
        let shorter = halves.into_iter().filter(|part| !part.is_empty() && half > 0);
        fewer.chain(shorter.map(|part| Asked { progresses: part.to_vec(), ..self.clone() })).collect()
    }
}

// ---- segments

fn one(stream: &mut Stream, kind: u32) -> One {
    let start = [build::number(stream, kind), build::number(stream, kind)];
    // a path's command gives the rest
    loop {
        let made = match build::command(stream, kind) {
            PathCommand::LineTo(end) => One::Line([start, end]),
            PathCommand::QuadTo { control, end } => One::Quad([start, control, end]),
            PathCommand::CubicTo { control1, control2, end } => One::Cubic([start, control1, control2, end]),
            PathCommand::ArcTo { radii, x_axis_rotation, large_arc, sweep, end } => {
                One::Arc(Chord { start, radii, x_axis_rotation, large_arc, sweep, end })
            }
            PathCommand::MoveTo(_) | PathCommand::ClosePath => continue,
        };
        return if stream.below(3) == 0 { One::Whole(Box::new(made)) } else { made };
    }
}

// a command number: mostly that of the last segment or one above it, at times one below, or a large one
fn command(stream: &mut Stream, last: &mut u32) -> u32 {
    let number = match stream.below(16) {
        0 => return last.saturating_sub(1 + stream.below(2)),
        1 => stream.bits(),
        2 => u32::MAX - stream.below(2),
        3..7 => *last,
        _ => last.saturating_add(1 + stream.below(2)),
    };
    *last = number.max(*last);
    number
}

/// So many paths of up to six segments of each kind of number, each segment asked at 20 progresses.
pub fn compare(report: &mut Report, seed: u64, count: u64) {
    compare_known(report);
    for (kind, name) in (0..).zip(build::KINDS) {
        let mut stream = Stream::new(seed ^ 0x5E_0000 ^ u64::from(kind));
        let asked = (0..count).map(move |_| {
            let mut last = 0;
            let segments = (0..1 + stream.below(6)).map(|_| (one(&mut stream, kind), command(&mut stream, &mut last))).collect();
            let short = (stream.below(4) == 0).then(|| stream.below(5) as usize);
            let mut progresses = vec![0.0, 1.0, 0.5, -0.0, -1.0, 2.0, f32::NAN, f32::INFINITY, f32::MIN_POSITIVE];
            progresses.resize_with(20, || match stream.below(4) {
                0 => f32::from_bits(stream.bits()),
                _ => stream.below(1 << 24) as f32 / 16_777_216.0,
            });
            Asked { segments, short, progresses }
        });
        report.group(&format!("segments, {name}"), asked, Asked::ours, Asked::theirs);
    }
}

// what is refused although the Rust takes it, or has no such call; what is expected is written here
fn compare_known(report: &mut Report) {
    let number = |refusal: Refusal| refusal.number();
    let mut path = Path::from_text(b"M0 0L1e-8 0").expect("it builds");
    let cases = [
        // a path of at most 2^-23 is at its end; its segment is not
        path.stored().segment_position(0, Progress(0.5)) == Ok(Some([5e-9f32.to_bits(), 0])),
        path.append(|room| room.push_segment(1, 5, &[])).map_err(number) == Err(12),
        path.append(|room| room.push_segment(1, 0, &[0.0; 3])).map_err(number) == Err(12),
        // the path in use is judged: its running length is not one
        path.append(|room| {
            room.lengths[0] = -1.0;
            room.line_to(1, [[0.0; 2]; 2])
        })
        .map_err(number)
            == Err(12),
    ];
    tell(report, "segments", &cases);
    compare_fallen(report);
    compare_full(report);
}

fn tell(report: &mut Report, name: &str, cases: &[bool]) {
    for (number, _) in cases.iter().enumerate().filter(|(_, case)| !**case) {
        println!("  DIFFERENT in the cases known of {name}: {number}");
    }
    report.count(cases.len() as u64, cases.iter().all(|case| *case));
}

// a path whose command numbers fall, or are one too few or too many: no call over a stored path takes it
fn compare_fallen(report: &mut Report) {
    let mut path = Path::from_text(b"M0 0L3 4M1 1Q2 2 3 1").expect("it builds");
    let whole = path.clone();
    let stored = whole.stored();
    let half = Progress(0.5);
    let mut cases = vec![[0, 1, 2].map(|segment| path.command(segment)) == [Some(1), Some(3), None]];
    let numbers: [(&[u32], bool); 9] = [
        (&[1, 3], true),
        (&[3, 3], true),
        (&[0, 0], true),
        (&[0, u32::MAX], true),
        (&[u32::MAX, u32::MAX], true),
        (&[4, 3], false),
        (&[u32::MAX, 0], false),
        (&[1], false),
        (&[1, 3, 3], false),
    ];
    for (commands, passes) in numbers {
        let lent = Stored { commands, ..stored };
        let judged = |refusal: Option<Refusal>| match refusal {
            None => passes,
            Some(refusal) => !passes && refusal.number() == 12 && refusal.carried() == [0; 8],
        };
        cases.extend([
            judged(kihavute::check(lent.kinds, lent.fields, lent.tables, lent.lengths, lent.commands).err()),
            judged(lent.len().err()),
            judged(lent.is_empty().err()),
            judged(lent.arc_length().err()),
            judged(lent.segment(1, &mut [0.0; 44]).err()),
            judged(lent.segment_position(1, half).err()),
            judged(lent.segment_tangent(1, half).err()),
            judged(lent.segment_rotation_deg(1, half).err()),
        ]);
    }
    // the wrapper's own path, made to fall by a refused call
    let number = |refusal: Refusal| refusal.number();
    let fallen = path.append(|room| {
        room.commands[0] = 4;
        room.line_to(5, [[0.0; 2]; 2])
    });
    let (mut segments, mut raws, mut out) = ([9; 1], [9.0; 1], [9.0; 4]);
    cases.extend([
        fallen.map_err(number) == Err(12),
        path.flight(half).map(|_| ()).map_err(number) == Err(12),
        path.rotation_deg(half).map_err(number) == Err(12),
        path.places(&[half], &mut segments, &mut raws).map_err(number) == Err(12),
        path.flights(&[half], &mut segments, &mut raws, &mut out).map_err(number) == Err(12),
        (segments, raws, out) == ([9; 1], [9.0; 1], [9.0; 4]),
    ]);
    tell(report, "command numbers that fall", &cases);
}

// a path of as many segments as may be takes no further one: a number below the last is judged before that, and room after it
fn compare_full(report: &mut Report) {
    const FULL: usize = 65_536;
    let mut kinds = vec![0; FULL];
    let (mut fields, mut lengths) = (vec![0.0; 4 * FULL], vec![1.0; FULL]);
    let mut commands = vec![7; FULL];
    let mut due = |command: u32, count: usize| {
        let mut room = Growing {
            kinds: &mut kinds,
            fields: &mut fields,
            tables: &mut [],
            lengths: &mut lengths,
            commands: &mut commands,
            count,
        };
        room.line_to(command, [[0.0; 2]; 2]).map_err(|refusal| (refusal.number(), refusal.carried()[0]))
    };
    let cases = [
        due(6, FULL) == Err((12, 0)),
        due(0, FULL) == Err((12, 0)),
        due(7, FULL) == Err((13, 65_537)),
        due(u32::MAX, FULL) == Err((13, 65_537)),
        // one segment less, and a place for one
        due(6, FULL - 1) == Err((12, 0)),
        due(7, FULL - 1) == Ok([FULL, 4 * FULL, 0, FULL, FULL]),
        due(u32::MAX, FULL - 1) == Ok([FULL, 4 * FULL, 0, FULL, FULL]),
        // the last of the path is that one now
        due(u32::MAX - 1, FULL) == Err((12, 0)),
        due(u32::MAX, FULL) == Err((13, 65_537)),
    ];
    tell(report, "a path that is full", &cases);
}
