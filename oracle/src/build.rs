//! Paths built on both sides: command lists and texts into kinds, fields, tables, running lengths and command numbers, by bits.

use crate::compare::{Input, Report};
use crate::makers;
use crate::math::alike;
use crate::read;
use crate::samples::{SPECIALS, Stream};
use crate::smooth;
use crate::turns;
use animato_path::poly::{PathCommand, PathSegment};
use std::fmt;

/// What a path is built of.
#[derive(Clone)]
enum Source {
    List(Vec<PathCommand>),
    Text(String),
}

/// What is built, and which buffer lacks a place: its number, `ALL` for each of the five, or none.
#[derive(Clone)]
struct Asked {
    source: Source,
    short: Option<usize>,
}

const ALL: usize = 5;

/// A path in five buffers, floats by their bits; or the number of a refusal and what it carries.
#[derive(Clone, PartialEq)]
enum Answer {
    Path {
        kinds: Vec<u8>,
        fields: Vec<u32>,
        tables: Vec<u32>,
        lengths: Vec<u32>,
        commands: Vec<u32>,
    },
    Refused(u32, [u64; 5]),
    /// The text does not read.
    Unread,
    /// A place was written that should not have been.
    Overwritten,
}

use Answer::{Overwritten, Path, Refused, Unread};

/// What stands in a buffer before the call.
const BYTE: u8 = 0xA5;
const FLOAT: u32 = 0xC0DE_F00D;
const NUMBER: u32 = 0xA5A5_A5A5;

/// A list in its stored form.
pub fn stored(commands: &[PathCommand]) -> (Vec<u8>, Vec<f32>) {
    let (mut letters, mut numbers) = (Vec::new(), Vec::new());
    let flag = |set: bool| if set { 1.0 } else { 0.0 };
    for command in commands {
        letters.push(match *command {
            PathCommand::MoveTo(end) => {
                numbers.extend(end);
                b'M'
            }
            PathCommand::LineTo(end) => {
                numbers.extend(end);
                b'L'
            }
            PathCommand::QuadTo { control, end } => {
                numbers.extend(control.into_iter().chain(end));
                b'Q'
            }
            PathCommand::CubicTo { control1, control2, end } => {
                numbers.extend(control1.into_iter().chain(control2).chain(end));
                b'C'
            }
            PathCommand::ArcTo { radii, x_axis_rotation, large_arc, sweep, end } => {
                numbers.extend(radii);
                numbers.extend([x_axis_rotation, flag(large_arc), flag(sweep)]);
                numbers.extend(end);
                b'A'
            }
            PathCommand::ClosePath => b'Z',
        });
    }
    (letters, numbers)
}

/// The Rust's segment in its stored form, an arc with the rotation that was given for it.
pub fn lay(
    segment: &PathSegment,
    given: Option<f32>,
    kinds: &mut Vec<u8>,
    fields: &mut Vec<u32>,
    tables: &mut Vec<u32>,
) {
    let mut points = |points: &[[f32; 2]]| fields.extend(points.as_flattened().iter().map(|x| alike(*x)));
    let (kind, table) = match segment {
        PathSegment::Line(line) => {
            points(&[line.start(), line.end()]);
            (0, None)
        }
        PathSegment::Quad(quad) => {
            points(&[quad.start(), quad.control(), quad.end()]);
            (1, Some(quad.open_table()))
        }
        PathSegment::Cubic(cubic) => {
            points(&[cubic.start(), cubic.control1(), cubic.control2(), cubic.end()]);
            (2, Some(cubic.open_table()))
        }
        PathSegment::Arc(arc) => {
            points(&[arc.start(), arc.end(), arc.center(), arc.radii()]);
            let [rotation, from, by] = arc.open_angles();
            fields.extend([given.unwrap_or(rotation), from, by].map(alike));
            if arc.open_is_fallback() { (4, None) } else { (3, Some(arc.open_table())) }
        }
    };
    kinds.push(kind);
    if let Some((entries, total)) = table {
        tables.extend(entries.into_iter().chain([total]).map(alike));
    }
}

// the Rust's path; where document 01 refuses, the first segment decides, and a rotation before a length
fn theirs(commands: &[PathCommand]) -> Answer {
    let path = turns::path(commands);
    let mut rotations = turns::given(commands);
    let (mut kinds, mut fields, mut tables) = (Vec::new(), Vec::new(), Vec::new());
    let (lengths, _) = path.open_lengths();
    for (number, (segment, length)) in path.segments().iter().zip(lengths).enumerate() {
        let mut given = None;
        if let PathSegment::Arc(arc) = segment {
            let rotation = rotations.next().expect("each arc was given");
            if !arc.open_is_fallback() && !rotation.is_finite() {
                return Refused(10, [number as u64, 0, 0, 0, 0]);
            }
            given = Some(rotation);
        }
        if !length.is_finite() {
            return Refused(11, [number as u64, 0, 0, 0, 0]);
        }
        lay(segment, given, &mut kinds, &mut fields, &mut tables);
    }
    let lengths = lengths.iter().map(|x| alike(*x)).collect();
    Path { kinds, fields, tables, lengths, commands: makers::numbers(commands) }
}

/// The refusal that document 01 has for a command list, where it has one: its number and the segment.
pub fn refused(commands: &[PathCommand]) -> Option<(u32, u64)> {
    match theirs(commands) {
        Refused(number, [segment, ..]) => Some((number, segment)),
        _ => None,
    }
}

impl Answer {
    // how many places of each buffer a path takes
    fn counts(&self) -> Option<[usize; 5]> {
        match self {
            Path { kinds, fields, tables, lengths, commands } => {
                Some([kinds.len(), fields.len(), tables.len(), lengths.len(), commands.len()])
            }
            _ => None,
        }
    }
}

impl Asked {
    fn commands(&self) -> Option<Vec<PathCommand>> {
        match &self.source {
            Source::List(commands) => Some(commands.clone()),
            Source::Text(text) => smooth::try_parse(text).ok(),
        }
    }

    fn is_short(&self, buffer: usize) -> bool {
        self.short == Some(buffer) || self.short == Some(ALL)
    }

    fn expected(&self) -> Answer {
        let Some(commands) = self.commands() else { return Unread };
        let answer = theirs(&commands);
        match answer.counts() {
            Some(counts) if (0..5).any(|k| self.is_short(k) && counts[k] > 0) => {
                Refused(8, counts.map(|count| count as u64))
            }
            _ => answer,
        }
    }

    // the buffers have as many places as the Rust's path needs, and three more, or one too few where they are short
    fn ours(&self) -> Answer {
        let needs = self.commands().and_then(|commands| theirs(&commands).counts()).unwrap_or([8, 64, 64, 8, 8]);
        let mut places = needs.map(|count| count + 3);
        for k in (0..5).filter(|k| self.is_short(*k)) {
            places[k] = needs[k].saturating_sub(1);
        }
        let mut kinds = vec![BYTE; places[0]];
        let [mut fields, mut tables, mut lengths] = [1, 2, 3].map(|k| vec![f32::from_bits(FLOAT); places[k]]);
        let mut commands = vec![NUMBER; places[4]];
        let (own, tabled, run, made) = (&mut fields, &mut tables, &mut lengths, &mut commands);
        let given = match &self.source {
            Source::List(list) => {
                let (letters, numbers) = stored(list);
                kihavute::build(&letters, &numbers, &mut kinds, own, tabled, run, made)
            }
            Source::Text(text) => kihavute::build_text(text.as_bytes(), &mut kinds, own, tabled, run, made),
        };
        let counts = given.unwrap_or([0; 5]);
        let untouched = kinds.iter().skip(counts[0]).all(|byte| *byte == BYTE)
            && commands.iter().skip(counts[4]).all(|number| *number == NUMBER)
            && [(&fields, counts[1]), (&tables, counts[2]), (&lengths, counts[3])]
                .iter()
                .all(|(buffer, count)| buffer.iter().skip(*count).all(|x| x.to_bits() == FLOAT));
        match given {
            _ if !untouched => Overwritten,
            Err(refusal) if (2..=7).contains(&refusal.number()) => Unread,
            Err(refusal) => {
                let [a, b, c, d, e, ..] = refusal.carried();
                Refused(refusal.number(), [a, b, c, d, e])
            }
            Ok(counts) => {
                let bits = |buffer: &[f32], count: usize| buffer[..count].iter().map(|x| x.to_bits()).collect();
                Path {
                    kinds: kinds[..counts[0]].to_vec(),
                    fields: bits(&fields, counts[1]),
                    tables: bits(&tables, counts[2]),
                    lengths: bits(&lengths, counts[3]),
                    commands: commands[..counts[4]].to_vec(),
                }
            }
        }
    }
}

impl fmt::Display for Asked {
    fn fmt(&self, out: &mut fmt::Formatter) -> fmt::Result {
        match &self.source {
            Source::List(commands) => write!(out, "{commands:?}")?,
            Source::Text(text) => write!(out, "{text:?}")?,
        }
        match self.short {
            Some(ALL) => write!(out, ", each buffer one short"),
            Some(short) => write!(out, ", buffer {short} one short"),
            None => Ok(()),
        }
    }
}

impl fmt::Display for Answer {
    fn fmt(&self, out: &mut fmt::Formatter) -> fmt::Result {
        match self {
            Path { kinds, fields, tables, lengths, commands } => {
                write!(out, "kinds {kinds:?} fields {fields:X?} tables {tables:X?} lengths {lengths:X?} ")?;
                write!(out, "commands {commands:?}")
            }
            Refused(number, carried) => write!(out, "refused {number} {carried:?}"),
            Unread => write!(out, "not read"),
            Overwritten => write!(out, "a place overwritten"),
        }
    }
}

impl Input for Asked {
    // without a command, of many without an eighth of them, or without a byte
    fn simpler(&self) -> Vec<Asked> {
        let of = |source| Asked { source, short: self.short };
        match &self.source {
            Source::List(commands) if commands.len() > 64 => {
                let eighth = commands.len().div_ceil(8);
                let without = |part: usize| commands.chunks(eighth).enumerate().filter(move |(k, _)| *k != part);
                let fewer = |part| without(part).flat_map(|(_, chunk)| chunk).cloned().collect();
                (0..8).map(|part| of(Source::List(fewer(part)))).collect()
            }
            Source::List(commands) => (0..commands.len())
                .map(|left_out| {
                    let mut fewer = commands.clone();
                    fewer.remove(left_out);
                    of(Source::List(fewer))
                })
                .collect(),
            Source::Text(text) => text
                .char_indices()
                .map(|(at, letter)| of(Source::Text(format!("{}{}", &text[..at], &text[at + letter.len_utf8()..]))))
                .collect(),
        }
    }
}

// ---- lists and texts

/// A coordinate: whole, with thousandths, near another, huge, tiny, special or of any bits.
pub fn number(stream: &mut Stream, kind: u32) -> f32 {
    match if kind == 6 { stream.below(6) } else { kind } {
        0 => stream.below(21) as f32 - 10.0,
        1 => (stream.below(1 << 21) as f32 - 1_048_576.0) / 1000.0,
        2 => (stream.below(3) as f32) * 0.5 + f32::from_bits(0x3380_0000 + stream.below(0x0100_0000)),
        3 => f32::from_bits(stream.bits() & 0x807F_FFFF | (150 + stream.below(60)) << 23),
        4 => f32::from_bits(SPECIALS[stream.below(SPECIALS.len() as u32) as usize]),
        _ => f32::from_bits(stream.bits()),
    }
}

/// A command of such numbers.
pub fn command(stream: &mut Stream, kind: u32) -> PathCommand {
    let point = |stream: &mut Stream| [number(stream, kind), number(stream, kind)];
    match stream.below(12) {
        0 => PathCommand::MoveTo(point(stream)),
        1..3 => PathCommand::LineTo(point(stream)),
        3..5 => PathCommand::QuadTo { control: point(stream), end: point(stream) },
        5..7 => PathCommand::CubicTo { control1: point(stream), control2: point(stream), end: point(stream) },
        7..11 => PathCommand::ArcTo {
            radii: point(stream),
            x_axis_rotation: match stream.below(6) {
                0 | 1 => turns::any(stream),
                2 => number(stream, kind),
                _ => stream.below(721) as f32 - 360.0,
            },
            large_arc: stream.below(2) == 0,
            sweep: stream.below(2) == 0,
            end: point(stream),
        },
        _ => PathCommand::ClosePath,
    }
}

pub fn list(stream: &mut Stream, kind: u32) -> Vec<PathCommand> {
    let count = 1 + stream.below(8);
    let mut commands: Vec<_> = (0..count).map(|_| command(stream, kind)).collect();
    if stream.below(4) != 0 {
        commands.insert(0, PathCommand::MoveTo([number(stream, kind), number(stream, kind)]));
    }
    commands
}

/// A list as a text, some letters in lower case, and some curves without their first control.
pub fn text(stream: &mut Stream, kind: u32) -> String {
    let mut out = String::new();
    for command in list(stream, kind) {
        let (letters, mut numbers) = stored(&[command]);
        let capital = match letters[0] {
            b'C' if stream.below(3) == 0 => b'S',
            b'Q' if stream.below(3) == 0 => b'T',
            letter => letter,
        };
        if capital != letters[0] {
            numbers.drain(..2);
        }
        let letter = if stream.below(3) == 0 { capital.to_ascii_lowercase() } else { capital };
        out.push(letter as char);
        for number in numbers {
            out.push([' ', ',', ' '][stream.below(3) as usize]);
            out.push_str(&if number.is_finite() { format!("{number}") } else { "1e39".to_string() });
        }
    }
    if stream.below(16) == 0 {
        let at = stream.below(out.len() as u32 + 1) as usize;
        out.insert(at, ['x', 'Z', '.', '-', '7', 'e', 'l'][stream.below(7) as usize]);
    }
    out
}

pub const KINDS: [&str; 7] = ["whole", "thousandths", "near", "huge", "special", "any bits", "mixed"];

fn short(stream: &mut Stream) -> Option<usize> {
    (stream.below(8) == 0).then(|| stream.below(ALL as u32 + 1) as usize)
}

/// So many lists and so many texts of each kind of number.
pub fn compare(report: &mut Report, seed: u64, count: u64) {
    compare_known(report);
    compare_long(report);
    makers::compare(report, seed, count / 5);
    for (kind, name) in (0..).zip(KINDS) {
        let mut stream = Stream::new(seed ^ u64::from(kind));
        let lists =
            (0..count).map(move |_| Asked { source: Source::List(list(&mut stream, kind)), short: short(&mut stream) });
        report.group(&format!("building lists, {name}"), lists, Asked::ours, Asked::expected);
        let mut stream = Stream::new(seed ^ 0x7E_0000 ^ u64::from(kind));
        let texts =
            (0..count).map(move |_| Asked { source: Source::Text(text(&mut stream, kind)), short: short(&mut stream) });
        report.group(&format!("building texts, {name}"), texts, Asked::ours, Asked::expected);
    }
}

/// What a text is to answer in buffers with room for so many kinds, fields, tables, running lengths and command numbers: the
/// refusal's number or 0, the counts or what the refusal carries, the total's bits, and what is stored.
#[derive(Default)]
pub struct Due {
    pub number: u32,
    pub values: Vec<u64>,
    pub total: u32,
    pub kinds: Vec<u8>,
    pub numbers: [Vec<u32>; 3],
    pub commands: Vec<u32>,
}

impl Due {
    pub fn of(text: &str, room: [usize; 5]) -> Due {
        let refused = |number, values| Due { number, values, ..Due::default() };
        let commands = match (smooth::try_parse(text), read::theirs(text.as_bytes())) {
            (Ok(commands), _) => commands,
            (Err(_), read::Said::Refused { number, carried }) => return refused(number, carried),
            (Err(error), _) => panic!("{error}"),
        };
        let answer = theirs(&commands);
        let counts = answer.counts().unwrap_or_default();
        let total = alike(turns::path(&commands).open_lengths().1);
        match answer {
            Path { kinds, fields, tables, lengths, commands } => {
                let values = counts.iter().map(|count| *count as u64).collect();
                if counts.iter().zip(room).any(|(count, room)| *count > room) {
                    return refused(8, values);
                }
                Due { number: 0, values, total, kinds, numbers: [fields, tables, lengths], commands }
            }
            Refused(number, [segment, ..]) => refused(number, vec![segment]),
            Unread | Overwritten => panic!("the original builds or is refused"),
        }
    }
}

/// These texts, each in buffers with more room than its path needs.
pub fn compare_texts(report: &mut Report, name: &str, texts: impl Iterator<Item = String>) {
    let asked = texts.map(|text| Asked { source: Source::Text(text), short: None });
    report.group(name, asked, Asked::ours, Asked::expected);
}

/// The path texts that tools/drawings gathers, as texts and as lists.
pub fn compare_drawings(report: &mut Report) {
    let Ok(all) = std::fs::read_to_string("target/drawings/paths.txt") else {
        println!("  no drawings are there: tools/drawings fetches them");
        return;
    };
    let texts: Vec<&str> = all.lines().filter(|line| line.len() <= 65_536).collect();
    let asked = texts.iter().map(|line| Asked { source: Source::Text(line.to_string()), short: None });
    report.group("building drawings", asked, Asked::ours, Asked::expected);
    let asked = texts.iter().filter_map(|line| {
        let commands = smooth::try_parse(line).ok()?;
        Some(Asked { source: Source::List(commands), short: None })
    });
    report.group("building drawings' lists", asked, Asked::ours, Asked::expected);
}

// document 01's and 02's cases, and the order of refusals; what is expected, the command numbers too, is written here
fn compare_known(report: &mut Report) {
    let cases: [(&str, Result<&[u32], (u32, u64)>); 25] = [
        ("", Ok(&[])),
        ("M0 0L1e19 0", Ok(&[1])),
        ("M0 0L2e19 0", Ok(&[1])),
        ("M-3e38 0L3e38 0", Err((11, 0))),
        ("M0 0L3 4L3e38 3e38", Err((11, 1))),
        ("M0 0A1 1 3600 0 0 1 1", Ok(&[1])),
        ("M0 0A1 1 3600.0002441406250 0 0 1 1", Ok(&[1])),
        ("M0 0A1 1 -3e38 0 0 1 1", Ok(&[1])),
        ("M0 0A1 1 1e39 0 0 1 1", Err((10, 0))),
        ("M0 0A1 1 4000 0 0 1e39 4", Err((11, 0))),
        ("M0 0A1 1 1e39 0 0 1e39 4", Err((10, 0))),
        ("M0 0A0 1 1e39 0 0 3 4", Ok(&[1])),
        ("M0 0L3e38 3e38A1 1 1e39 0 0 3 4", Err((11, 0))),
        ("ZL1 2", Ok(&[])),
        ("ZL1 2L3 4Z", Ok(&[2, 3])),
        ("M1 2Z", Ok(&[1])),
        ("M0 0A5e9 5e9 0 0 1 3 4", Err((11, 0))),
        ("M1e39 0Z", Err((11, 0))),
        ("M0 0L3 4M1 1L2 2", Ok(&[1, 3])),
        ("M0 0M1 1M2 2", Ok(&[])),
        ("M1 2ZM3 4ZM5 6Z", Ok(&[1, 3, 5])),
        ("M0 0L0 0L0 0ZZ", Ok(&[1, 2, 3, 4])),
        ("m1 1 2 2 3 3zm1 1 1 1z", Ok(&[1, 2, 3, 5, 6])),
        ("M0 0H1 2 3v4 5", Ok(&[1, 2, 3, 4, 5])),
        ("M0 0C1 2 3 4 5 6s7 8 9 10 1 2 3 4M9 9q1 1 2 2t3 3 4 4", Ok(&[1, 2, 3, 5, 6, 7])),
    ];
    let mut equal = true;
    for (text, expected) in cases {
        let (mut kinds, mut numbers, mut commands) = ([0; 8], [[0.0; 512]; 3], [0; 8]);
        let [fields, tables, lengths] = &mut numbers;
        let given = kihavute::build_text(text.as_bytes(), &mut kinds, fields, tables, lengths, &mut commands)
            .map(|counts| &commands[..counts[4]])
            .map_err(|refusal| (refusal.number(), refusal.carried()[0]));
        if given != expected {
            println!("  DIFFERENT in the cases known: {text:?}: ours {given:?}, expected {expected:?}");
            equal = false;
        }
    }
    report.count(cases.len() as u64, equal);
    let short = cases.iter().flat_map(|(text, _)| {
        (0..=ALL).map(|buffer| Asked { source: Source::Text(text.to_string()), short: Some(buffer) })
    });
    report.group("the cases known, each buffer one short", short, Asked::ours, Asked::expected);
}

// as many commands as a list may have, of which each but the first, or each second one, makes a segment
fn compare_long(report: &mut Report) {
    let line = |k: usize| PathCommand::LineTo([(k % 7) as f32, 0.0]);
    let long = [65_536, 2].map(|run| {
        let commands = (0..65_536).map(|k| if k % run == 0 { PathCommand::MoveTo([0.0, 0.0]) } else { line(k) });
        Asked { source: Source::List(commands.collect()), short: None }
    });
    report.group("building the longest lists", long.into_iter(), Asked::ours, Asked::expected);
}
