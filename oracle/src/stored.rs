//! The check of a stored path: paths that the original builds, whole and damaged, against a second check that is written
//! here from document 01's sentence alone, and from document 02's, L5, for the command numbers.

use crate::compare::{Input, Report};
use crate::makers;
use crate::samples::{SPECIALS, Stream};
use animato_path::poly::{CompoundPath, PathCommand, PathSegment};
use std::cell::Cell;
use std::fmt;

/// The five buffers of a path.
#[derive(Clone)]
pub struct Buffers {
    kinds: Vec<u8>,
    fields: Vec<f32>,
    tables: Vec<f32>,
    lengths: Vec<f32>,
    commands: Vec<u32>,
}

impl Buffers {
    /// The path of these commands as the documents store it.
    fn of(commands: &[PathCommand]) -> Buffers {
        let path = CompoundPath::from_commands(commands);
        let lengths = path.open_lengths().0.to_vec();
        let commands = makers::numbers(commands);
        let mut buffers = Buffers { kinds: Vec::new(), fields: Vec::new(), tables: Vec::new(), lengths, commands };
        for segment in path.segments() {
            buffers.store(segment);
        }
        buffers
    }

    fn store(&mut self, segment: &PathSegment) {
        let (kind, points, table) = match segment {
            PathSegment::Line(line) => (0, vec![line.start(), line.end()], None),
            PathSegment::Quad(quad) => (1, vec![quad.start(), quad.control(), quad.end()], Some(quad.open_table())),
            PathSegment::Cubic(cubic) => {
                (2, vec![cubic.start(), cubic.control1(), cubic.control2(), cubic.end()], Some(cubic.open_table()))
            }
            PathSegment::Arc(arc) => {
                let points = vec![arc.start(), arc.end(), arc.center(), arc.radii()];
                if arc.open_is_fallback() { (4, points, None) } else { (3, points, Some(arc.open_table())) }
            }
        };
        self.kinds.push(kind);
        self.fields.extend(points.as_flattened());
        if let PathSegment::Arc(arc) = segment {
            self.fields.extend(arc.open_angles());
        }
        if let Some((entries, total)) = table {
            self.tables.extend(entries);
            self.tables.push(total);
        }
    }

    // the proved check
    fn ours(&self) -> bool {
        match kihavute::check(&self.kinds, &self.fields, &self.tables, &self.lengths, &self.commands) {
            Ok(count) => count == self.kinds.len(),
            Err(refusal) => refusal.number() != 12 || refusal.carried() != [0; 8],
        }
    }

    // "at most 65,536 segments of known kinds with exactly their numbers and tables; one running length each, finite, not
    // below 0, never falling; each table starts at 0, is finite, never falls, and its total is its last entry": the buffers are
    // eaten up from their starts. "BadPath also when command numbers are not one per segment, or fall."
    fn second(&self) -> bool {
        let (mut fields, mut tables) = (&self.fields[..], &self.tables[..]);
        if self.kinds.len() > 65_536 || self.kinds.len() != self.lengths.len() {
            return false;
        }
        if self.commands.len() != self.kinds.len() || !self.commands.is_sorted() {
            return false;
        }
        let mut before = 0.0;
        for (kind, length) in self.kinds.iter().zip(&self.lengths) {
            let (numbers, tabled) = match kind {
                0 => (4, false),
                1 => (6, true),
                2 => (8, true),
                3 => (11, true),
                4 => (11, false),
                _ => return false,
            };
            let Some((_, rest)) = fields.split_at_checked(numbers) else { return false };
            fields = rest;
            if tabled {
                let Some((table, rest)) = tables.split_at_checked(33) else { return false };
                tables = rest;
                let falls = table[..32].windows(2).any(|pair| !(pair[0] <= pair[1]));
                let wild = table.iter().any(|entry| !entry.is_finite());
                if table[0] != 0.0 || falls || wild || table[32] != table[31] {
                    return false;
                }
            }
            if !length.is_finite() || *length < 0.0 || *length < before {
                return false;
            }
            before = *length;
        }
        fields.is_empty() && tables.is_empty()
    }

    // one place made wrong, or perhaps right again
    fn damage(&mut self, stream: &mut Stream) {
        match stream.below(16) {
            0 if !self.kinds.is_empty() => {
                let place = stream.below(self.kinds.len() as u32) as usize;
                self.kinds[place] = if stream.below(4) == 0 { stream.below(256) as u8 } else { stream.below(6) as u8 };
            }
            1 => cut_or_grow(&mut self.kinds, stream.below(5) as u8, stream),
            2 => cut_or_grow(&mut self.fields, 1.0, stream),
            3 => {
                let number = other(0.0, stream);
                cut_or_grow(&mut self.tables, number, stream)
            }
            4 => {
                let last = self.lengths.last().copied().unwrap_or(0.0);
                let number = other(last, stream);
                cut_or_grow(&mut self.lengths, number, stream)
            }
            5 | 6 => change(&mut self.lengths, stream),
            7 if !self.fields.is_empty() => change(&mut self.fields, stream),
            8 if self.tables.len() >= 33 => {
                // a total, or the entry before it
                let table = stream.below(self.tables.len() as u32 / 33) as usize;
                let place = 33 * table + 32 - stream.below(2) as usize;
                self.tables[place] = other(self.tables[place], stream);
            }
            9 if self.tables.len() >= 33 => {
                // a start
                let table = stream.below(self.tables.len() as u32 / 33) as usize;
                self.tables[33 * table] = other(0.0, stream);
            }
            10 => {
                let number = another(self.commands.last().copied().unwrap_or(0), stream);
                cut_or_grow(&mut self.commands, number, stream)
            }
            11..14 if !self.commands.is_empty() => {
                let place = stream.below(self.commands.len() as u32) as usize;
                self.commands[place] = match stream.below(4) {
                    // that of the segment before, or of the one behind, or one less or one more than these
                    0 if place > 0 => self.commands[place - 1].wrapping_sub(stream.below(2)),
                    1 if place + 1 < self.commands.len() => self.commands[place + 1].wrapping_add(stream.below(2)),
                    _ => another(self.commands[place], stream),
                };
            }
            _ => change(&mut self.tables, stream),
        }
    }
}

fn cut_or_grow<T: Copy>(list: &mut Vec<T>, with: T, stream: &mut Stream) {
    if stream.below(2) == 0 {
        list.pop();
    } else {
        list.push(with);
    }
}

fn change(list: &mut [f32], stream: &mut Stream) {
    if !list.is_empty() {
        let place = stream.below(list.len() as u32) as usize;
        list[place] = other(list[place], stream);
    }
}

// a number near this one, or one at which mistakes show
fn other(number: f32, stream: &mut Stream) -> f32 {
    match stream.below(5) {
        0 => f32::from_bits(number.to_bits() ^ 1 << stream.below(32)),
        1 => number.next_up(),
        2 => number.next_down(),
        3 => -number,
        _ => f32::from_bits(SPECIALS[stream.below(SPECIALS.len() as u32) as usize]),
    }
}

// a command number that is lower, higher or the same, or one of the largest
fn another(number: u32, stream: &mut Stream) -> u32 {
    match stream.below(6) {
        0 => number,
        1 => number.wrapping_sub(1),
        2 => number.wrapping_add(1),
        3 => u32::MAX - stream.below(2),
        4 => number ^ 1 << stream.below(32),
        _ => 0,
    }
}

impl Input for Buffers {
    fn simpler(&self) -> Vec<Buffers> {
        let mut found = Vec::new();
        if self.kinds.len() > 1 && self.lengths.len() == self.kinds.len() {
            // the path without its last segment
            let mut less = self.clone();
            less.kinds.pop();
            less.lengths.pop();
            less.commands.pop();
            found.push(less);
        }
        if !self.commands.is_empty() {
            let mut less = self.clone();
            less.commands.pop();
            found.push(less);
        }
        for cut in [1, 33] {
            if self.tables.len() >= cut {
                let mut less = self.clone();
                less.tables.truncate(self.tables.len() - cut);
                found.push(less);
            }
            if self.fields.len() >= cut {
                let mut less = self.clone();
                less.fields.truncate(self.fields.len() - cut);
                found.push(less);
            }
        }
        found
    }
}

impl fmt::Display for Buffers {
    fn fmt(&self, f: &mut fmt::Formatter) -> fmt::Result {
        let bits = |list: &[f32]| list.iter().map(|x| format!(" {:08X}", x.to_bits())).collect::<String>();
        write!(
            f,
            "kinds {:?} fields{} tables{} lengths{} commands {:?}",
            self.kinds,
            bits(&self.fields),
            bits(&self.tables),
            bits(&self.lengths),
            self.commands
        )
    }
}

// coordinates of ordinary plans, and now and then one at which mistakes show
fn coordinate(stream: &mut Stream) -> f32 {
    if stream.below(40) == 0 {
        return f32::from_bits(SPECIALS[stream.below(SPECIALS.len() as u32) as usize]);
    }
    (stream.below(20_001) as f32 - 10_000.0) / 16.0
}

fn command(stream: &mut Stream) -> PathCommand {
    let mut point = || [coordinate(stream), coordinate(stream)];
    let (end, control, control1) = (point(), point(), point());
    match stream.below(8) {
        0 => PathCommand::MoveTo(end),
        1 | 2 => PathCommand::LineTo(end),
        3 => PathCommand::QuadTo { control, end },
        4 => PathCommand::CubicTo { control1, control2: control, end },
        5 | 6 => PathCommand::ArcTo {
            radii: if stream.below(4) == 0 { [0.0, control[1]] } else { control },
            x_axis_rotation: coordinate(stream),
            large_arc: stream.below(2) == 0,
            sweep: stream.below(2) == 0,
            end,
        },
        _ => PathCommand::ClosePath,
    }
}

// a path of up to 12 commands, damaged up to three times
fn damaged(stream: &mut Stream, damages: u32) -> Buffers {
    let mut commands = vec![PathCommand::MoveTo([0.0, 0.0])];
    for _ in 0..stream.below(12) {
        commands.push(command(stream));
    }
    let mut buffers = Buffers::of(&commands);
    for _ in 0..damages {
        buffers.damage(stream);
    }
    buffers
}

/// Both checks on paths as they are built, on paths damaged once to three times, and on long ones.
pub fn compare(report: &mut Report, seed: u64, count: u64) {
    for (name, damages) in [("whole", 0), ("damaged once", 1), ("damaged twice", 2), ("damaged three times", 3)] {
        let mut stream = Stream::new(seed ^ u64::from(damages));
        let stored = Cell::new(0);
        let calls = report.group(
            &format!("stored paths, {name}"),
            (0..count).map(|_| damaged(&mut stream, damages)),
            |buffers| buffers.ours(),
            |buffers| {
                let passed = buffers.second();
                stored.set(stored.get() + u32::from(passed));
                passed
            },
        );
        println!("  stored paths, {name}: {calls} checked, of which {} are stored", stored.get());
    }
    // lines of so many commands, numbered by a rule
    let long = |segments: usize, number: fn(u32) -> u32| Buffers {
        kinds: vec![0; segments],
        fields: vec![0.0; 4 * segments],
        tables: Vec::new(),
        lengths: vec![1.0; segments],
        commands: (0..segments as u32).map(number).collect(),
    };
    let rules: [fn(u32) -> u32; 5] =
        [|k| k, |_| 7, |k| u32::MAX - 65_536 + k, |k| k ^ 1, |k| if k < 65_535 { k } else { 65_533 }];
    let lengths = [0, 65_535, 65_536, 65_537];
    report.group(
        "stored paths, as long as may be",
        rules.iter().flat_map(|number| lengths.map(|segments| long(segments, *number))),
        |buffers| buffers.ours(),
        |buffers| buffers.second(),
    );
}
