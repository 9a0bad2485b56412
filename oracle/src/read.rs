//! Permissive reading: the proved reader against the original's try_parse on texts of UTF-8, with S and T put in by the rule
//! of SVG, and against a second reader on other bytes. Each text is read by both entries, into buffers of several sizes, and
//! every place of them is looked at.

use crate::compare::Report;
use crate::samples::{Stream, damaged};
use crate::smooth;
use crate::strict::Text;
use crate::words;
use animato_path::poly::PathCommand;
use animato_path::svg::SvgPathError;
use std::fmt;

/// What a reader says of a text; a NaN's bits are 7FC00000.
#[derive(Clone, PartialEq)]
pub enum Said {
    Read {
        letters: Vec<u8>,
        numbers: Vec<u32>,
        offsets: Vec<u32>,
    },
    Refused {
        number: u32,
        carried: Vec<u64>,
    },
    /// A place of a buffer is not as it must be, or two calls do not agree.
    Wrong(&'static str),
}

impl fmt::Display for Said {
    fn fmt(&self, f: &mut fmt::Formatter<'_>) -> fmt::Result {
        match self {
            Said::Read { letters, numbers, offsets } => {
                write!(f, "{}", String::from_utf8_lossy(letters))?;
                numbers.iter().try_for_each(|bits| write!(f, " {bits:08X}"))?;
                offsets.iter().try_for_each(|offset| write!(f, " {offset}"))
            }
            Said::Refused { number, carried } => write!(f, "{number} with {carried:?}"),
            Said::Wrong(what) => f.write_str(what),
        }
    }
}

// ---- the proved reader

// what stands in a buffer before a call
const LETTER: u8 = 0xA5;
const NUMBER: u32 = 0x42A5_A5A5;
const OFFSET: u32 = 0xA5A5_A5A5;

// how many places a refusal's number carries; 8 is asked for its counts
fn carries(number: u32) -> usize {
    if number == 6 { 2 } else { 1 }
}

// a refusal's number, and what it carries
type Refused = (u32, [u64; 8]);

// one of the two entries
type Entry = fn(&[u8], &mut [u8], &mut [f32], &mut [u32]) -> Result<(usize, usize), kihavute::Refusal>;

// the three buffers
#[derive(PartialEq)]
struct Buffers {
    letters: Vec<u8>,
    numbers: Vec<u32>,
    offsets: Vec<u32>,
}

impl Buffers {
    fn first(&self, [letters, numbers, offsets]: [usize; 3]) -> Buffers {
        let letters = self.letters[..letters].to_vec();
        Buffers { letters, numbers: self.numbers[..numbers].to_vec(), offsets: self.offsets[..offsets].to_vec() }
    }

    // past so many places of each nothing was written
    fn untouched(&self, [letters, numbers, offsets]: [usize; 3]) -> bool {
        self.letters[letters..].iter().all(|letter| *letter == LETTER)
            && self.numbers[numbers..].iter().all(|bits| *bits == NUMBER)
            && self.offsets[offsets..].iter().all(|offset| *offset == OFFSET)
    }
}

// reads into buffers of so many places; the buffers afterwards
fn read_into(entry: Entry, text: &[u8], places: [usize; 3]) -> (Result<(usize, usize), Refused>, Buffers) {
    let mut letters = vec![LETTER; places[0]];
    let mut numbers = vec![f32::from_bits(NUMBER); places[1]];
    let mut offsets = vec![OFFSET; places[2]];
    let found = entry(text, &mut letters, &mut numbers, &mut offsets);
    let found = found.map_err(|refusal| (refusal.number(), refusal.carried()));
    (found, Buffers { letters, numbers: numbers.into_iter().map(f32::to_bits).collect(), offsets })
}

/// What the proved reader says, by either of its entries.
pub fn ours(text: &[u8]) -> Said {
    let said = by(kihavute::read_into, text);
    if by(kihavute::read_lean_into, text) == said { said } else { Said::Wrong("the lean reading says otherwise") }
}

// what an entry says, after reading into buffers that just hold the list, that hold more, each of which is one place short,
// and that hold nothing
fn by(entry: Entry, text: &[u8]) -> Said {
    let needs = match read_into(entry, text, [0; 3]).0 {
        Ok((letters, numbers)) => [letters, numbers, letters],
        Err((8, carried)) => [carried[0] as usize, carried[1] as usize, carried[2] as usize],
        Err((number, carried)) => {
            let (again, buffers) = read_into(entry, text, [9; 3]);
            return if again != Err((number, carried)) {
                Said::Wrong("another refusal with more room")
            } else if !buffers.untouched([0; 3]) {
                Said::Wrong("a refusal wrote")
            } else {
                Said::Refused { number, carried: carried[..carries(number)].to_vec() }
            };
        }
    };
    if needs[2] != needs[0] {
        return Said::Wrong("not an offset for each letter");
    }
    let mut carried = [0; 8];
    carried[..3].copy_from_slice(&needs.map(|count| count as u64));
    let counts = Ok((needs[0], needs[1]));
    let (found, held) = read_into(entry, text, needs);
    if found != counts {
        return Said::Wrong("other counts with just the room that was asked for");
    }
    let (found, longer) = read_into(entry, text, needs.map(|count| count + 3));
    if found != counts || longer.first(needs) != held {
        return Said::Wrong("another list with more room");
    }
    if !longer.untouched(needs) {
        return Said::Wrong("a place past the list was written");
    }
    for (output, what) in ["no room for a letter", "no room for a number", "no room for an offset"].iter().enumerate() {
        let Some(less) = needs[output].checked_sub(1) else { continue };
        let mut places = needs.map(|count| count + 1);
        places[output] = less;
        let (found, buffers) = read_into(entry, text, places);
        if found != Err((8, carried)) || !buffers.untouched([0; 3]) {
            return Said::Wrong(what);
        }
    }
    Said::Read { letters: held.letters, numbers: held.numbers, offsets: held.offsets }
}

// ---- the original

fn tidy(numbers: &[f32]) -> impl Iterator<Item = u32> {
    numbers.iter().map(|x| if x.is_nan() { 0x7FC0_0000 } else { x.to_bits() })
}

fn list<'a>(commands: impl Iterator<Item = (u8, &'a [f32], usize)>) -> Said {
    let (mut letters, mut numbers, mut offsets) = (Vec::new(), Vec::new(), Vec::new());
    for (letter, values, offset) in commands {
        letters.push(letter);
        numbers.extend(tidy(values));
        offsets.push(offset as u32);
    }
    Said::Read { letters, numbers, offsets }
}

fn stored(command: &PathCommand) -> (u8, Vec<f32>) {
    match *command {
        PathCommand::MoveTo(end) => (b'M', end.to_vec()),
        PathCommand::LineTo(end) => (b'L', end.to_vec()),
        PathCommand::QuadTo { control, end } => (b'Q', [control, end].concat()),
        PathCommand::CubicTo { control1, control2, end } => (b'C', [control1, control2, end].concat()),
        PathCommand::ArcTo { radii, x_axis_rotation, large_arc, sweep, end } => {
            let flag = |flag| if flag { 1.0 } else { 0.0 };
            (b'A', vec![radii[0], radii[1], x_axis_rotation, flag(large_arc), flag(sweep), end[0], end[1]])
        }
        PathCommand::ClosePath => (b'Z', vec![]),
    }
}

/// What the original says of a text of UTF-8. It has no offsets: they are where the letters stand between which it reads more.
pub fn theirs(text: &[u8]) -> Said {
    let text = std::str::from_utf8(text).expect("the original reads UTF-8");
    let (number, carried) = match smooth::try_parse(text) {
        Ok(commands) => {
            let offsets = smooth::offsets(text, commands.len());
            let commands: Vec<_> = commands.iter().map(stored).collect();
            let commands = commands.iter().zip(offsets);
            return list(commands.map(|((letter, numbers), offset)| (*letter, &numbers[..], offset)));
        }
        Err(SvgPathError::UnexpectedEnd { at }) => (2, vec![at as u64]),
        Err(SvgPathError::ExpectedNumber { at }) => (3, vec![at as u64]),
        Err(SvgPathError::InvalidNumber { at }) => (4, vec![at as u64]),
        Err(SvgPathError::ExpectedFlag { at }) => (5, vec![at as u64]),
        Err(SvgPathError::UnsupportedCommand { command, at }) => (6, vec![u64::from(command), at as u64]),
        Err(SvgPathError::MissingMoveTo { at }) => (7, vec![at as u64]),
    };
    Said::Refused { number, carried }
}

/// What the second reader says of a text of any bytes.
pub fn second(text: &[u8]) -> Said {
    match words::read(text) {
        Ok(commands) => list(commands.iter().map(|(letter, numbers, offset)| (*letter, &numbers[..], *offset))),
        Err((number, carried)) => Said::Refused { number, carried },
    }
}

/// What the original says, or of other bytes than UTF-8 the second reader.
pub fn judge(text: &[u8]) -> Said {
    if std::str::from_utf8(text).is_ok() { theirs(text) } else { second(text) }
}

// ---- all texts

// bytes at which a wrong class, a wrong end, a wrong case or a wrong place shows
pub const TELLING: [u8; 17] = *b"MmLhZST01.-+e, \x0C#";

const COUNT: u64 = TELLING.len() as u64;

// a start, then up to so many telling bytes
fn texts(start: &[u8], more: u32) -> impl Iterator<Item = Text> {
    (0..=more).flat_map(move |bytes| {
        (0..COUNT.pow(bytes)).map(move |number| {
            let tail = (0..bytes).map(|place| TELLING[(number / COUNT.pow(place) % COUNT) as usize]);
            Text(start.iter().copied().chain(tail).collect())
        })
    })
}

fn compare_texts(report: &mut Report, name: &str, inputs: impl Iterator<Item = Text>) -> u64 {
    let calls = report.group(name, inputs, |text| ours(&text.0), |text| theirs(&text.0));
    println!("  {name}: {calls} texts, {:.0} s", report.seconds());
    calls
}

fn short_texts(report: &mut Report, bytes: u32) {
    compare_texts(report, "the empty text", texts(b"", 0));
    for byte in TELLING {
        let name = format!("{:?} and up to {} of {COUNT} bytes", char::from(byte), bytes - 1);
        compare_texts(report, &name, texts(&[byte], bytes - 1));
    }
}

// a path that lacks the last argument of a group, for each letter, S and T behind a cubic, a quad and a line; and an arc that
// lacks its flags
const STARTS: [&str; 31] = [
    "M0 0",
    "M0 0M1",
    "M0 0m1",
    "M0 0L1",
    "M0 0l1",
    "M0 0H",
    "M0 0h",
    "M0 0V",
    "M0 0v",
    "M0 0C1 2 3 4 5",
    "M0 0c1 2 3 4 5",
    "M0 0Q1 2 3",
    "M0 0q1 2 3",
    "M0 0A1 2 3 0 1 4",
    "M0 0a1 2 3 0 1 4",
    "M0 0A1 2 3",
    "M0 0a1 2 3 0",
    "M0 0Z",
    "M1 2m3 4z",
    "M0 0C1 2 3 4 5 6S7 8 9",
    "M0 0C1 2 3 4 5 6s7 8 9",
    "M0 0C1 2 3 4 5 6T7",
    "M0 0C1 2 3 4 5 6t7",
    "M0 0Q1 2 3 4S5 6 7",
    "M0 0Q1 2 3 4s5 6 7",
    "M0 0Q1 2 3 4T5",
    "M0 0Q1 2 3 4t5",
    "M0 0L1 2S3 4 5",
    "M0 0L1 2s3 4 5",
    "M0 0L1 2T3",
    "M0 0L1 2t3",
];

fn tails(report: &mut Report, bytes: u32) {
    for start in STARTS {
        compare_texts(report, &format!("{start:?} and up to {bytes} of {COUNT} bytes"), texts(start.as_bytes(), bytes));
    }
}

// ---- 4 has one cause

// the bytes of a number
const OF_A_NUMBER: [u8; 8] = *b"019+-.eE";

// M, then up to so many bytes of a number
fn numbers(most: u32) -> impl Iterator<Item = Text> {
    (0..=most).flat_map(|bytes| {
        (0..8u64.pow(bytes)).map(move |number| {
            let tail = (0..bytes).map(|place| OF_A_NUMBER[(number >> (3 * place)) as usize % 8]);
            Text(std::iter::once(b'M').chain(tail).collect())
        })
    })
}

// what the original says, where each 4 is at an e
fn theirs_at_an_e(text: &Text) -> Said {
    match theirs(&text.0) {
        Said::Refused { number: 4, carried } if !b"eE".contains(&text.0[carried[0] as usize]) => {
            Said::Wrong("4 where no e stands")
        }
        said => said,
    }
}

/// Ours and the second reader against the original; none of these texts fails to convert.
pub fn bare_exponents(report: &mut Report, most: u32) {
    let name = format!("M and up to {most} bytes of a number, each 4 at an e");
    let calls = report.group(&name, numbers(most), |text| ours(&text.0), theirs_at_an_e);
    report.group("the same, the second reader", numbers(most), |text| second(&text.0), theirs_at_an_e);
    let bare = numbers(most).filter(|text| matches!(theirs(&text.0), Said::Refused { number: 4, .. })).count();
    println!("  {name}: {calls} texts, {bare} of them 4, {:.0} s", report.seconds());
}

// ---- made texts

/// Texts as a careless writer of paths would make them.
pub struct Paths(pub Stream);

impl Paths {
    fn pick(&mut self, bytes: &[u8]) -> u8 {
        bytes[self.0.below(bytes.len() as u32) as usize]
    }

    fn one_in(&mut self, count: u32) -> bool {
        self.0.below(count) == 0
    }

    fn separators(&mut self, text: &mut Vec<u8>, least: u32) {
        let count = match self.0.below(4) {
            0 => least,
            1 | 2 => 1,
            _ => 1 + self.0.below(3),
        };
        for _ in 0..count {
            let byte = if self.one_in(3) { self.pick(b",\t\n\x0C\r") } else { b' ' };
            text.push(byte);
        }
    }

    fn digits(&mut self, text: &mut Vec<u8>, most: u32) {
        for _ in 0..=self.0.below(most) {
            let digit = self.pick(b"0123456789");
            text.push(digit);
        }
    }

    fn number(&mut self, text: &mut Vec<u8>) {
        // a sign or a point parts a number from the one before it
        let joined = self.one_in(3);
        if !joined {
            self.separators(text, 1);
        }
        match self.0.below(if joined { 2 } else { 4 }) {
            0 => text.push(b'-'),
            1 if joined || self.one_in(4) => text.push(b'+'),
            _ => {}
        }
        match self.0.below(12) {
            0 => text.push(b'0'),
            1..6 => self.digits(text, 3),
            6 => self.digits(text, 20),
            7 => {
                text.push(b'.');
                self.digits(text, 4);
            }
            _ => {
                self.digits(text, 4);
                text.push(b'.');
                let most = if self.one_in(20) { 60 } else { 6 };
                self.digits(text, most);
            }
        }
        if self.one_in(8) {
            let e = self.pick(b"eE");
            text.push(e);
            if self.one_in(2) {
                let sign = self.pick(b"+-");
                text.push(sign);
            }
            self.digits(text, 2);
        }
    }

    fn flag(&mut self, text: &mut Vec<u8>) {
        self.separators(text, 0);
        let flag = self.pick(b"01");
        text.push(flag);
    }

    /// A path of a few commands.
    pub fn text(&mut self) -> Vec<u8> {
        let mut text = Vec::new();
        if !self.one_in(16) {
            let letter = self.pick(b"MMm");
            text.push(letter);
            self.number(&mut text);
            self.number(&mut text);
        }
        for _ in 0..self.0.below(7) {
            self.separators(&mut text, 0);
            let letter = self.pick(b"MmLlHhVvCcSsQqTtAaZzLlCcSsTtAa");
            text.push(letter);
            if letter | 32 == b'z' {
                continue;
            }
            let groups = if self.one_in(2) { 1 } else { 1 + self.0.below(3) };
            for _ in 0..groups {
                match letter | 32 {
                    b'h' | b'v' => self.number(&mut text),
                    b'a' => {
                        (0..3).for_each(|_| self.number(&mut text));
                        (0..2).for_each(|_| self.flag(&mut text));
                        (0..2).for_each(|_| self.number(&mut text));
                    }
                    other => {
                        let numbers = match other {
                            b'c' => 6,
                            b'q' | b's' => 4,
                            _ => 2,
                        };
                        (0..numbers).for_each(|_| self.number(&mut text));
                    }
                }
            }
        }
        text
    }

    /// A copy with a few bytes changed.
    pub fn damaged(&mut self, text: &[u8]) -> Vec<u8> {
        damaged(&mut self.0, text, &TELLING, b"SsTtQqAaCcVv")
    }
}

// a text and a damaged copy of it, in turn; where the damage leaves no UTF-8, only the text
fn made(seed: u64, count: u64) -> impl Iterator<Item = Text> {
    let mut paths = Paths(Stream::new(seed));
    (0..count / 2)
        .flat_map(move |_| {
            let text = paths.text();
            let other = paths.damaged(&text);
            [text, other]
        })
        .filter(|text| std::str::from_utf8(text).is_ok())
        .map(Text)
}

/// So many made texts and damaged copies.
pub fn compare_made(report: &mut Report, seed: u64, count: u64) {
    // in parts, so that a long run shows how far it is
    let part = count.min(2_000_000);
    for turn in 0..count / part {
        let seed = seed.wrapping_add(turn);
        compare_texts(report, &format!("made texts and damaged copies, seed {seed}"), made(seed, part));
    }
}

// ---- other bytes

fn any_bytes(seed: u64, count: u64) -> impl Iterator<Item = Text> {
    let mut paths = Paths(Stream::new(seed));
    (0..count).map(move |turn| match turn % 4 {
        // bytes of every kind
        0 => Text((0..paths.0.below(12)).map(|_| paths.0.bits() as u8).collect()),
        // a path with bytes above 127 in it
        1 | 2 => {
            let mut text = paths.text();
            for _ in 0..=paths.0.below(2) {
                let place = paths.0.below(text.len() as u32 + 1) as usize;
                text.insert(place, paths.0.bits() as u8 | 128);
            }
            Text(text)
        }
        _ => {
            let text = paths.text();
            Text(paths.damaged(&text))
        }
    })
}

fn other_bytes(report: &mut Report, seed: u64, count: u64) {
    let name = format!("any bytes against the second reader, seed {seed}");
    let calls = report.group(&name, any_bytes(seed, count), |text| ours(&text.0), |text| second(&text.0));
    println!("  {name}: {calls} texts, {:.0} s", report.seconds());
    // the second reader is no better than its agreement with the original
    let utf8 = any_bytes(seed, count).filter(|text| std::str::from_utf8(&text.0).is_ok());
    let name = "those of UTF-8, the second reader against the original";
    let calls = report.group(name, utf8, |text| second(&text.0), |text| theirs(&text.0));
    println!("  {name}: {calls} texts, {:.0} s", report.seconds());
}

// ---- long texts

// 65,536 bytes are read, one more is not
fn long_texts(report: &mut Report) {
    let inputs =
        ["", "z", "M0 0h1 ", "M.1.1", "M0 0c1 2 3 4 5 6,", "M0 0s1 2 3 4,", "1", "-", "M1e", "M0 0a1 1 0 00.1.1 "]
            .iter()
            .flat_map(|part| {
                [65_535, 65_536, 65_537].map(|size| {
                    let repeated = part.bytes().cycle().take(if part.is_empty() { 0 } else { size });
                    let mut text: Vec<u8> = repeated.collect();
                    text.resize(size, b' ');
                    Text(text)
                })
            });
    let judge = |text: &Text| if text.0.len() > 65_536 { second(&text.0) } else { judge(&text.0) };
    let calls = report.group("texts of about 65,536 bytes", inputs, |text| ours(&text.0), judge);
    println!("  texts of about 65,536 bytes: {calls} texts, {:.0} s", report.seconds());
}

// so many commands, whole or with an end that is refused, that the reader's own buffers of 256 letters and 512 numbers,
// and past 2,048 bytes of 1,024 and 4,096, are just full or one command too small
fn full_buffers(report: &mut Report) {
    let parts = ["z", "h1 ", "l1 2 ", "t1 2 ", "q1 2 3 4 ", "s1 2 3 4 ", "c1 2 3 4 5 6 ", "a1 2 3 011.5 6 "];
    let counts = [84, 85, 86, 127, 128, 129, 254, 255, 256, 257, 258, 682, 683, 1022, 1023, 1024, 1025, 2046, 2047, 2048];
    let ends = ["", "z", "l7 8", "h", "l1", "x", "a1 1 0 2", "l1e"];
    let mut inputs = Vec::new();
    for part in parts {
        for count in counts {
            for end in ends {
                for padding in [0, 2048] {
                    let text = format!("M0 0{}{end}{}", part.repeat(count), " ".repeat(padding));
                    inputs.push(Text(text.into_bytes()));
                }
            }
        }
    }
    compare_texts(report, "texts about the reader's own buffers", inputs.into_iter());
}

// ---- stored lists

#[derive(Clone)]
struct List {
    letters: Vec<u8>,
    numbers: Vec<u32>,
}

impl fmt::Display for List {
    fn fmt(&self, f: &mut fmt::Formatter<'_>) -> fmt::Result {
        Said::Read { letters: self.letters.clone(), numbers: self.numbers.clone(), offsets: vec![] }.fmt(f)
    }
}

impl crate::compare::Input for List {
    fn simpler(&self) -> Vec<List> {
        let fewer_letters = (0..self.letters.len()).map(|place| {
            let mut list = self.clone();
            list.letters.remove(place);
            list
        });
        let fewer_numbers = (0..self.numbers.len()).map(|place| {
            let mut list = self.clone();
            list.numbers.remove(place);
            list
        });
        fewer_letters.chain(fewer_numbers).collect()
    }
}

// what the check says of a list
fn checked(list: &List) -> Said {
    let numbers: Vec<f32> = list.numbers.iter().map(|bits| f32::from_bits(*bits)).collect();
    match kihavute::check_commands(&list.letters, &numbers) {
        Ok(()) => Said::Read { letters: vec![], numbers: vec![], offsets: vec![] },
        Err(refusal) => Said::Refused { number: refusal.number(), carried: refusal.carried()[..1].to_vec() },
    }
}

fn due(list: &List) -> Said {
    match words::check(&list.letters, &list.numbers) {
        Ok(()) => Said::Read { letters: vec![], numbers: vec![], offsets: vec![] },
        Err((number, carried)) => Said::Refused { number, carried },
    }
}

// lists that were read, and the same with a letter or a number changed, left out or put in
fn read_lists(seed: u64, count: u64) -> impl Iterator<Item = List> {
    let mut paths = Paths(Stream::new(seed));
    (0..count).filter_map(move |_| {
        let text = paths.text();
        let Said::Read { mut letters, mut numbers, .. } = second(&text) else { return None };
        let stream = &mut paths.0;
        let letter = b"MLQCAZHmz\0\xFF"[stream.below(11) as usize];
        let number = [0, 0x3F80_0000, 0x8000_0000, 0x4000_0000, 0x7FC0_0000][stream.below(5) as usize];
        let (place, at) =
            (stream.below(letters.len() as u32 + 1) as usize, stream.below(numbers.len() as u32 + 1) as usize);
        match stream.below(8) {
            0 => letters.insert(place, letter),
            1 if place < letters.len() => letters[place] = letter,
            2 if place < letters.len() => drop(letters.remove(place)),
            3 => numbers.insert(at, number),
            4 | 5 if at < numbers.len() => numbers[at] = number,
            6 if at < numbers.len() => drop(numbers.remove(at)),
            _ => {}
        }
        Some(List { letters, numbers })
    })
}

fn lists(report: &mut Report, seed: u64, count: u64) {
    let long = [65_536, 65_537].map(|size| List { letters: vec![b'Z'; size], numbers: vec![0; size - 65_536] });
    let inputs = read_lists(seed, count).chain(long);
    let name = format!("stored lists, seed {seed}");
    let calls = report.group(&name, inputs, checked, due);
    let inputs = read_lists(seed, count);
    let well_formed = inputs.filter(|list| due(list) == Said::Read { letters: vec![], numbers: vec![], offsets: vec![] }).count();
    println!("  {name}: {calls} lists, {well_formed} well formed, {:.0} s", report.seconds());
}

// ---- real drawings

/// The path texts that tools/drawings gathers.
pub fn gathered() -> Option<Vec<Vec<u8>>> {
    let file = std::fs::read("target/drawings/paths.txt").ok()?;
    Some(file.split(|byte| *byte == b'\n').filter(|text| !text.is_empty()).map(<[u8]>::to_vec).collect())
}

/// Real texts, and each of them damaged a few times.
pub fn compare_drawings(report: &mut Report, seed: u64) {
    let Some(gathered) = gathered() else {
        println!("  no path texts: run tools/drawings first");
        report.count(1, false);
        return;
    };
    let real = || gathered.iter().map(|text| Text(text.clone()));
    let calls = compare_texts(report, "real drawings", real());
    let read = gathered.iter().filter(|text| matches!(second(text), Said::Read { .. })).count();
    println!("  {read} of {calls} are read, {} bytes", gathered.iter().map(Vec::len).sum::<usize>());
    let mut paths = Paths(Stream::new(seed));
    let broken = gathered.iter().flat_map(|text| (0..8).map(|_| Text(paths.damaged(text))).collect::<Vec<_>>());
    let calls = report.group("real drawings, damaged", broken, |text| ours(&text.0), |text| judge(&text.0));
    println!("  real drawings, damaged: {calls} texts, {:.0} s", report.seconds());
}

// ---- the runs

/// What the gate runs: shorter texts, shorter tails and fewer made ones.
pub fn compare_some(report: &mut Report, seed: u64) {
    compare_texts(report, &format!("all texts of up to 4 of {COUNT} bytes"), texts(b"", 4));
    let inputs = STARTS.iter().flat_map(|start| texts(start.as_bytes(), 2));
    compare_texts(report, "all tails of up to 2 after each command", inputs);
    bare_exponents(report, 6);
    compare_made(report, seed, 200_000);
    other_bytes(report, seed, 200_000);
    long_texts(report);
    full_buffers(report);
    lists(report, seed, 100_000);
}

/// All texts of up to 6 telling bytes, all tails of up to 5 after each command with all its arguments but one, and all of
/// up to 6 bytes of a number behind M.
pub fn compare_all(report: &mut Report, seed: u64) {
    short_texts(report, 6);
    tails(report, 5);
    bare_exponents(report, 6);
    other_bytes(report, seed, 5_000_000);
    long_texts(report);
    full_buffers(report);
    lists(report, seed, 1_000_000);
}
