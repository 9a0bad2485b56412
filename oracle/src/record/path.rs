//! The list of recorded buildings, b, that the program replay_paths runs through the proved crates.
//!
//! A record is 128 bytes: the text's length as two digits; the text and blanks up to 90 bytes; the refusal's number or 0 as two
//! digits, and three values as three digits each, the counts of kinds, fields and tables where the path is built; the total
//! as eight hexadecimal digits; what buffers of 8 kinds, 88 fields, 264 numbers of tables, 8 running lengths and 8 command numbers
//! hold afterwards, the kinds as digits, all else mixed to one pattern; and a line's end. A place that is not written holds 9 or 77.

use crate::build::{Due, compare_texts};
use crate::compare::Report;
use crate::read::Paths;
use crate::samples::Stream;

// the longest text that a record holds, and the places of the buffers: 8 segments of any kind
const LONGEST: usize = 90;
const KINDS: usize = 8;
const NUMBERS: [usize; 3] = [88, 264, 8];

const RECORDS: usize = 600;

// texts with a letter, texts with a kind of segment, texts of each refusal of building, of reading and of room
const LETTERS: usize = 13;
const SEGMENTS: usize = 24;
const UNBUILT: usize = 50;
const UNREAD: usize = 6;

// what document 01 decides, and where a mistake would show
const TELLING: [&str; 56] = [
    "M0 0L1e19 0",
    "M0 0L2e19 0",
    "M-3e38 0L3e38 0",
    "M0 0L3e38 3e38",
    "M0 0L1e-45 1e-45",
    "M0 0A1 1 3600 0 0 1 1",
    "M0 0A1 1 3600.0002441 0 0 1 1",
    "ZL1 2",
    "M1 2Z",
    "",
    "M1 2",
    "M0 0L3 4",
    "M0 0L3 4Z",
    "M0 0L3 4Z Z",
    "m1 2l3 4zl5 6",
    "ZL1 2L3 4Z",
    "M0 0L3 4M5 6L7 8Z",
    "M0 0H5V5h-5v-5",
    "M1 1L1 1",
    "M-0-0L-0-0",
    "M0 0L3 4L2e19 0",
    "M0 0L3 4L3e38 3e38",
    "M0 0L1e19 0L0 0L1e19 0",
    "M0 0A1 1-3600 0 0 1 1",
    "M0 0A1 1-3600.0002441 0 0 1 1",
    "M0 0A1 1 4000 0 0 1e39 4",
    "M0 0A0 1 4000 0 0 3 4",
    "M0 0A1 0 4000 0 0 3 4",
    "M1 1A2 3 4000 0 0 1 1",
    "M0 0L3e38 3e38A1 1 4000 0 0 3 4",
    "M0 0A1 1 4000 0 0 3 4L3e38 3e38",
    "M0 0A5e9 5e9 0 0 1 3 4",
    "M0 0A-5-5 30 1 1 3 4",
    "M0 0A1 1 0 0 0 3 4",
    "M0 0A9 1 45 0 1 3 4",
    "M0 0A9 1 45 1 0 3 4",
    "M0 0A1e-9 1e-9 0 0 1 3 4",
    "M0 0A1e39 1 0 0 0 3 4",
    "M1e39 0Z",
    "M1e39 0",
    "M1e39 0m-1e39 0L1 1",
    "M0 0L3e38 3e38X",
    "M0 0A1 1 4000 0 0 1 1L1",
    "M0 0Q1 2 3 4",
    "M0 0Q0 0 0 0",
    "M0 0C1 2 3 4 5 6",
    "M0 0c0 0 1e-30 0 1e-30 0",
    "M0 0S1 2 3 4",
    "M1 2T4 6T9 9",
    "ZS9 8 7 6",
    "M0 0C1 2 3 4 5 6s7 8 9 10 1 2 3 4",
    "M0 0Q1 2 3 4t5 6 7 8S1 2 3 4T5 6",
    "M-0-0T1 2S3 4 5 6",
    "M1e38 0C0 0-3e38 0 1e38 1S0 0 1 1",
    "M0 0L1 1L2 2L3 3L4 4L5 5L6 6L7 7L8 8",
    "M0 0L1 1L2 2L3 3L4 4L5 5L6 6L7 7L8 8L9 9",
];

/// The records, and how many there are.
pub fn list(report: &mut Report, seed: u64) -> (Vec<u8>, u64) {
    let texts = chosen(seed);
    let list = texts.iter().flat_map(|text| line(text)).collect();
    compare_texts(report, "buildings, recorded", texts.into_iter());
    (list, RECORDS as u64)
}

fn due(text: &str) -> Due {
    Due::of(text, [KINDS, NUMBERS[0], NUMBERS[1], NUMBERS[2], KINDS])
}

// for each number of a whole buffer, what is so far times an odd factor, and the number's bits, modulo 2^32
fn mixed(before: u32, numbers: &[u32], places: usize, unwritten: u32) -> u32 {
    let whole = numbers.iter().copied().chain(std::iter::repeat(unwritten)).take(places);
    whole.fold(before, |sum, bits| sum.wrapping_mul(16_777_619).wrapping_add(bits))
}

fn line(text: &str) -> Vec<u8> {
    let due = due(text);
    let value = |k: usize| due.values.get(k).copied().unwrap_or(0);
    let kinds: String = (0..KINDS).map(|k| due.kinds.get(k).map_or('9', |kind| char::from(b'0' + kind))).collect();
    let floats = |sum, (numbers, places): (&Vec<u32>, usize)| mixed(sum, numbers, places, 77.0f32.to_bits());
    let pattern = mixed(due.numbers.iter().zip(NUMBERS).fold(0, floats), &due.commands, KINDS, 77);
    let answer = format!("{:02}{:03}{:03}{:03}", due.number, value(0), value(1), value(2));
    let line = format!("b{:02}{text:90}{answer}{:08X}{kinds}{pattern:08X}\n", text.len(), due.total).into_bytes();
    assert_eq!(line.len(), 1 + 128, "a record's size");
    line
}

// ---- the texts

// a number as a writer of paths would put it, rarely one at an edge
fn number(stream: &mut Stream) -> String {
    let whole = stream.below(41) as i32 - 20;
    match stream.below(60) {
        0 => ["1e19", "2e19", "-3e38", "1e39", "1e-40", "-0", "1e-7"][stream.below(7) as usize].to_string(),
        1..30 => format!("{whole}"),
        30..50 => format!("{whole}.{}", stream.below(100)),
        _ => format!("{whole}e{}", stream.below(7) as i32 - 3),
    }
}

// mostly an ellipse, at times a line
fn radius(stream: &mut Stream) -> String {
    match stream.below(12) {
        0 => "0".to_string(),
        1 => number(stream),
        _ => format!("{}", 1 + stream.below(30)),
    }
}

fn rotation(stream: &mut Stream) -> String {
    match stream.below(16) {
        0 => ["3600", "-3600", "3600.0002441", "-3600.0002441", "3600.0001", "1e39"][stream.below(6) as usize]
            .to_string(),
        1 => number(stream),
        _ => format!("{}", stream.below(721) as i32 - 360),
    }
}

fn command(stream: &mut Stream) -> String {
    let letter = b"MmLlHhVvCcSsQqTtAaZzLlCcSsTtAa"[stream.below(30) as usize];
    let numbers: Vec<String> = match letter | 32 {
        b'z' => vec![],
        b'h' | b'v' => vec![number(stream)],
        b'a' => {
            let flag = |stream: &mut Stream| format!("{}", stream.below(2));
            let radii = [radius(stream), radius(stream), rotation(stream)];
            radii.into_iter().chain([flag(stream), flag(stream), number(stream), number(stream)]).collect()
        }
        other => {
            let count = match other {
                b'c' => 6,
                b'q' | b's' => 4,
                _ => 2,
            };
            (0..count).map(|_| number(stream)).collect()
        }
    };
    format!("{}{}", char::from(letter), numbers.join([" ", ","][stream.below(2) as usize]))
}

/// A text of two to eight commands.
pub fn text(stream: &mut Stream) -> String {
    let first = if stream.below(16) == 0 { "Z".to_string() } else { format!("M{} {}", number(stream), number(stream)) };
    (0..1 + stream.below(7)).fold(first, |text, _| text + &command(stream))
}

// the telling ones, then texts that are built for each letter and each kind of segment, then texts of each refusal
fn chosen(seed: u64) -> Vec<String> {
    let mut stream = Stream::new(seed);
    let mut found: Vec<String> = TELLING.iter().map(|text| text.to_string()).collect();
    for letter in "MmLlHhVvCcSsQqTtAaZz".chars() {
        more(&mut found, LETTERS, || text(&mut stream), |text, due| due.number == 0 && text.contains(letter));
    }
    for kind in 1..5 {
        more(&mut found, SEGMENTS, || text(&mut stream), |_, due| due.kinds.contains(&kind));
    }
    for number in [10, 11] {
        more(&mut found, UNBUILT, || text(&mut stream), |_, due| due.number == number);
    }
    let mut paths = Paths(stream);
    for number in 2..=7 {
        let damaged = || {
            let whole = text(&mut paths.0);
            String::from_utf8_lossy(&paths.damaged(whole.as_bytes())).into_owned()
        };
        more(&mut found, UNREAD, damaged, |text, due| text.is_ascii() && due.number == number);
    }
    let long = || (0..9).fold("M1 2".to_string(), |text, _| text + "h" + &number(&mut paths.0));
    more(&mut found, UNREAD, long, |_, due| due.number == 8);
    let left = RECORDS - found.len();
    more(&mut found, left, || text(&mut paths.0), |_, _| true);
    found
}

fn more(found: &mut Vec<String>, count: usize, mut text: impl FnMut() -> String, fits: impl Fn(&str, &Due) -> bool) {
    let whole = found.len() + count;
    while found.len() < whole {
        let text = text();
        if text.len() <= LONGEST && !found.contains(&text) && fits(&text, &due(&text)) {
            found.push(text);
        }
    }
}
