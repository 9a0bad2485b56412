//! The list of recorded readings, r, that the program replay_reading runs through the permissive reader.
//!
//! A record is 128 bytes: the text's length as two digits; the text and blanks up to 32 bytes; the refusal's number or 0,
//! and three values as three digits each; what buffers of 6 blanks, 6 times 77 and 8 times 77 hold afterwards, the letters, the
//! offsets as two digits each and the numbers as eight hexadecimal digits each; a blank and a line's end. The answers are the original's, of other bytes than UTF-8 the second reader's.

use crate::compare::Report;
use crate::read::{Paths, Said, judge, ours};
use crate::samples::Stream;
use crate::strict::Text;

// the longest text that a record holds, and the places of the buffers
const LONGEST: usize = 32;
const LETTERS: usize = 6;
const NUMBERS: usize = 8;

// how many records there are, and how many texts the program makes itself: 65,536 spaces and one more
const RECORDS: usize = 598;
const MADE: u64 = 2;

// texts with a letter that are read, and texts with a refusal's number, besides the telling ones
const READ: usize = 10;
const REFUSED: usize = 32;

// what document 01 decides, and where a mistake would show
const TELLING: [&[u8]; 112] = [
    b"",
    b"M",
    b"M1",
    b"M1e 2",
    b"M1 2Z3 4",
    b"m1 2 3 4",
    b"ZL1 2",
    b"M0 0S1 2 3 4",
    b"M0 0A1 1 0 2 0 3 4",
    b"M1 2T4 6T9 9",
    b"ZS9 8 7 6",
    b"Zt9 8",
    b"S1 2 3 4",
    b"t1 2",
    b"S",
    b"M1 2S",
    b"M1 2T",
    b"M1 2S3 4 5",
    b"M1 2T3",
    b"M0 0s1 2 3 4 5 6 7 8",
    b"M0 0C1 2 3 4 5 6S7 8 9 1",
    b"M0 0Q1 2 3 4S5 6 7 8",
    b"M0 0Q1 2 3 4t5 6",
    b"M0 0C1 2 3 4 5 6T7 8",
    b"M0 0Q1 2 3 4L5 6T7 8",
    b"M0 0Q1 2 3 4ZT7 8",
    b"M-0-0T1 2",
    b"M1e39 0T1 2",
    b"M.1.3Q.3.1.1.3T1 2",
    b"M3.4028235e38 3.4028236e38",
    b"M16777217 16777217.0000001",
    b"M1e39 0m-1e39 0",
    b"M1e39 0Z",
    b"M0 0L1e19 0",
    b"M0 0L2e19 0",
    b"M0 0A1 1 3600 0 0 1 1",
    b"M #",
    b"M ",
    b"M1 2 #",
    b"M -",
    b"M1 -",
    b"M1 2 -",
    b"M1 2 3",
    b"L",
    b"L1 2",
    b"X",
    b"x1",
    b"1",
    b"-",
    b"#",
    b"Z",
    b"z z",
    b"Z1",
    b"zm1 2",
    b"m1 2zm3 4",
    b"m1 2z3 4",
    b"m-0 -0",
    b"Zm-0 -0",
    b"M-0-0",
    b"ZL1 2L3 4Z",
    b"M1e5e",
    b"M1e5e5",
    b"M1e5.5",
    b"M1e5-5",
    b"M1E+1 1e-1",
    b"M1e+ 2",
    b"M1e",
    b"M1.e1 2",
    b"M.e1 2",
    b"M+.5-.5",
    b"M1.5.5",
    b"M1..5",
    b"M. 1",
    b"M+-1 2",
    b"M,1,,2,",
    b"M\t1\n2\x0C\r3 4",
    b"M1\x0B2",
    b"M1\x002",
    b"\xFF",
    b"M0 0\xFF",
    b"M1 2Z\xFF",
    b"M0 0A1 1 0 \xFF",
    b"M0 0A1 1 0",
    b"M0 0A1 1 0 ",
    b"M0 0A1 1 0 1",
    b"M0 0A1 1 0 11",
    b"M0 0A1 1 0 113",
    b"M0 0A1 1 0 113 4",
    b"M0 0A1 1 0 11.3.4",
    b"M0 0A1 1 0 1-1 3 4",
    b"M0 0A1 1 0 -0 0 3 4",
    b"M1 1a1 1 9 0,1 3 4",
    b"M1 1a-1 1e39 0 00 3 4",
    b"M1 1c1 2 3 4 5 6",
    b"M1 1C1 2 3 4 5",
    b"M1 1C1 2 3 4 5 6 7",
    b"M1 1q1 2 3 4",
    b"M1 1Q1 2 3",
    b"M1 1h2 3",
    b"M1 1v2 3",
    b"M1 1H2V3h-4v-5",
    b"M1 1h",
    b"M1 1V Z",
    b"M1 2l3 4l5 6",
    b"M1 2 3 4 5 6 7 8 9 10",
    b"M1 2 3 4 5 6 7 8 9 10 11 12",
    b"M1 2ZZZZZ",
    b"M1 2ZZZZZZ",
    b"ZZZZZZ",
    b"ZZZZZZZ",
    b"M1e-46 1e-45",
    b"M0.1 -123.456",
];

/// The records, and how many answers the program has with its own.
pub fn list(report: &mut Report, seed: u64) -> (Vec<u8>, u64) {
    let texts = chosen(Paths(Stream::new(seed)));
    let list = texts.iter().flat_map(|text| line(&text.0)).collect();
    report.group("readings, recorded", texts.into_iter(), |text| ours(&text.0), |text| judge(&text.0));
    (list, RECORDS as u64 + MADE)
}

// what is said of a text for which there may be no room
fn said(text: &[u8]) -> (u32, Vec<u64>, Vec<u8>, Vec<u32>, Vec<u32>) {
    match judge(text) {
        Said::Read { letters, numbers, offsets } => {
            let counts = [letters.len(), numbers.len(), offsets.len()].map(|count| count as u64).to_vec();
            let fits = letters.len() <= LETTERS && numbers.len() <= NUMBERS;
            if fits { (0, counts, letters, numbers, offsets) } else { (8, counts, vec![], vec![], vec![]) }
        }
        Said::Refused { number, carried } => (number, carried, vec![], vec![], vec![]),
        Said::Wrong(what) => panic!("{what}"),
    }
}

fn line(text: &[u8]) -> Vec<u8> {
    let (number, mut values, mut letters, mut numbers, mut offsets) = said(text);
    values.resize(3, 0);
    letters.resize(LETTERS, b' ');
    offsets.resize(LETTERS, 77);
    numbers.resize(NUMBERS, 77.0f32.to_bits());
    let mut line = format!("r{:02}", text.len()).into_bytes();
    line.extend(text);
    line.resize(3 + LONGEST, b' ');
    line.extend(format!("{number}{:03}{:03}{:03}", values[0], values[1], values[2]).into_bytes());
    line.extend(letters);
    line.extend(offsets.iter().flat_map(|offset| format!("{offset:02}").into_bytes()));
    line.extend(numbers.iter().flat_map(|bits| format!("{bits:08X}").into_bytes()));
    line.extend(b" \n");
    assert_eq!(line.len(), 1 + 128, "a record's size");
    line
}

// the telling ones, then texts that are read for each letter, texts of each refusal, and texts with bytes above 127
fn chosen(mut paths: Paths) -> Vec<Text> {
    let mut found: Vec<Text> = TELLING.iter().map(|text| Text(text.to_vec())).collect();
    for letter in *b"MmLlHhVvCcSsQqTtAaZz" {
        more(&mut found, READ, || paths.text(), |text| said(text).0 == 0 && text.contains(&letter));
    }
    for number in 2..=7 {
        let text = || {
            let whole = paths.text();
            paths.damaged(&whole)
        };
        more(&mut found, REFUSED, text, |text| said(text).0 == number);
    }
    more(&mut found, REFUSED, || paths.text(), |text| said(text).0 == 8);
    let text = || {
        let mut text = paths.text();
        let place = paths.0.below(text.len() as u32 + 1) as usize;
        text.insert(place, paths.0.bits() as u8 | 128);
        text
    };
    let left = RECORDS - found.len();
    more(&mut found, left, text, |_| true);
    found
}

fn more(found: &mut Vec<Text>, count: usize, mut text: impl FnMut() -> Vec<u8>, fits: impl Fn(&[u8]) -> bool) {
    let whole = found.len() + count;
    while found.len() < whole {
        let text = Text(text());
        if text.0.len() <= LONGEST && fits(&text.0) && !found.contains(&text) {
            found.push(text);
        }
    }
}
