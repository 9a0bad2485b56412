//! The list of recorded decimal numbers, d, that the program replay_numbers runs through the proved crates.
//!
//! A record is 131 bytes: v and the value's pattern or r and the refusal's number, as eight hexadecimal digits; the count
//! of bytes taken or the refusal's place, and the text's length, as three digits each; the text, blanks up to 115 bytes,
//! and a line's end.

use crate::compare::Report;
use crate::decimal::{Answer, Drawn, KINDS, edges, ours, theirs};
use crate::samples::Stream;
use crate::strict::Text;

// the longest text that a record holds
const LONGEST: usize = 115;

// how many records there are
const WANTED: usize = 500;

/// The edges that a record holds and texts of every kind in turn, with the standard library's answers.
pub fn list(report: &mut Report, seed: u64) -> (Vec<u8>, u64) {
    let mut stream = Stream::new(seed);
    let drawn = Drawn::new();
    let mut texts: Vec<Text> = edges().into_iter().filter(|text| text.0.len() <= LONGEST).collect();
    let mut kinds = KINDS.iter().cycle();
    while texts.len() < WANTED {
        let kind = kinds.next().expect("the kinds come round again");
        let text = drawn.text(*kind, &mut stream);
        if text.0.len() <= LONGEST && !texts.contains(&text) {
            texts.push(text);
        }
    }
    let list = texts.iter().flat_map(|text| line(&text.0, theirs(text))).collect();
    report.group("numbers, recorded", texts.into_iter(), ours, theirs);
    (list, WANTED as u64)
}

fn line(text: &[u8], answer: Answer) -> Vec<u8> {
    let (letter, pattern, place) = match answer {
        Answer::Value(bits, taken) => ('v', bits, taken as u64),
        Answer::Refused(number, at) => ('r', number, at),
    };
    let mut line = format!("d{letter}{pattern:08X}{place:03}{:03}", text.len()).into_bytes();
    line.extend(text);
    line.resize(LONGEST + 16, b' ');
    line.push(b'\n');
    line
}
