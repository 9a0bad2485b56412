//! The list of recorded verdicts, s, that the program replay_reading runs through strict reading.
//!
//! A record is 64 bytes: the edition's number, y or n, the text's length as two digits, the text, blanks up to 59 bytes, and a line's
//! end.

use crate::bnf::Grammar;
use crate::compare::Report;
use crate::strict::{Derivations, EDITIONS, Paths, Said, Text, ours};
use kihavute::Edition;

// the longest text that a record holds
const LONGEST: usize = 59;

// derived texts and damaged copies for each letter
const WANTED: usize = 6;

// what the documents and the grammar's notes decide, and where a mistake would show: also a sign on a radius, on a rotation,
// in an exponent and where a second group begins; and what parts the editions
const TELLING: [&[u8]; 98] = [
    b"",
    b" ",
    b"\t\r\n ",
    b"\x0C",
    b",",
    b"M",
    b"M1",
    b"M1e 2",
    b"M1 2Z3 4",
    b"m1 2 3 4",
    b"ZL1 2",
    b"M0 0S1 2 3 4",
    b"M0 0A1 1 0 2 0 3 4",
    b"M0 0",
    b" M0 0 ",
    b"M0 0,",
    b"M0 0 ,",
    b"M0 0, ",
    b"M0 0\x0C",
    b"M0\x0C0",
    b"M 0,0",
    b"M0 ,0",
    b"M0 , 0",
    b"M0,,0",
    b"M,0 0",
    b"M0 0,L1 1",
    b"M0 0L,1 1",
    b"M0 0L",
    b"M0 0L1",
    b"M0 0L1 1,",
    b"M0 0L1 1 1",
    b"M0 0L1 1 1 1",
    b"M0 0ZZ",
    b"M0 0Z Z M1 1",
    b"M0 0Z1",
    b"M100-200",
    b"M0.6.5",
    b"M1.5.5",
    b"M-.5-.5",
    b"M1. 2.",
    b"M.1 .",
    b"M1.0.",
    b"M+1+2",
    b"M+-1 2",
    b"M1e1 2",
    b"M1E+1e1 2",
    b"M1e1e1 2",
    b"M1e1.5",
    b"M1e 1",
    b"M0 0A1 1 0 0 1 3 4",
    b"M0 0A1 1 0 013 4",
    b"M0 0A1 1 0013 4",
    b"M0 0A1 1 0 0134",
    b"M0 0A1 1 0,0,1,3,4",
    b"M0 0A-1 -1 -1 0 0 3 4",
    b"M0 0A-1 1 0 0 0 3 4",
    b"M0 0A+1 1 0 0 0 3 4",
    b"M0 0A1 -1 0 0 0 3 4",
    b"M0 0A1 +1 0 0 0 3 4",
    b"M0 0A5-5 0 0 0 3 4",
    b"M0 0A5+5 0 0 0 3 4",
    b"M0 0A.5.5 0 0 0 3 4",
    b"M0 0A-0 1 0 0 0 3 4",
    b"M0 0A+0 1 0 0 0 3 4",
    b"M0 0A1 -0 0 0 0 3 4",
    b"M0 0A1 +.0 0 0 0 3 4",
    b"M0 0A5e-1 5E+1 0 0 0 3 4",
    b"M0 0A5e-1.5 0 0 0 3 4",
    b"M0 0A5e-1-5 0 0 0 3 4",
    b"M0 0A1 1 -9 0 0 3 4",
    b"M0 0A1 1 +9 0 0 3 4",
    b"M0 0A1 1-9 0 0-3+4",
    b"M0 0A1 1-0,0 0 3 4",
    b"M0 0A1 1-00 0 3 4",
    b"M0 0A1 1 0 0 0 3 4-1 1 0 0 0 5 6",
    b"M0 0A1 1 0 0 0 3 4+1 1 0 0 0 5 6",
    b"M0 0A1 1 0 0 0 3 4 -1 1 0 0 0 5 6",
    b"M0 0A1 1 0 0 0 3 4,+1 1 0 0 0 5 6",
    b"M0 0A1 1 0 0 0 3 4 1-1 0 0 0 5 6",
    b"M0 0A1 1 0 0 0 3 4.5.5 0 0 0 5 6",
    b"M0 0A1 1 0 0 1 3 4 1 1 0 1 0 5 6",
    b"M0 0A1 1 0 10 3 4",
    b"M0 0A1 1 0 1 3 4",
    b"M5 5 L6 6",
    b"M5 5L 6 6",
    b"M5 5 6 6",
    b" M5 5 6 6",
    b" M5 5L6 6",
    b" M5 5M6 6",
    b" M5 5Z",
    b"\x0CM5 5",
    b"M\x0C5\x0C,\x0C5",
    b"M5 5M6 6L1 1ZM7 7",
    b"M1e3 0",
    b"M1.e3 0",
    b"M0 0A1 1 9 0 0-3+4",
    b"M0 0X",
    b"M0 0\xFF",
];

/// The records, with the general parser's verdicts under both editions, and how many there are.
pub fn list(report: &mut Report, seed: u64) -> (Vec<u8>, u64) {
    let (mut list, mut count) = (Vec::new(), 0);
    for (edition, name) in EDITIONS {
        let grammar = Grammar::of(edition);
        let paths = Paths::new(&grammar, edition, name);
        let texts = chosen(&paths, Derivations::new(&grammar, seed));
        list.extend(texts.iter().flat_map(|text| line(&text.0, edition, paths.says(&text.0))));
        count += texts.len() as u64;
        let name = format!("{name}, verdicts, recorded");
        report.group(&name, texts.into_iter(), |text| ours(&text.0, edition), |text| paths.says(&text.0));
    }
    (list, count)
}

fn line(text: &[u8], edition: Edition, said: Said) -> Vec<u8> {
    let said = if said.0 { 'y' } else { 'n' };
    let mut line = format!("s{}{said}{:02}", edition as u32, text.len()).into_bytes();
    line.extend(text);
    line.resize(LONGEST + 5, b' ');
    line.push(b'\n');
    line
}

// the telling ones, then for each letter texts in which it stands: derived ones, and damaged ones with a no
fn chosen(paths: &Paths, mut made: Derivations) -> Vec<Text> {
    let mut found: Vec<Text> = TELLING.iter().map(|text| Text(text.to_vec())).collect();
    for letter in *b"MmZzLlHhVvCcSsQqTtAa" {
        for verdict in [true, false] {
            let mut wanted = WANTED;
            while wanted > 0 {
                let derived = made.text();
                let text = Text(if verdict { derived } else { made.damaged(&derived) });
                let fits = text.0.len() <= LONGEST && text.0.contains(&letter) && paths.says(&text.0).0 == verdict;
                if fits && !found.contains(&text) {
                    found.push(text);
                    wanted -= 1;
                }
            }
        }
    }
    found
}
