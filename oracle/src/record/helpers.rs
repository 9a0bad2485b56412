//! The lists of recorded helpers, m, and angles, t, that the program replay_numbers runs through the proved crates.
//!
//! A record is a line of 65 bytes: the helper's letter, then five operands and two answers as eight hexadecimal
//! digits each, a space before each. Places that a helper does not use hold zeros.

use crate::compare::Report;
use crate::math::{Answer, Family, Helper, Operands};
use crate::samples::{SPECIALS, Stream, draw};

// how many draws may pass in search of a record
const TRIES: u32 = 100_000;

// what makes an answer worth keeping
const CASES: [fn(&[f32], &[f32]) -> bool; 10] = [
    |operands, answers| operands.iter().any(|x| x.is_nan()) && answers.iter().any(|x| x.is_nan()),
    |operands, answers| operands.iter().any(|x| x.is_nan()) && !answers.iter().any(|x| x.is_nan()),
    |operands, answers| !operands.iter().any(|x| x.is_nan()) && answers.iter().any(|x| x.is_nan()),
    |operands, answers| finite(operands) && answers.iter().any(|x| x.is_infinite()),
    |operands, answers| finite(operands) && answers.iter().any(|x| x.is_subnormal()),
    |operands, answers| operands.iter().all(|x| *x != 0.0) && answers.iter().any(|x| *x == 0.0),
    |_, answers| answers.iter().any(|x| x.to_bits() == 0x8000_0000),
    |operands, answers| operands.iter().any(|x| x.is_infinite()) && !answers.iter().any(|x| x.is_nan()),
    |operands, answers| operands.iter().any(|x| x.is_subnormal()) && !answers.iter().any(|x| x.is_nan()),
    |operands, answers| finite(operands) && answers.iter().all(|x| x.is_normal()),
];

/// The lines, with the Rust's answers, and how many there are; the proved library is to give the same.
pub fn list(report: &mut Report, family: &Family, kind: char, seed: u64) -> (Vec<u8>, u64) {
    let mut lines = String::new();
    let mut count = 0;
    for helper in family.helpers {
        let inputs = chosen(family, helper, seed);
        for operands in &inputs {
            lines.push(kind);
            lines.push_str(&line(helper, operands, (helper.theirs)(&operands.floats())));
        }
        let ours = |operands: &Operands| (helper.ours)(&operands.floats());
        let theirs = |operands: &Operands| (helper.theirs)(&operands.floats());
        count += inputs.len() as u64;
        report.group(&format!("{}, recorded", helper.name), inputs.into_iter(), ours, theirs);
    }
    (lines.into_bytes(), count)
}

fn line(helper: &Helper, operands: &Operands, answer: Answer) -> String {
    let [x, y] = patterns(answer);
    let words: Vec<String> = operands.bits.iter().chain(&[x, y]).map(|bits| format!("{bits:08X}")).collect();
    format!("{} {}\n", helper.letter, words.join(" "))
}

fn patterns(answer: Answer) -> [u32; 2] {
    match answer {
        Answer::Number(bits) => [bits, 0],
        Answer::Point(both) => both,
    }
}

// the helper's telling operands, then what each case finds
fn chosen(family: &Family, helper: &Helper, seed: u64) -> Vec<Operands> {
    let mut found: Vec<Operands> = family
        .telling
        .iter()
        .filter(|(letter, _)| *letter == helper.letter)
        .filter_map(|(_, bits)| helper.operands(*bits))
        .collect();
    let mut stream = Stream::new(seed ^ u64::from(helper.letter));
    for case in CASES {
        let mut wanted = family.recorded;
        for attempt in 0..TRIES {
            let bits = match attempt % 2 {
                0 => std::array::from_fn(|_| SPECIALS[stream.below(SPECIALS.len() as u32) as usize]),
                _ => draw(family.kinds[stream.below(family.kinds.len() as u32) as usize].0, &mut stream),
            };
            let Some(operands) = helper.operands(bits) else { continue };
            if fits(helper, &operands, case) && found.iter().all(|other| other.bits != operands.bits) {
                found.push(operands);
                wanted -= 1;
                if wanted == 0 {
                    break;
                }
            }
        }
    }
    found
}

fn fits(helper: &Helper, operands: &Operands, case: fn(&[f32], &[f32]) -> bool) -> bool {
    let answer = (helper.theirs)(&operands.floats());
    let used = if let Answer::Number(_) = answer { 1 } else { 2 };
    case(&operands.floats()[..helper.count], &patterns(answer).map(f32::from_bits)[..used])
}

fn finite(operands: &[f32]) -> bool {
    operands.iter().all(|x| x.is_finite())
}
