//! The list of recorded legs, l, that the program replay_legs runs through the proved crates. The Rust has none: what is due is what
//! the second implementation of `legs.rs` answers.
//!
//! A record is 230 bytes: two kinds as digits; 22 fields, zeros after the path's own; how many fields and numbers of tables the path
//! has, the distance and how many numbers are lent; the refusal's number or 0 as two digits; the count of legs, or what the refusal
//! carries; the flag as a digit; the output of 8,192 numbers afterwards mixed to one pattern, 77 where nothing is written; and a
//! line's end. All but the digits are eight hexadecimal digits each.

use crate::compare::Report;
use crate::legs::{Answer, Asked, made};
use crate::samples::Stream;

const RECORDS: usize = 300;
const FIELDS: usize = 22;
const OUT: usize = 8192;

/// The records, and how many there are.
pub fn list(report: &mut Report, seed: u64) -> (Vec<u8>, u64) {
    let all = chosen(seed);
    let list = all.iter().flat_map(line).collect();
    report.group("legs, recorded", all.into_iter(), Asked::ours, Asked::due);
    (list, RECORDS as u64)
}

// paths of two segments, of which no more than a few have 1,024 legs
fn chosen(seed: u64) -> Vec<Asked> {
    let mut stream = Stream::new(seed ^ 0x1E65_5EED);
    let (mut all, mut long) = (Vec::new(), 0);
    while all.len() < RECORDS {
        let asked = made(&mut stream);
        if asked.kinds.len() != 2 {
            continue;
        }
        if matches!(&asked.due(), Answer::Legs { numbers, .. } if numbers.len() > 4000) {
            long += 1;
            if long > 40 {
                continue;
            }
        }
        all.push(asked);
    }
    all
}

// for each number of the whole output, what is so far times an odd factor, and the number's bits, modulo 2^32
fn mixed(numbers: &[u32]) -> u32 {
    let whole = numbers.iter().copied().chain(std::iter::repeat(77.0f32.to_bits())).take(OUT);
    whole.fold(0u32, |sum, bits| sum.wrapping_mul(16_777_619).wrapping_add(bits))
}

fn line(asked: &Asked) -> Vec<u8> {
    let whole = Asked { short: 0, ..asked.clone() };
    let needed = match whole.due() {
        Answer::Legs { numbers, .. } => numbers.len(),
        _ => 0,
    };
    let room = if asked.short > 0 { needed.saturating_sub(asked.short) } else { (needed + 3).min(OUT) };
    let (number, value, flag, numbers) = match asked.due() {
        Answer::Legs { far, numbers } => (0, numbers.len() as u64 / 4, u32::from(far), numbers),
        Answer::Refused(number, carried) => (number, carried, 0, Vec::new()),
        Answer::Overwritten => panic!("the second implementation writes nothing"),
    };
    let kinds: String = asked.kinds.iter().map(|kind| char::from(b'0' + kind)).collect();
    let fields = asked.fields.iter().map(|x| x.to_bits()).chain(std::iter::repeat(0)).take(FIELDS);
    let fields: String = fields.map(|bits| format!("{bits:08X}")).collect();
    let counts = format!("{:08X}{:08X}{:08X}{room:08X}", asked.fields.len(), asked.tables(), asked.distance.to_bits());
    let line = format!("l{kinds}{fields}{counts}{number:02}{value:08X}{flag}{:08X}\n", mixed(&numbers)).into_bytes();
    assert_eq!(line.len(), 1 + 230, "a record's size");
    line
}
