//! Decimal numbers: the proved conversion against the standard library's `str::parse::<f32>`, which rounds correctly.
//!
//! Where a number ends, and what is refused, is worked out here anew from document 01's words. The standard library cuts
//! an exponent of 65,536 or more short, so that a text of as many digits comes out wrong: it is given the same number
//! with its point moved, and where the text as it stands is read otherwise, the exponent must be of that size.

use crate::compare::Report;
use crate::samples::Stream;
use crate::strict::Text;
use std::cell::Cell;
use std::fmt;
use std::io::Write;

/// The bits of a value and the bytes that it takes, or a refusal with its place.
#[derive(Clone, Copy, PartialEq)]
pub enum Answer {
    Value(u32, usize),
    Refused(u32, u64),
}

use Answer::{Refused, Value};

impl fmt::Display for Answer {
    fn fmt(&self, f: &mut fmt::Formatter<'_>) -> fmt::Result {
        match self {
            Value(bits, taken) => write!(f, "{bits:08X} of {taken} bytes"),
            Refused(number, at) => write!(f, "refused {number} at {at}"),
        }
    }
}

pub fn ours(text: &Text) -> Answer {
    match kihavute::number(&text.0) {
        Ok((bits, taken)) => Value(bits, taken),
        Err(refusal) => Refused(refusal.number(), refusal.carried()[0]),
    }
}

// ---- the second reading

// the parts of the number that a text starts with: sign, digits before and after the point, exponent, and its end
struct Parts<'a> {
    negative: bool,
    before: &'a [u8],
    after: &'a [u8],
    exponent: i64,
    end: usize,
}

// so far an exponent is followed; no text has digits enough to bring a larger one back
const FAR: i64 = 1 << 40;

fn parts(text: &[u8]) -> Result<Parts<'_>, Answer> {
    let run = |from: usize| text[from..].iter().take_while(|byte| byte.is_ascii_digit()).count();
    let signed = |at: usize| usize::from(matches!(text.get(at), Some(b'+' | b'-')));
    let whole = signed(0);
    let point = whole + run(whole);
    let fraction = point + usize::from(text.get(point) == Some(&b'.'));
    let mark = fraction + if fraction > point { run(fraction) } else { 0 };
    if whole == point && fraction == mark {
        return Err(Refused(3, 0));
    }
    let (mut exponent, mut end) = (0, mark);
    if matches!(text.get(mark), Some(b'e' | b'E')) {
        let digits = mark + 1 + signed(mark + 1);
        end = digits + run(digits);
        if digits == end {
            return Err(Refused(4, mark as u64));
        }
        exponent = text[digits..end].iter().fold(0i64, |sum, byte| (sum * 10 + i64::from(byte - b'0')).min(FAR));
        if text[mark + 1] == b'-' {
            exponent = -exponent;
        }
    }
    let negative = text.first() == Some(&b'-');
    Ok(Parts { negative, before: &text[whole..point], after: &text[fraction..mark], exponent, end })
}

/// What the standard library makes of the same number.
pub fn theirs(text: &Text) -> Answer {
    if text.0.len() > 65_536 {
        return Refused(1, text.0.len() as u64);
    }
    let parts = match parts(&text.0) {
        Ok(parts) => parts,
        Err(refused) => return refused,
    };
    let plain = std::str::from_utf8(&text.0[..parts.end]).expect("a number is ASCII");
    let straight: f32 = plain.parse().expect("the standard library reads every number");
    if parts.exponent.abs() < 65_536 && text.0.len() < 10_000 {
        return Value(straight.to_bits(), parts.end);
    }
    Value(moved(&parts).to_bits(), parts.end)
}

// the number with its point before its first digit that is not 0
fn moved(parts: &Parts) -> f32 {
    let digits: Vec<u8> = parts.before.iter().chain(parts.after).copied().collect();
    let zeros = digits.iter().take_while(|digit| **digit == b'0').count();
    let exponent = parts.exponent + parts.before.len() as i64 - zeros as i64;
    let mut text = if parts.negative { "-0.".to_string() } else { "0.".to_string() };
    text.push_str(std::str::from_utf8(&digits[zeros..]).expect("digits are ASCII"));
    // "0." alone is a zero; past these exponents every other number is infinite or zero
    text.push_str(&format!("0e{}", exponent.clamp(-60_000, 60_000)));
    text.parse().expect("the standard library reads every number")
}

// ---- texts

fn digits(stream: &mut Stream, count: u32, text: &mut Vec<u8>) {
    let mut left = count;
    while left > 0 {
        let mut random = stream.next();
        let some = left.min(16);
        for _ in 0..some {
            text.push(b'0' + (random % 10) as u8);
            random /= 10;
        }
        left -= some;
    }
}

fn sign(stream: &mut Stream, text: &mut Vec<u8>) {
    match stream.below(8) {
        0..3 => text.push(b'-'),
        3 => text.push(b'+'),
        _ => {}
    }
}

// an exponent of at most this size
fn exponent(stream: &mut Stream, most: u32, text: &mut Vec<u8>) {
    text.push(if stream.below(2) == 0 { b'e' } else { b'E' });
    let size = stream.below(most + 1);
    sign(stream, text);
    write!(text, "{size}").expect("a vector takes bytes");
}

// up to 12 digits with a point anywhere, and now and then an exponent
fn short(stream: &mut Stream) -> Text {
    let mut text = Vec::with_capacity(24);
    sign(stream, &mut text);
    let (before, after) = (stream.below(8), stream.below(7));
    digits(stream, before, &mut text);
    if after > 0 || stream.below(2) == 0 {
        text.push(b'.');
        digits(stream, after, &mut text);
    }
    if stream.below(3) == 0 {
        let most = if stream.below(2) == 0 { 12 } else { 50 };
        exponent(stream, most, &mut text);
    }
    Text(text)
}

// up to 120 digits with zeros and a point anywhere, and an exponent that brings them back or not
fn long(stream: &mut Stream) -> Text {
    let mut text = Vec::with_capacity(160);
    sign(stream, &mut text);
    let mut count = 0;
    let mut point = stream.below(2) == 0;
    for _ in 0..1 + stream.below(4) {
        let run = stream.below(31);
        count += run;
        if stream.below(3) == 0 {
            text.resize(text.len() + run as usize, b'0');
        } else {
            digits(stream, run, &mut text);
        }
        if point && stream.below(2) == 0 {
            text.push(b'.');
            point = false;
        }
    }
    if stream.below(4) > 0 {
        let most = match stream.below(4) {
            0 => 400,
            _ => count + 40,
        };
        exponent(stream, most, &mut text);
    }
    Text(text)
}

// bytes that numbers are made of, and a few others
fn damaged(stream: &mut Stream) -> Text {
    const BYTES: [u8; 24] = *b"0123456789..+-eEeE0019 ,";
    let count = stream.below(12);
    Text((0..count).map(|_| BYTES[stream.below(24) as usize]).collect())
}

// ---- the middle between two floats

// a whole number in digits of base 10^9, the lowest first
struct Powers(Vec<Vec<u32>>);

impl Powers {
    // the powers of 5 up to the 150th
    fn of_five() -> Powers {
        let mut powers = vec![vec![1]];
        for place in 0..150 {
            let next = times(&powers[place], 5);
            powers.push(next);
        }
        Powers(powers)
    }

    // The exact digits of count / 2^places, and how many of them stand after the point.
    fn digits(&self, count: u32, places: usize) -> (String, usize) {
        let whole = times(&self.0[places], count);
        let mut text = whole.last().map_or(String::new(), |high| high.to_string());
        for low in whole.iter().rev().skip(1) {
            text.push_str(&format!("{low:09}"));
        }
        (text, places)
    }
}

fn times(whole: &[u32], factor: u32) -> Vec<u32> {
    let mut carry = 0u64;
    let mut product: Vec<u32> = whole
        .iter()
        .map(|digit| {
            carry += u64::from(*digit) * u64::from(factor);
            let low = (carry % 1_000_000_000) as u32;
            carry /= 1_000_000_000;
            low
        })
        .collect();
    if carry > 0 {
        product.push(carry as u32);
    }
    product
}

// The exact middle between the float of these bits and the next above, in digits, and how many stand after the point.
fn middle(powers: &Powers, bits: u32) -> (String, usize) {
    let field = bits >> 23;
    let count = if field == 0 { bits * 2 + 1 } else { ((bits & 0x7F_FFFF) + 0x80_0000) * 2 + 1 };
    let power = field.max(1) as i32 - 151;
    if power < 0 {
        return powers.digits(count, -power as usize);
    }
    ((u128::from(count) << power).to_string(), 0)
}

// The middle above a float, exactly, or with a digit far behind, or with nines behind the digit before: with the bits due.
fn halfway(powers: &Powers, stream: &mut Stream) -> (Text, u32) {
    let bits = match stream.below(4) {
        0 => stream.below(1 << 24),
        1 => 0x7F80_0000 - 1 - stream.below(1 << 24),
        _ => stream.below(0x7F80_0000),
    };
    let (mut digits, mut places) = middle(powers, bits);
    let even = bits + (bits & 1);
    let due = match stream.below(3) {
        0 => even,
        1 => {
            let zeros = stream.below(40) as usize;
            digits.push_str(&"0".repeat(zeros));
            digits.push('1');
            places += zeros + 1;
            bits + 1
        }
        _ => {
            digits = lowered(&digits);
            let nines = 1 + stream.below(40) as usize;
            digits.push_str(&"9".repeat(nines));
            places += nines;
            bits
        }
    };
    (written(&digits, places, stream), due)
}

// the whole number of these digits less 1
fn lowered(digits: &str) -> String {
    let kept = digits.trim_end_matches('0');
    let mut less = kept.as_bytes().to_vec();
    if let Some(last) = less.last_mut() {
        *last -= 1;
    }
    less.resize(digits.len(), b'9');
    less.into_iter().map(char::from).collect()
}

// the digits, of which the last so many stand after the point, with the point moved, zeros and an exponent
fn written(digits: &str, places: usize, stream: &mut Stream) -> Text {
    let mut text = "0".repeat(stream.below(3) as usize);
    let before = stream.below(digits.len() as u32 + 1) as usize;
    text.push_str(&digits[..before]);
    text.push('.');
    text.push_str(&digits[before..]);
    text.push_str(&"0".repeat(stream.below(3) as usize));
    text.push_str(&format!("e{}", digits.len() as i64 - before as i64 - places as i64));
    Text(text.into_bytes())
}

// ---- edges

// texts at which a rule changes
pub fn edges() -> Vec<Text> {
    let mut texts: Vec<String> = [
        "3.4028235e38", "3.4028236e38", "16777217", "16777217.0000001", "16777217.000000001", "16777219", "0", "-0", "+0", "-0.0e-5",
        "00000000000000000000000000001", ".5", "5.", "5.e1", "-.5e-1", "1e400", "-1e400", "1e-400", "-1e-400", "1e99999999999999999999",
        "1e-99999999999999999999", "0e99999999999999999999", "1e-00000000000000000000000000000000001", "1e+0000000000000000000000000000000001",
        // 2^128 - 2^103 and the last whole number below it; 2^-150, and a little above and below
        "340282356779733661637539395458142568448", "340282356779733661637539395458142568447",
        "340282356779733661637539395458142568447.99999999999999999999", "340282346638528859811704183484516925440",
        "7.00649232162408535461864791644958065640130970938257885878534141944895541342930300743319094181060791015625e-46",
        "7.00649232162408535461864791644958065640130970938257885878534141944895541342930300743319094181060791015626e-46",
        "7.00649232162408535461864791644958065640130970938257885878534141944895541342930300743319094181060791015624e-46",
        "1.1754943508222875e-38", "1.1754942807573643e-38", "1.17549435e-38", "1.1754942e-38", "1e-45", "7e-46", "8e-46", "1.5e-45",
    ]
    .map(String::from)
    .to_vec();
    // many zeros on either side, and an exponent that brings the digit back, or nearly
    for zeros in [100, 1_000, 32_768, 65_000] {
        let many = "0".repeat(zeros);
        for near in -50i64..=50 {
            let exponent = zeros as i64 + 1 + near;
            texts.push(format!("0.{many}1e{exponent}"));
            texts.push(format!("1{many}e-{exponent}"));
            texts.push(format!("-0.{many}16777217e{exponent}"));
            texts.push(format!("16777217{many}.5e-{exponent}"));
        }
        texts.push(format!("{many}1{many}", many = "0".repeat(zeros / 2)));
        texts.push(format!("1{many}"));
        texts.push(format!("0.{many}1"));
        texts.push(format!("{many}.{many}", many = "0".repeat(zeros / 2)));
        texts.push(format!("1e{many}1"));
        texts.push(format!("1e-{many}1"));
    }
    // the smallest text of each size at which the standard library cuts an exponent short
    texts.push(format!("0.{}1e65500", "0".repeat(65_499)));
    texts.push(format!("0.{}1e655360", "0".repeat(65_510)));
    texts.push(format!("{}e-65500", "1".repeat(65_500)));
    texts.push("9".repeat(65_536));
    texts.push(format!(".{}", "9".repeat(65_535)));
    texts.push("1".repeat(65_537));
    texts.into_iter().map(|text| Text(text.into_bytes())).collect()
}

// ---- the runs

/// A way to draw texts.
#[derive(Clone, Copy)]
pub enum Kind {
    Short,
    Long,
    Damaged,
    Halfway,
}

pub const KINDS: [Kind; 4] = [Kind::Short, Kind::Long, Kind::Damaged, Kind::Halfway];

/// Draws texts, and keeps what is due of the last one where that is known.
pub struct Drawn {
    powers: Powers,
    due: Cell<Option<u32>>,
}

impl Drawn {
    pub fn new() -> Drawn {
        Drawn { powers: Powers::of_five(), due: Cell::new(None) }
    }

    pub fn text(&self, kind: Kind, stream: &mut Stream) -> Text {
        self.due.set(None);
        match kind {
            Kind::Short => short(stream),
            Kind::Long => long(stream),
            Kind::Damaged => damaged(stream),
            Kind::Halfway => {
                let (text, bits) = halfway(&self.powers, stream);
                self.due.set(Some(bits));
                text
            }
        }
    }
}

/// The kind of this name.
pub fn kind(name: &str) -> Option<Kind> {
    let names = ["short", "long", "damaged", "halfway"];
    names.iter().position(|own| *own == name).map(|place| KINDS[place])
}

/// Compares this many texts of a kind. Where it is known what is due, the standard library must give it too.
pub fn compare_kind(report: &mut Report, name: &str, kind: Kind, seed: u64, count: u64) {
    let mut stream = Stream::new(seed);
    let drawn = Drawn::new();
    let missed = Cell::new(0u64);
    let inputs = (0..count).map(|_| drawn.text(kind, &mut stream));
    report.group(&format!("decimals, {name}"), inputs, ours, |text| {
        let answer = theirs(text);
        if let (Some(due), Value(bits, _)) = (drawn.due.get(), answer)
            && due != bits
        {
            missed.set(missed.get() + 1);
        }
        answer
    });
    if missed.get() > 0 {
        println!("  DIFFERENT: the standard library misses {} of what is due", missed.get());
        report.count(0, false);
    }
    println!("  {name:9} {count:10} numbers, seed {seed}, {:.0} s", report.seconds());
}

/// Compares the edges, and says how many the standard library reads otherwise as they stand.
pub fn compare_edges(report: &mut Report) {
    let texts = edges();
    let mut cut = 0;
    for text in &texts {
        let Ok(parts) = parts(&text.0) else { continue };
        let straight: Option<f32> = std::str::from_utf8(&text.0[..parts.end]).ok().and_then(|plain| plain.parse().ok());
        if straight.map(f32::to_bits) != Some(moved(&parts).to_bits()) {
            cut += 1;
            if parts.exponent.abs() < 65_536 {
                println!("  DIFFERENT: the standard library and the moved point, at an exponent of {}", parts.exponent);
                report.count(1, false);
            }
        }
    }
    let count = texts.len();
    report.group("decimals, edges", texts.into_iter(), ours, theirs);
    println!("  edges     {count:10} numbers, of which the standard library reads {cut} otherwise as they stand");
}

/// Prints every float of the parts from `first` on, `step` patterns apart, as short as it returns, of either sign, and
/// reads it back.
pub fn compare_printed(report: &mut Report, first: u32, past: u32, step: u32) {
    let mut text = Vec::with_capacity(64);
    let mut wrong = None;
    let mut count = 0u64;
    for bits in (first..past).step_by(step as usize) {
        text.clear();
        text.push(b'-');
        write!(text, "{:e}", f32::from_bits(bits)).expect("a vector takes bytes");
        for (digits, due) in [(&text[1..], bits), (&text[..], bits | 0x8000_0000)] {
            count += 1;
            if kihavute::number(digits) != Ok((due, digits.len())) && wrong.is_none() {
                wrong = Some((due, String::from_utf8_lossy(digits).into_owned()));
            }
        }
    }
    if let Some((due, digits)) = &wrong {
        println!("  DIFFERENT in decimals, printed: {digits} does not return to {due:08X}");
    }
    report.count(count, wrong.is_none());
    println!("  printed   {count:10} numbers from {first:08X} on, {:.0} s", report.seconds());
}

/// The gate's part.
pub fn compare_some(report: &mut Report, seed: u64) {
    println!("decimals against str::parse");
    compare_edges(report);
    compare_kind(report, "short", Kind::Short, seed, 500_000);
    compare_kind(report, "long", Kind::Long, seed, 200_000);
    compare_kind(report, "damaged", Kind::Damaged, seed, 200_000);
    compare_kind(report, "halfway", Kind::Halfway, seed, 100_000);
    compare_printed(report, 0, 0x7F80_0000, 9_973);
}
