//! Strict reading: the proved recogniser against a general one over the grammars as data, under both editions, and against the
//! permissive readers, which take every text with a yes.

use crate::bnf::{Grammar, Symbol};
use crate::compare::{Input, Report};
use crate::earley::{Found, Recogniser};
use crate::samples::{Stream, damaged};
use crate::{read, smooth};
use kihavute::{Edition, Strict};
use std::fmt;
use std::hint::black_box;
use std::time::Instant;

/// A text of any bytes.
#[derive(Clone, PartialEq)]
pub struct Text(pub Vec<u8>);

impl fmt::Display for Text {
    fn fmt(&self, f: &mut fmt::Formatter<'_>) -> fmt::Result {
        write!(f, "{:?}", String::from_utf8_lossy(&self.0))
    }
}

impl Input for Text {
    // with a few bytes left out, so that a whole pair can go, or with a simpler byte
    fn simpler(&self) -> Vec<Text> {
        let size = self.0.len();
        let runs = [size / 2, size / 4, 8, 6, 5, 4, 3, 2, 1].into_iter().filter(|run| (1..=size).contains(run));
        let without = runs.flat_map(|run| (0..=size - run).map(move |place| (place, place + run))).map(|(from, to)| {
            let mut bytes = self.0.clone();
            bytes.drain(from..to);
            Text(bytes)
        });
        let with_zero =
            (0..self.0.len()).filter(|place| self.0[*place].is_ascii_digit() && self.0[*place] != b'0').map(|place| {
                let mut bytes = self.0.clone();
                bytes[place] = b'0';
                Text(bytes)
            });
        without.chain(with_zero).collect()
    }
}

/// A yes or a no.
#[derive(Clone, Copy, PartialEq)]
pub struct Said(pub bool);

impl fmt::Display for Said {
    fn fmt(&self, f: &mut fmt::Formatter<'_>) -> fmt::Result {
        f.write_str(if self.0 { "yes" } else { "no" })
    }
}

/// Both editions, with their names.
pub const EDITIONS: [(Edition, &str); 2] = [(Edition::Svg11, "1.1"), (Edition::Svg2, "SVG 2")];

pub fn ours(text: &[u8], edition: Edition) -> Said {
    match kihavute::strict(text, edition) {
        Strict::Yes => Said(true),
        Strict::No => Said(false),
        Strict::TooLong(_) => panic!("no text here is too long"),
    }
}

/// The general recogniser of whole paths of an edition.
pub struct Paths<'a> {
    recogniser: Recogniser<'a>,
    path: usize,
    edition: Edition,
    edition_name: &'a str,
}

impl<'a> Paths<'a> {
    pub fn new(grammar: &'a Grammar, edition: Edition, edition_name: &'a str) -> Paths<'a> {
        Paths { recogniser: Recogniser::new(grammar), path: grammar.path(), edition, edition_name }
    }

    fn run(&self, text: &[u8]) -> Found {
        self.recogniser.run(self.path, text, 0)
    }

    pub fn says(&self, text: &[u8]) -> Said {
        Said(self.run(text).longest == Some(text.len()))
    }
}

// ---- all texts

// bytes at which a wrong class, a wrong end or a wrong order shows
const TELLING: [u8; 16] = *b"MmLZH012.-+e, \x0C\n";

// compares all texts that start with `text`, have up to `more` further bytes and then `end`
struct Walk<'a, 'b> {
    paths: &'b Paths<'a>,
    text: Vec<u8>,
    end: &'b [u8],
    calls: u64,
    yes: u64,
    different: Option<Text>,
}

impl Walk<'_, '_> {
    fn all(&mut self, more: usize) {
        let found = self.paths.run(&self.text);
        let whole = self.whole();
        let said = if self.end.is_empty() { Said(found.longest == Some(whole.len())) } else { self.paths.says(&whole) };
        self.see(whole, said);
        if more == 0 {
            return;
        }
        for byte in TELLING {
            self.text.push(byte);
            // where no path begins with the text, none begins with a longer one
            if found.open {
                self.all(more - 1)
            } else {
                self.none(more - 1)
            }
            self.text.pop();
        }
    }

    fn none(&mut self, more: usize) {
        self.see(self.whole(), Said(false));
        if more > 0 {
            for byte in TELLING {
                self.text.push(byte);
                self.none(more - 1);
                self.text.pop();
            }
        }
    }

    fn whole(&self) -> Vec<u8> {
        [&self.text, self.end].concat()
    }

    fn see(&mut self, whole: Vec<u8>, said: Said) {
        self.calls += 1;
        self.yes += u64::from(said.0);
        if self.different.is_none() && ours(&whole, self.paths.edition) != said {
            self.different = Some(Text(whole));
        }
    }
}

fn all_texts(report: &mut Report, paths: &Paths, name: &str, about: &[(String, &str)], more: usize) {
    let (mut calls, mut yes, mut equal) = (0, 0, true);
    for (start, end) in about {
        let text = start.clone().into_bytes();
        let mut walk = Walk { paths, text, end: end.as_bytes(), calls: 0, yes: 0, different: None };
        walk.all(more);
        calls += walk.calls;
        yes += walk.yes;
        if let Some(text) = walk.different {
            equal = false;
            report.group(
                name,
                [text].into_iter(),
                |text: &Text| ours(&text.0, paths.edition),
                |text| paths.says(&text.0),
            );
        }
    }
    report.count(calls, equal);
    println!("  {}, {name}: {calls} texts, {yes} with a yes, {:.0} s", paths.edition_name, report.seconds());
}

// ---- derivations

/// Texts that the grammar derives, number for number, before the rule of the longest text is applied.
pub struct Derivations<'a> {
    grammar: &'a Grammar,
    // the fewest steps in which each name derives a text
    least: Vec<u32>,
    pub stream: Stream,
}

impl<'a> Derivations<'a> {
    pub fn new(grammar: &'a Grammar, seed: u64) -> Derivations<'a> {
        let mut least = vec![u32::MAX / 2; grammar.rules_of.len()];
        loop {
            let before = least.clone();
            for rule in &grammar.rules {
                least[rule.name] = least[rule.name].min(steps(rule.symbols.iter(), &before));
            }
            if least == before {
                return Derivations { grammar, least, stream: Stream::new(seed) };
            }
        }
    }

    pub fn text(&mut self) -> Vec<u8> {
        let mut text = Vec::new();
        let mut budget = 10 + self.stream.below(150) as i64;
        self.derive(self.grammar.path(), &mut budget, &mut text);
        text
    }

    fn derive(&mut self, name: usize, budget: &mut i64, text: &mut Vec<u8>) {
        *budget -= 1;
        let rules = &self.grammar.rules_of[name];
        let rule = if *budget > 0 {
            // what may be left out is, one time in three
            let optional = self.grammar.rules[rules[0]].symbols.is_empty();
            let first = usize::from(optional && self.stream.below(3) > 0);
            if optional && first == 0 {
                rules[0]
            } else {
                rules[first + self.stream.below((rules.len() - first) as u32) as usize]
            }
        } else {
            let cost = |rule: &usize| steps(self.grammar.rules[*rule].symbols.iter(), &self.least);
            *rules.iter().min_by_key(|rule| cost(rule)).expect("a name has a rule")
        };
        for symbol in &self.grammar.rules[rule].symbols {
            match symbol {
                Symbol::Byte(byte) => text.push(*byte),
                Symbol::Name(name) => self.derive(*name, budget, text),
            }
        }
    }

    /// A copy with a few bytes changed.
    pub fn damaged(&mut self, text: &[u8]) -> Vec<u8> {
        damaged(&mut self.stream, text, &TELLING, b"SsTtQqAaCcVv")
    }
}

fn steps<'a>(symbols: impl Iterator<Item = &'a Symbol>, least: &[u32]) -> u32 {
    let step = |symbol: &Symbol| if let Symbol::Name(name) = symbol { least[*name] } else { 0 };
    symbols.map(step).fold(1, u32::saturating_add).min(u32::MAX / 2)
}

fn derivations(report: &mut Report, grammar: &Grammar, paths: &Paths, seed: u64, count: u64) {
    let texts = || {
        let mut made = Derivations::new(grammar, seed);
        (0..count).flat_map(move |_| {
            let text = made.text();
            [Text(made.damaged(&text)), Text(text)]
        })
    };
    let name = format!("{}, derivations and damaged copies, seed {seed}", paths.edition_name);
    let all = report.group(&name, texts(), |text| ours(&text.0, paths.edition), |text| paths.says(&text.0));
    println!("  {name}: {all} texts, {:.0} s", report.seconds());

    read_too(report, paths, texts);
}

// every text with a yes is read, by the original reader with S and T put in, and by the proved one
fn read_too<Texts: Iterator<Item = Text>>(report: &mut Report, paths: &Paths, texts: impl Fn() -> Texts) {
    let taken = || texts().filter(|text| ours(&text.0, paths.edition).0);
    for (reader, reads) in [("original", original_reads as fn(&[u8]) -> bool), ("proved permissive", proved_reads)] {
        let name = format!("{}, those with a yes, by the {reader} reader", paths.edition_name);
        let read = report.group(&name, taken(), |_| Said(true), |text| Said(reads(&text.0)));
        println!("  {name}: {read} texts, {:.0} s", report.seconds());
    }
}

fn original_reads(text: &[u8]) -> bool {
    std::str::from_utf8(text).is_ok_and(|text| smooth::try_parse(text).is_ok())
}

fn proved_reads(text: &[u8]) -> bool {
    matches!(read::ours(text), read::Said::Read { .. })
}

// ---- real drawings

/// The path texts that tools/drawings gathers: both recognisers, and both permissive readers for those with a yes.
pub fn compare_drawings(report: &mut Report) {
    let Ok(gathered) = std::fs::read("target/drawings/paths.txt") else {
        println!("  no path texts: run tools/drawings first");
        report.count(1, false);
        return;
    };
    let texts =
        || gathered.split(|byte| *byte == b'\n').filter(|text| !text.is_empty()).map(|text| Text(text.to_vec()));
    for_editions(|_, paths| {
        let all =
            report.group("real drawings", texts(), |text| ours(&text.0, paths.edition), |text| paths.says(&text.0));
        let yes = texts().filter(|text| ours(&text.0, paths.edition).0).count();
        let (name, bytes) = (paths.edition_name, gathered.len());
        println!("  {name}, real drawings: {all} texts of {bytes} bytes, {yes} with a yes, {:.0} s", report.seconds());
        read_too(report, paths, texts);
    });
}

// ---- the time of long texts

// what is repeated between a beginning and an end, and so makes the reader go over most bytes again, or go furthest
// before it answers
const WORST: [(&str, &str, &str, &str); 12] = [
    ("white space", "", " ", ""),
    ("white space before a comma", "M0 0", " ", ","),
    ("white space between commands", "M0 0", "z    ", ""),
    ("white space between numbers", "M0 0", "     0", ""),
    ("one number of digits", "M0 ", "1", ""),
    ("one number with a bare exponent", "M0 ", "1", "e"),
    ("zeros of an exponent", "M0 1e", "0", ""),
    ("pairs", "M0 0", " 1.5-.5", ""),
    ("curves, one number short", "M0 0C", "1 2 3 4 5 6 ", "1 2 3 4 5"),
    ("arcs, one number short", "M0 0A", "1 1 0 0 1 3 4 ", "1 1 0 0 1 3"),
    ("closed paths", "", "M0 0z", ""),
    ("commas", "M0 0", ",0,0", ","),
];

/// The time for each byte of texts of 1,024 and of 65,536 bytes: linear time is as long for both.
pub fn compare_time(report: &mut Report) {
    println!("  {:40} {:>13} {:>13}   ns per byte", "", "1,024 bytes", "65,536 bytes");
    for (edition, edition_name) in EDITIONS {
        for (name, start, middle, end) in WORST {
            let [short, long] = [1_024, 65_536].map(|size| {
                let text = stretched(start, middle, end, size);
                let turns = 16 * 65_536 / size;
                let times = (0..8).map(|_| {
                    let began = Instant::now();
                    for _ in 0..turns {
                        black_box(kihavute::strict(black_box(&text), edition));
                    }
                    began.elapsed().as_secs_f64() * 1e9 / (turns * size) as f64
                });
                times.fold(f64::INFINITY, f64::min)
            });
            let name = format!("{edition_name}, {name}");
            println!("  {name:40} {short:13.2} {long:13.2}");
            report.count(2, long < 4.0 * short + 10.0);
        }
    }
}

// a text of this size
fn stretched(start: &str, middle: &str, end: &str, size: usize) -> Vec<u8> {
    let between = size - start.len() - end.len();
    let repeated = middle.bytes().cycle().take(between / middle.len() * middle.len());
    let left = between % middle.len();
    start.bytes().chain(repeated).chain(std::iter::repeat_n(b' ', left)).chain(end.bytes()).collect()
}

// ---- the runs

fn for_editions(mut run: impl FnMut(&Grammar, &Paths)) {
    for (edition, name) in EDITIONS {
        let grammar = Grammar::of(edition);
        run(&grammar, &Paths::new(&grammar, edition, name));
    }
}

/// What the gate runs: shorter texts, shorter tails and fewer derivations.
pub fn compare_some(report: &mut Report, seed: u64) {
    for_editions(|grammar, paths| {
        short_texts(report, paths, 4);
        tails(report, paths, 2);
        derivations(report, grammar, paths, seed, 25_000);
    });
}

/// All texts of up to 6 telling bytes, and all tails of up to 5 of them in an arc and after every letter, with up to 4 within an arc.
pub fn compare_all(report: &mut Report) {
    for_editions(|_, paths| {
        short_texts(report, paths, 6);
        tails(report, paths, 5);
    });
}

/// Derivations and as many damaged copies.
pub fn compare_derivations(report: &mut Report, seed: u64, count: u64) {
    for_editions(|grammar, paths| derivations(report, grammar, paths, seed, count));
}

fn short_texts(report: &mut Report, paths: &Paths, bytes: usize) {
    all_texts(report, paths, &format!("all texts of up to {bytes} of 16 bytes"), &[(String::new(), "")], bytes);
}

// an arc before and after what is made: its first radius, its second one, its rotation, the separator before the first flag,
// and how a second group begins
const WITHIN: [(&str, &str); 5] = [
    ("M0 0A", " 1 0 0 1 3 4"),
    ("M0 0A1", " 0 0 1 3 4"),
    ("M0 0A1 1", "0 1 3 4"),
    ("M0 0A1 1 0", "0 1 3 4"),
    ("M0 0A1 1 0 0 1 3 4", "1 1 0 0 1 3 4"),
];

fn tails(report: &mut Report, paths: &Paths, bytes: usize) {
    let arcs = ["M0 0A1 1 0", "M0 0A1 1 0 0"].map(|start| (start.to_owned(), ""));
    all_texts(report, paths, &format!("all tails of up to {bytes} in an arc"), &arcs, bytes);
    let letters: Vec<_> = "MmZzLlHhVvCcSsQqTtAa".chars().map(|letter| (format!("M0 0{letter}"), "")).collect();
    all_texts(report, paths, &format!("all tails of up to {bytes} after a letter"), &letters, bytes);
    let within = WITHIN.map(|(start, end)| (start.to_owned(), end));
    all_texts(report, paths, &format!("all of up to {} within an arc", bytes - 1), &within, bytes - 1);
}
