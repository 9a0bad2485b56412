//! The check of others' listings: the original's answers, printed as the tool prints them and then damaged, against the first wrong
//! line that a second program finds by cutting both listings into lines.

use crate::compare::{Input, Report};
use crate::samples::Stream;
use crate::stations;
use crate::strict::Text;
use std::fmt;
use std::io::Write;
use std::process::{Command, Stdio};

/// A plan, its listing by the original's answers, and a listing that is said to be its.
#[derive(Clone)]
pub struct Asked {
    pub plan: Vec<u8>,
    pub due: Vec<u8>,
    pub listing: Vec<u8>,
}

/// 0, or the first wrong line; a text where the call is refused or the output holds another listing.
#[derive(PartialEq)]
pub enum Answer {
    Line(usize),
    Wrong(String),
}

use Answer::{Line, Wrong};

fn lines(text: &[u8]) -> Vec<&[u8]> {
    text.split_inclusive(|byte| *byte == b'\n').collect()
}

// "the number, from 1, of the first wrong, missing or extra line"
fn first_wrong(ours: &[u8], given: &[u8]) -> usize {
    let (ours, given) = (lines(ours), lines(given));
    if ours == given { 0 } else { 1 + ours.iter().zip(&given).take_while(|(line, other)| line == other).count() }
}

impl Asked {
    pub fn theirs(&self) -> Answer {
        Line(first_wrong(&self.due, &self.listing))
    }

    // an output that is one place short is refused and left as it was; one that is long enough gets our listing
    pub fn ours(&self) -> Answer {
        const BYTE: u8 = 0xA5;
        let due = &self.due;
        let mut out = vec![BYTE; due.len() + 1];
        let short = kihavute::check_listing_into(&self.plan, &self.listing, &mut out[..due.len() - 1]);
        match short {
            Err(refusal) if refusal.number() == 8 && refusal.carried()[0] == due.len() as u64 => {}
            _ => return Wrong("a short output is not refused with the listing's length".to_string()),
        }
        if out.iter().any(|byte| *byte != BYTE) {
            return Wrong("a refusal writes".to_string());
        }
        let Ok(checked) = kihavute::check_listing_into(&self.plan, &self.listing, &mut out) else {
            return Wrong("refused".to_string());
        };
        if out[..due.len()] != due[..] || out[due.len()] != BYTE {
            return Wrong("the output holds another listing".to_string());
        }
        if checked != kihavute::check_listing(&self.plan, &self.listing) {
            return Wrong("other room, another answer".to_string());
        }
        Line(checked.map_or_else(|line| line.0, |()| 0))
    }

    // what the compiled program prints on this machine
    fn printed(&self) -> Answer {
        let program = "tools/check-listing";
        let mut run = Command::new(program)
            .stdin(Stdio::piped())
            .stdout(Stdio::piped())
            .spawn()
            .unwrap_or_else(|error| panic!("{program}: {error}"));
        let mut input = run.stdin.take().expect("the program has an input");
        let line = format!("{}\n", self.plan.len());
        // the program may be done before it has taken all of a long listing
        let _ = input.write_all(&[line.as_bytes(), &self.plan, &self.listing].concat());
        drop(input);
        let said = String::from_utf8(run.wait_with_output().expect("the program ends").stdout).expect("it prints ASCII");
        match said.strip_prefix("line ").and_then(|rest| rest.strip_suffix('\n')).and_then(|number| number.parse().ok()) {
            Some(line) => Line(line),
            None if said == "accepted\n" => Line(0),
            None => Wrong(said),
        }
    }
}

impl fmt::Display for Asked {
    fn fmt(&self, out: &mut fmt::Formatter) -> fmt::Result {
        let text = |bytes: &[u8]| String::from_utf8_lossy(bytes).into_owned();
        write!(out, "{:?} and {:?}", text(&self.plan), text(&self.listing))
    }
}

impl fmt::Display for Answer {
    fn fmt(&self, out: &mut fmt::Formatter) -> fmt::Result {
        match self {
            Line(line) => write!(out, "line {line}"),
            Wrong(what) => write!(out, "{what}"),
        }
    }
}

impl Input for Asked {
    // without a line of the listing
    fn simpler(&self) -> Vec<Asked> {
        let all = lines(&self.listing);
        let without = |left_out: usize| [&all[..left_out], &all[left_out + 1..]].concat().concat();
        (0..all.len().min(64)).map(|left_out| Asked { listing: without(left_out), ..self.clone() }).collect()
    }
}

// ---- damage

const DAMAGES: u32 = 14;

// a listing after one damage: the last LF lost, one LF or a line more, an empty listing, CR LF, a line lost, doubled or exchanged with
// the next, a byte changed, lost or put in, the end cut off, the lines without their last fields, which older tools did not print, or
// the listing of another plan
fn damaged(stream: &mut Stream, listing: &[u8], kind: u32, other: &[u8]) -> Vec<u8> {
    let all = lines(listing);
    let line = stream.below(all.len() as u32) as usize;
    let place = stream.below(listing.len() as u32) as usize;
    let mut bytes = listing.to_vec();
    match kind {
        0 => {
            bytes.pop();
        }
        1 => bytes.push(b'\n'),
        2 => bytes.extend(all[line]),
        3 => bytes.clear(),
        4 => bytes = all.iter().flat_map(|line| [&line[..line.len() - 1], b"\r\n"].concat()).collect(),
        5 => bytes = [&all[..line], &all[line + 1..]].concat().concat(),
        6 => bytes = [&all[..line], &[all[line]], &all[line..]].concat().concat(),
        7 if line + 1 < all.len() => bytes = [&all[..line], &[all[line + 1], all[line]], &all[line + 2..]].concat().concat(),
        8 => bytes[place] ^= 1 << stream.below(8),
        9 => {
            bytes.remove(place);
        }
        10 => bytes.insert(place, [b'\n', b' ', b'0', b'\r'][stream.below(4) as usize]),
        11 => bytes.truncate(place),
        12 => {
            let less = |line: &&[u8]| line[..line.iter().rposition(|byte| *byte == b' ').unwrap_or(0)].to_vec();
            bytes = all.iter().flat_map(|line| [less(line), b"\n".to_vec()].concat()).collect();
        }
        13 => bytes = other.to_vec(),
        _ => {}
    }
    bytes
}

/// Each plan with its own listing, and damaged in every way.
pub fn asked(plans: impl Iterator<Item = Text>, seed: u64) -> impl Iterator<Item = Asked> {
    let mut stream = Stream::new(seed ^ 0xC4EC);
    let mut other = b"refused 13 0\n".to_vec();
    plans.flat_map(move |Text(plan)| {
        let due = stations::due(&plan);
        let of = |listing| Asked { plan: plan.clone(), due: due.clone(), listing };
        let mut all = vec![of(due.clone())];
        all.extend((0..DAMAGES).map(|kind| of(damaged(&mut stream, &due, kind, &other))));
        other = due;
        all
    })
}

fn group(report: &mut Report, name: &str, listings: impl Iterator<Item = Asked>, ours: fn(&Asked) -> Answer) {
    let accepted = std::cell::Cell::new(0);
    let theirs = |asked: &Asked| {
        let answer = asked.theirs();
        accepted.set(accepted.get() + u64::from(answer == Line(0)));
        answer
    };
    let calls = report.group(name, listings, ours, theirs);
    println!("  {name}: {calls} listings, {} accepted, {:.0} s", accepted.get(), report.seconds());
}

/// So many random plans, each with its listing as it is and damaged, through the library.
pub fn compare(report: &mut Report, seed: u64, count: u64) {
    group(report, "listings of random plans", asked(stations::plans(seed, count), seed), Asked::ours);
}

/// The same with the longest listings.
pub fn compare_longest(report: &mut Report, seed: u64) {
    group(report, "listings of the longest kind", asked(stations::longest().into_iter(), seed), Asked::ours);
}

/// The same through the program, with a plan of each length about 4,107 bytes, and a listing of each about 69,632.
pub fn compare_program(report: &mut Report, seed: u64, count: u64) {
    let of_length = |size: usize| {
        let mut plan = b"1000\nM0 0".to_vec();
        plan.resize(size, b' ');
        Text(plan)
    };
    let long = (4095..4110).chain([8000, 100_000]).map(of_length);
    let nines = (4100..4110).map(|size| {
        let mut plan = b"000000002\nM0 0L3 4".to_vec();
        plan.resize(size, b'\n');
        Text(plan)
    });
    let whole = |Text(plan): Text| {
        let due = stations::due(&plan);
        Asked { plan, listing: due.clone(), due }
    };
    let mut largest: Vec<Asked> = stations::longest().into_iter().map(whole).collect();
    let more: Vec<Asked> = largest.iter().flat_map(|own| [1, 3000, 200_000].map(|extra| {
        Asked { listing: [&own.listing[..], &vec![b'x'; extra]].concat(), ..own.clone() }
    })).collect();
    largest.extend(more);
    group(report, "the largest listings through the program", largest.into_iter(), Asked::printed);
    group(report, "plans of every length through the program", asked(long.chain(nines), seed), Asked::printed);
    group(report, "listings through the program", asked(stations::plans(seed, count), seed), Asked::printed);
}
