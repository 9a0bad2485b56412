//! Queries of a path on both sides: what is flown at many progresses and the heading there, each by itself and in a batch, by
//! bits. And demand 3 tried on the compiled library: the pairs of segment and raw parameter at rising progresses.

use crate::build;
use crate::compare::{Input, Report};
use crate::makers;
use crate::math::alike;
use crate::samples::{Stream, worked_out};
use crate::turns;
use animato_path::bezier::PathEvaluate;
use animato_path::poly::PathCommand;
use kihavute::{Path, Progress};
use std::fmt;

/// A path's commands, and the progresses at which it is asked.
#[derive(Clone)]
pub struct Asked {
    pub commands: Vec<PathCommand>,
    pub progresses: Vec<f32>,
}

/// At each progress the segment, its command, and the bits of raw parameter, x, y, the direction's two and the heading; or the
/// number of the refusal that document 01 has for the path.
#[derive(Clone, PartialEq)]
pub enum Answer {
    Flown(Vec<Flight>),
    Refused(u32),
    /// A batch answers another thing than the single queries, or writes past its answers.
    Apart,
}

/// The segment and the number of its command, where there is one, and the bits of the six numbers.
pub type Flight = (Option<(usize, usize)>, [u32; 6]);

use Answer::{Apart, Flown, Refused};

impl Asked {
    pub fn theirs(&self) -> Answer {
        if let Some((number, _)) = build::refused(&self.commands) {
            return Refused(number);
        }
        let path = turns::path(&self.commands);
        let commands = makers::numbers(&self.commands);
        let at = |t: f32| {
            let found = path.open_place_at(t);
            let raw = found.map_or(0.0, |(_, raw)| raw);
            let ([x, y], [tx, ty]) = (path.position(t), path.tangent(t));
            let numbers = [raw, x, y, tx, ty, path.rotation_deg(t)];
            (found.map(|(number, _)| (number, commands[number] as usize)), numbers.map(alike))
        };
        Flown(self.progresses.iter().map(|t| at(*t)).collect())
    }

    pub fn ours(&self) -> Answer {
        let (letters, numbers) = build::stored(&self.commands);
        let path = match Path::from_commands(&letters, &numbers) {
            Ok(path) => path,
            Err(refusal) => return Refused(refusal.number()),
        };
        let at = |t: f32| {
            let t = Progress(t);
            let kihavute::Flight { position: [x, y], tangent: [tx, ty], segment, raw } = path.flight(t)?;
            let numbers = [raw.value().to_bits(), x, y, tx, ty, path.rotation_deg(t)?.to_bits()];
            let command = |number: usize| path.command(number).unwrap_or(usize::MAX);
            Ok((segment.map(|number| (number, command(number))), numbers))
        };
        let asked: Result<Vec<Flight>, kihavute::Refusal> = self.progresses.iter().map(|t| at(*t)).collect();
        match asked {
            Ok(single) if self.is_batch(&path, &single) => Flown(single),
            Ok(_) => Apart,
            Err(refusal) => Refused(refusal.number()),
        }
    }

    // whether the batches give what the single query gives, and write nothing past it
    fn is_batch(&self, path: &Path, single: &[Flight]) -> bool {
        const UNTOUCHED: u32 = 0xC0DE_F00D;
        let untouched = f32::from_bits(UNTOUCHED);
        let count = single.len();
        let fresh = || (vec![UNTOUCHED; count + 1], vec![untouched; count + 1]);
        let (mut columns, mut others) = fresh();
        let (mut segments, mut raws) = fresh();
        let mut out = vec![untouched; 4 * count + 1];
        let progresses: Vec<Progress> = self.progresses.iter().copied().map(Progress).collect();
        let placed = path.places(&progresses, &mut columns, &mut others);
        let flown = path.flights(&progresses, &mut segments, &mut raws, &mut out);
        let same = |k: usize| {
            let (segment, [raw, numbers @ .., _]) = single[k];
            let due = (segment.map_or(kihavute::NO_SEGMENT, |(number, _)| number as u32), raw);
            (segments[k], raws[k].to_bits()) == due
                && (columns[k], others[k].to_bits()) == due
                && (0..4).all(|n| out[4 * k + n].to_bits() == numbers[n])
        };
        let past = [segments[count], raws[count].to_bits(), columns[count], others[count].to_bits(), out[4 * count].to_bits()];
        placed == Ok(count) && flown == Ok(count) && (0..count).all(same) && past == [UNTOUCHED; 5]
    }
}

impl fmt::Display for Asked {
    fn fmt(&self, out: &mut fmt::Formatter) -> fmt::Result {
        let bits: Vec<u32> = self.progresses.iter().map(|t| t.to_bits()).collect();
        write!(out, "{:?} at {bits:X?}", self.commands)
    }
}

impl fmt::Display for Answer {
    fn fmt(&self, out: &mut fmt::Formatter) -> fmt::Result {
        match self {
            Flown(places) => write!(out, "{places:X?}"),
            Refused(number) => write!(out, "refused {number}"),
            Apart => write!(out, "another batch than single queries"),
        }
    }
}

impl Input for Asked {
    // without a command, or at half of the progresses
    fn simpler(&self) -> Vec<Asked> {
        let fewer = (0..self.commands.len()).map(|left_out| {
            let mut commands = self.commands.clone();
            commands.remove(left_out);
            Asked { commands, progresses: self.progresses.clone() }
        });
        let half = self.progresses.len() / 2;
        let halves = [&self.progresses[..half], &self.progresses[half..]];
        let shorter = halves.into_iter().filter(|part| !part.is_empty() && half > 0);
        fewer.chain(shorter.map(|part| Asked { commands: self.commands.clone(), progresses: part.to_vec() })).collect()
    }
}

// ---- progresses

// 100 of them: the ends, what is out of range, those whose targets meet running lengths or their neighbours, and others
fn progresses(stream: &mut Stream, commands: &[PathCommand]) -> Vec<f32> {
    let path = turns::path(commands);
    let (lengths, total) = path.open_lengths();
    let mut all = vec![0.0, 1.0, -0.0, f32::NAN, -1.0, 2.0, f32::INFINITY, f32::NEG_INFINITY, f32::MIN_POSITIVE];
    for length in lengths {
        let bits = worked_out(length / total);
        all.extend([bits, bits.wrapping_sub(1), bits.wrapping_add(1)].map(f32::from_bits));
    }
    while all.len() < 100 {
        all.push(match stream.below(4) {
            0 => f32::from_bits(stream.bits()),
            _ => stream.below(1 << 24) as f32 / 16_777_216.0,
        });
    }
    all
}

/// So many paths of each kind of number, each at 100 progresses and more.
pub fn compare(report: &mut Report, seed: u64, count: u64) {
    for (kind, name) in (0..).zip(build::KINDS) {
        let mut stream = Stream::new(seed ^ 0x9E_0000 ^ u64::from(kind));
        let asked = (0..count).map(move |_| {
            let commands = build::list(&mut stream, kind);
            let progresses = progresses(&mut stream, &commands);
            Asked { commands, progresses }
        });
        report.group(&format!("queries of a path, {name}"), asked, Asked::ours, Asked::theirs);
    }
}

// ---- demand 3

// rising progresses of a batch, neighbours among them
pub const RISING: usize = 1001;

/// Rising progresses from 0 to 1.
pub fn rising(stream: &mut Stream) -> Vec<Progress> {
    let mut all = vec![0.0, 1.0];
    while all.len() < RISING {
        let bits = match stream.below(3) {
            0 => stream.below(0x3F80_0000),
            _ => (stream.below(1 << 24) as f32 / 16_777_216.0).to_bits(),
        };
        all.extend((0..4).map(|more| f32::from_bits((bits + more).min(0x3F80_0000))));
    }
    all.truncate(RISING);
    all.sort_by(f32::total_cmp);
    all.into_iter().map(Progress).collect()
}

/// Over so many random paths, a batch of flights each: no pair of rising progresses steps back, and the ends are the first and the last
/// place.
pub fn compare_order(report: &mut Report, seed: u64, count: u64) {
    let mut stream = Stream::new(seed ^ 0xD3);
    let (mut paths, mut pairs) = (0u64, 0u64);
    let (mut segments, mut raws, mut out) = ([0; RISING], [0.0; RISING], [0.0; 4 * RISING]);
    let mut equal = true;
    while equal && paths < count {
        let kind = stream.below(build::KINDS.len() as u32);
        let (letters, numbers) = build::stored(&build::list(&mut stream, kind));
        let Ok(path) = Path::from_commands(&letters, &numbers) else { continue };
        if path.is_empty() || path.arc_length() <= f32::EPSILON {
            continue;
        }
        let filled = path.flights(&rising(&mut stream), &mut segments, &mut raws, &mut out);
        let place = |k: usize| (segments[k], raws[k]);
        let back = (1..RISING).find(|k| !(place(k - 1) <= place(*k)));
        let ends = segments[0] == 0 && raws[0].to_bits() == 0 && place(RISING - 1) == (path.len() as u32 - 1, 1.0);
        if filled != Ok(RISING) || back.is_some() || !ends {
            println!(
                "  STEPS BACK, or does not start at 0 or end at 1: letters {letters:?} numbers {numbers:?} at {back:?}"
            );
            equal = false;
        }
        paths += 1;
        pairs += RISING as u64 - 1;
        if paths % 100_000 == 0 {
            println!("  {paths} paths, {pairs} pairs, {:.0} s", report.seconds());
        }
    }
    println!("  order: {paths} paths, {pairs} pairs of rising progresses");
    report.count(pairs, equal);
}
