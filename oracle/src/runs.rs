//! Dry runs over recorded ground speed on both sides, by bits: the sums in u64, each target the f64 quotient rounded to f32, and the
//! original's own `segment_at` and `raw_t` at that target.

use crate::build;
use crate::compare::{Input, Report};
use crate::math::alike;
use crate::samples::Stream;
use crate::turns;
use animato_path::poly::{CompoundPath, PathCommand};
use kihavute::{NO_SEGMENT, Path, Stored};
use std::fmt;

/// A path's commands, running lengths in place of its own, the speeds of its seconds, and how many places the outputs lack.
#[derive(Clone)]
pub struct Asked {
    pub commands: Vec<PathCommand>,
    pub lengths: Option<Vec<f32>>,
    pub speeds: Vec<u32>,
    pub lacks: [usize; 2],
}

/// For each second the segment and the raw parameter's bits; or a refusal with what it carries.
#[derive(PartialEq)]
pub enum Answer {
    Flown(Vec<(u32, u32)>),
    Refused(u32, Vec<u64>),
    /// Something is written that a refusal or the count leaves alone, or the count is another.
    Overwritten,
}

use Answer::{Flown, Overwritten, Refused};

// The f32 nearest to so many thousandths. The f64 quotient is no middle of two f32 unless the exact one is: a middle has 25 digits, so
// that a sum of 32 differs from a thousand times a middle by more than 2^-40 of it, and f64 rounds by 2^-53. So rounding twice is
// rounding once.
fn target(sum: u64) -> f32 {
    (sum as f64 / 1000.0) as f32
}

impl Asked {
    pub fn theirs(&self) -> Answer {
        if let Some((number, segment)) = build::refused(&self.commands) {
            return Refused(number, vec![segment]);
        }
        let mut path = turns::path(&self.commands);
        if let Some(lengths) = &self.lengths {
            let rising = lengths.is_sorted() && lengths.iter().all(|length| length.is_finite() && *length >= 0.0);
            if !rising || lengths.len() != path.len() {
                return Refused(12, Vec::new());
            }
            let total = lengths.last().copied().unwrap_or(0.0);
            path = CompoundPath::open_from_parts(path.segments().to_vec(), lengths.clone(), total);
        }
        let count = self.speeds.len() as u64;
        if count > 36_000 {
            return Refused(13, vec![count]);
        }
        if let Some(speed) = self.speeds.iter().find(|speed| **speed > 100_000) {
            return Refused(13, vec![u64::from(*speed)]);
        }
        if self.lacks != [0, 0] && count > 0 {
            return Refused(8, vec![count, count]);
        }
        let mut sum = 0;
        let second = |speed: &u32| {
            sum += u64::from(*speed);
            let found = path.open_place_toward(target(sum));
            found.map_or((NO_SEGMENT, 0), |(segment, raw)| (segment as u32, alike(raw)))
        };
        Flown(self.speeds.iter().map(second).collect())
    }

    pub fn ours(&self) -> Answer {
        const UNTOUCHED: u32 = 0xC0DE_F00D;
        let (letters, numbers) = build::stored(&self.commands);
        let told = |refusal: kihavute::Refusal, count: usize| Refused(refusal.number(), refusal.carried()[..count].to_vec());
        let path = match Path::from_commands(&letters, &numbers) {
            Ok(path) => path,
            Err(refusal) => return told(refusal, 1),
        };
        let lengths = self.lengths.as_deref().unwrap_or(path.lengths());
        let stored = Stored { lengths, ..path.stored() };
        let count = self.speeds.len();
        // what lacks a place has none past the count
        let place = |lacks: usize| if lacks == 0 { count + 1 } else { count.saturating_sub(lacks) };
        let mut segments = vec![UNTOUCHED; place(self.lacks[0])];
        let mut raws = vec![f32::from_bits(UNTOUCHED); place(self.lacks[1])];
        let filled = stored.dry_run(&self.speeds, &mut segments, &mut raws);
        let written = if filled.is_ok() { count } else { 0 };
        let past = segments.iter().skip(written).all(|x| *x == UNTOUCHED) && raws.iter().skip(written).all(|x| x.to_bits() == UNTOUCHED);
        match filled {
            _ if !past => Overwritten,
            Ok(given) if given != count => Overwritten,
            Ok(_) => Flown(segments.into_iter().zip(raws.iter().map(|raw| raw.to_bits())).take(count).collect()),
            Err(refusal) => told(refusal, match refusal.number() { 12 => 0, 8 => 2, _ => 1 }),
        }
    }
}

impl fmt::Display for Asked {
    fn fmt(&self, out: &mut fmt::Formatter) -> fmt::Result {
        let lengths = self.lengths.as_ref().map(|lengths| lengths.iter().map(|x| x.to_bits()).collect::<Vec<u32>>());
        write!(out, "{:?}, lengths {lengths:X?}, speeds {:?}, lacking {:?}", self.commands, self.speeds, self.lacks)
    }
}

impl fmt::Display for Answer {
    fn fmt(&self, out: &mut fmt::Formatter) -> fmt::Result {
        match self {
            Flown(places) => write!(out, "{places:X?}"),
            Refused(number, carried) => write!(out, "refused {number} {carried:?}"),
            Overwritten => write!(out, "a place overwritten, or another count"),
        }
    }
}

impl Input for Asked {
    // without a command, or with the first or the second half of the seconds
    fn simpler(&self) -> Vec<Asked> {
        let mut all = Vec::new();
        for left_out in 0..if self.lengths.is_none() { self.commands.len() } else { 0 } {
            let mut fewer = self.clone();
            fewer.commands.remove(left_out);
            all.push(fewer);
        }
        let half = self.speeds.len() / 2;
        if half > 0 {
            all.push(Asked { speeds: self.speeds[..half].to_vec(), ..self.clone() });
            all.push(Asked { speeds: self.speeds[half..].to_vec(), ..self.clone() });
        }
        all
    }
}

// ---- speeds

// the speeds by which the sums go through these places, in millimetres, and no further than so many seconds
fn through(mut places: Vec<u64>, most: usize) -> Vec<u32> {
    places.sort_unstable();
    let (mut speeds, mut sum) = (Vec::new(), 0);
    for place in places {
        while speeds.len() < most && place - sum > 100_000 {
            speeds.push(100_000);
            sum += 100_000;
        }
        if speeds.len() < most {
            speeds.push((place - sum) as u32);
            sum = place;
        }
    }
    speeds
}

// up to some 60 seconds, with stops: any speeds, such as fly the path once and a little more, or past the very running lengths
fn speeds(stream: &mut Stream, lengths: &[f32]) -> Vec<u32> {
    let total = lengths.last().copied().unwrap_or(0.0);
    let millimetres = (f64::from(total) * 1000.0).min(1e9) as u64;
    let count = stream.below(60);
    match stream.below(4) {
        0 => (0..count).map(|_| if stream.below(4) == 0 { 0 } else { stream.below(100_001) }).collect(),
        1 => {
            let place = |length: &f32| (f64::from(*length) * 1000.0).min(3e9) as u64;
            through(lengths.iter().flat_map(|length| (0..4).map(move |more| (place(length) + more).saturating_sub(1))).collect(), 400)
        }
        _ => {
            let mean = (millimetres * 13 / 10 / u64::from(count.max(1)) * 2).min(100_000) as u32;
            (0..count).map(|_| if stream.below(5) == 0 { 0 } else { stream.below(mean + 1) }).collect()
        }
    }
}

// running lengths that fit no table: those of the path moved, stretched or taken from another order of size, now and then falling
fn others(stream: &mut Stream, lengths: &[f32]) -> Vec<f32> {
    let factor = [0.25, 0.999, 1.5, 1000.0, 1e-9][stream.below(5) as usize];
    let mut moved: Vec<f32> = lengths.iter().map(|length| length * factor + stream.below(3) as f32).collect();
    if stream.below(8) != 0 {
        moved.sort_by(f32::total_cmp);
    }
    match stream.below(32) {
        0 => moved.push(1e9),
        1 if !moved.is_empty() => moved[0] = -1.0,
        2 if !moved.is_empty() => *moved.last_mut().expect("there is one") = f32::INFINITY,
        _ => {}
    }
    moved
}

// ---- long flights

// a path of up to some thousand kilometres
fn far(stream: &mut Stream) -> Vec<PathCommand> {
    let mut point = || [stream.below(1 << 20) as f32, stream.below(1 << 20) as f32];
    vec![
        PathCommand::MoveTo(point()),
        PathCommand::LineTo(point()),
        PathCommand::QuadTo { control: point(), end: point() },
        PathCommand::LineTo(point()),
        PathCommand::CubicTo { control1: point(), control2: point(), end: point() },
        PathCommand::ArcTo { radii: point(), x_axis_rotation: 30.0, large_arc: true, sweep: false, end: point() },
    ]
}

// the line on which the raw parameter times 2^24 is the target
fn line() -> Vec<PathCommand> {
    vec![PathCommand::MoveTo([0.0, 0.0]), PathCommand::LineTo([16_777_216.0, 0.0])]
}

// 36,000 seconds: to 2,097,152 m at the largest speed, then such as make ties, multiples of 125 mm, or any
fn hours(stream: &mut Stream, ties: bool) -> Vec<u32> {
    let mut all = vec![100_000; 20_971];
    all.push(52_125);
    while all.len() < 36_000 {
        all.push(if ties { 125 * stream.below(801) } else { stream.below(100_001) });
    }
    all
}

// ---- the runs

// each refusal with each other, and each limit with one beyond it
fn limits() -> Vec<Asked> {
    let two = || vec![PathCommand::MoveTo([0.0, 0.0]), PathCommand::LineTo([3.0, 4.0]), PathCommand::LineTo([9.0, 4.0])];
    let mut all = Vec::new();
    for commands in [two(), vec![PathCommand::MoveTo([1.0, 2.0])]] {
        for wrong in 0..64 {
            let has = |bit: u32| wrong >> bit & 1 == 1;
            let mut speeds = vec![100_000; if has(0) { 36_001 } else { 36_000 }];
            if has(1) {
                (speeds[5], speeds[20_000]) = (100_001, u32::MAX);
            }
            if has(2) {
                speeds.truncate(speeds.len() - 35_990);
            }
            let lengths = has(3).then(|| vec![5.0, 4.0]);
            all.push(Asked { commands: commands.clone(), lengths, speeds, lacks: [usize::from(has(4)), usize::from(has(5))] });
        }
        for speed in [99_999, 100_000, 100_001, 16_777_217, u32::MAX] {
            for place in [0, 1, 2] {
                let mut speeds = vec![7, 8, 9];
                speeds[place] = speed;
                all.push(Asked { commands: commands.clone(), lengths: None, speeds, lacks: [0, 0] });
            }
        }
        for lacks in [[0, 0], [1, 0], [0, 1], [3, 3]] {
            for count in [0, 1, 3] {
                all.push(Asked { commands: commands.clone(), lengths: None, speeds: vec![1000; count], lacks });
            }
        }
    }
    // totals about 2^-23
    for length in [0x33FF_FFFF, 0x3400_0000, 0x3400_0001] {
        let lengths = Some(vec![0.0, f32::from_bits(length)]);
        all.push(Asked { commands: two(), lengths, speeds: vec![0, 0, 1, 0, 100_000], lacks: [0, 0] });
    }
    all
}

fn flown(answer: &Answer) -> u64 {
    if let Flown(places) = answer { places.len() as u64 } else { 0 }
}

// one group, and how many seconds its runs have in all
fn group(report: &mut Report, name: &str, runs: impl Iterator<Item = Asked>) {
    let seconds = std::cell::Cell::new(0);
    let theirs = |asked: &Asked| {
        let answer = asked.theirs();
        seconds.set(seconds.get() + flown(&answer));
        answer
    };
    let calls = report.group(&format!("dry runs, {name}"), runs, Asked::ours, theirs);
    println!("  dry runs, {name}: {calls} runs, {} seconds flown, {:.0} s", seconds.get(), report.seconds());
}

/// The limits and refusals, so many paths of each kind of number, half of them with other running lengths, and long flights.
pub fn compare(report: &mut Report, seed: u64, count: u64) {
    group(report, "limits", limits().into_iter());
    for (kind, name) in (0..).zip(build::KINDS) {
        let mut stream = Stream::new(seed ^ 0xD2_0000 ^ u64::from(kind));
        let runs = (0..count).map(move |_| {
            let commands = build::list(&mut stream, kind);
            let own = turns::path(&commands).open_lengths().0.to_vec();
            let lengths = (stream.below(2) == 0).then(|| others(&mut stream, &own));
            let speeds = speeds(&mut stream, lengths.as_ref().unwrap_or(&own));
            let lacks = if stream.below(16) == 0 { [stream.below(2) as usize, stream.below(2) as usize] } else { [0, 0] };
            Asked { commands, lengths, speeds, lacks }
        });
        group(report, name, runs);
    }
    let mut stream = Stream::new(seed ^ 0xD3_0000);
    let long = (0..(count / 100).max(4)).map(move |number| {
        let commands = if number % 4 == 0 { line() } else { far(&mut stream) };
        Asked { commands, lengths: None, speeds: hours(&mut stream, number % 2 == 0), lacks: [0, 0] }
    });
    group(report, "36,000 seconds", long);
}

/// The target of every sum that 36,000 seconds reach, from 0 to 3,600,000,000, on the line where it is the raw parameter times 2^24.
pub fn compare_sums(report: &mut Report) {
    let path = Path::from_text(b"M0 0H16777216").expect("it is built");
    let (mut segments, mut raws) = (vec![0; 36_000], vec![0.0f32; 36_000]);
    let (mut next, mut sums, mut equal) = (0u64, 0u64, true);
    while equal && next <= 3_600_000_000 {
        // to the next sum at the largest speed, and on by single millimetres
        let mut speeds = vec![100_000; (next / 100_000) as usize];
        if next % 100_000 > 0 || speeds.is_empty() {
            speeds.push((next % 100_000) as u32);
        }
        let first = speeds.len() - 1;
        speeds.resize(36_000, 1);
        equal &= path.dry_run(&speeds, &mut segments, &mut raws) == Ok(36_000);
        for raw in &raws[first..] {
            let found = (raw * 16_777_216.0).to_bits();
            if found != target(next).to_bits() {
                println!("  DIFFERENT: {next} mm are {found:08X}, and not {:08X}", target(next).to_bits());
                equal = false;
                break;
            }
            next += 1;
            sums += 1;
        }
    }
    println!("  targets: {sums} sums, {:.0} s", report.seconds());
    report.count(sums, equal);
}
