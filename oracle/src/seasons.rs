//! The season report on both sides, by bytes: what the original's own reader and builder answer to each plan, counted and printed in
//! the words of document 02, L13, against the sheet of the proved library.

use crate::build;
use crate::compare::Report;
use crate::read::{self, Paths};
use crate::samples::Stream;
use crate::stations;
use crate::strict::Text;
use crate::turns;
use std::fmt;
use std::io::Write;
use std::process::{Command, Stdio};

// ---- the original's answers as the sheet has them

// document 01's column Name
const REFUSALS: [&str; 13] = [
    "TooLong",
    "UnexpectedEnd",
    "ExpectedNumber",
    "InvalidNumber",
    "ExpectedFlag",
    "UnsupportedCommand",
    "MissingMoveTo",
    "NoRoom",
    "BadList",
    "RotationRange",
    "NotFinite",
    "BadPath",
    "Range",
];
const LETTERS: [&str; 6] = ["M", "L", "Q", "C", "A", "Z"];
const KINDS: [&str; 5] = ["line", "quad", "cubic", "arc", "fallback"];

// an accepted plan: its letters, the kinds of its segments, its whole millimetres
struct Accepted {
    letters: Vec<String>,
    kinds: Vec<&'static str>,
    millimetres: u64,
}

// "totals are turned into whole millimetres, ties to even": 24 bits by 10 are exact in an f64, and so is the rounding
fn millimetres(total: f32) -> u64 {
    (f64::from(total) * 1000.0).round_ties_even() as u64
}

// "the station tool's limits hold"; "Range for a length above 1,000,000,000 millimetres"
fn judged(plan: &[u8]) -> Result<Accepted, u32> {
    let commands = stations::judged(plan)?;
    let path = turns::path(&commands);
    let millimetres = millimetres(path.open_lengths().1);
    if millimetres > 1_000_000_000 {
        return Err(13);
    }
    let letters = build::stored(&commands).0.iter().map(|letter| char::from(*letter).to_string()).collect();
    Ok(Accepted { letters, kinds: path.segments().iter().map(stations::kind).collect(), millimetres })
}

// "each after a line with its byte count": the count and what follows, where the line is one
fn counted(input: &[u8]) -> Option<(usize, &[u8])> {
    let end = input.iter().position(|byte| *byte == b'\n')?;
    let line = &input[..end];
    let right = (1..=9).contains(&line.len()) && line.iter().all(u8::is_ascii_digit);
    let count = std::str::from_utf8(line).ok()?.parse().ok()?;
    let rest = &input[end + 1..];
    (right && count <= rest.len()).then_some((count, rest))
}

// what comes of each plan; a byte count that is none "is counted too and ends the input"
fn outcomes(mut input: &[u8]) -> Vec<Result<Accepted, u32>> {
    let mut outcomes = Vec::new();
    while !input.is_empty() {
        let Some((count, rest)) = counted(input) else {
            outcomes.push(Err(13));
            break;
        };
        outcomes.push(judged(&rest[..count]));
        input = &rest[count..];
    }
    outcomes
}

// "each with its count of lines, a line being name and count, in 01's order, zeros left out"
fn section(word: &str, names: &[&str], counts: &[usize]) -> String {
    let lines: Vec<String> = names
        .iter()
        .zip(counts)
        .filter(|(_, count)| **count > 0)
        .map(|(name, count)| format!("{name} {count}\n"))
        .collect();
    format!("{word} {}\n{}", lines.len(), lines.concat())
}

/// The sheet of a season.
pub fn due(input: &[u8]) -> Vec<u8> {
    let outcomes = outcomes(input);
    let refused = |number: usize| outcomes.iter().filter(|one| one.as_ref().err() == Some(&(number as u32))).count();
    let accepted: Vec<&Accepted> = outcomes.iter().filter_map(|one| one.as_ref().ok()).collect();
    let lettered = |name: &&str| accepted.iter().flat_map(|plan| &plan.letters).filter(|letter| letter == name).count();
    let kinded = |name: &&str| accepted.iter().flat_map(|plan| &plan.kinds).filter(|kind| *kind == name).count();
    let lengths: Vec<u64> = accepted.iter().map(|plan| plan.millimetres).collect();
    let mut sheet = format!("readings {}\n", accepted.len());
    sheet += &section("refusals", &REFUSALS, &(1..=13).map(refused).collect::<Vec<_>>());
    sheet += &section("letters", &LETTERS, &LETTERS.iter().map(lettered).collect::<Vec<_>>());
    sheet += &section("kinds", &KINDS, &KINDS.iter().map(kinded).collect::<Vec<_>>());
    match (lengths.iter().min(), lengths.iter().max()) {
        (Some(shortest), Some(longest)) => {
            sheet += &format!("lengths 3\n{shortest}\n{longest}\n{}\n", lengths.iter().sum::<u64>())
        }
        _ => sheet += "lengths 0\n",
    }
    sheet.into_bytes()
}

/// A sheet as it is shown where two differ.
#[derive(PartialEq)]
struct Sheet(Vec<u8>);

impl fmt::Display for Sheet {
    fn fmt(&self, f: &mut fmt::Formatter<'_>) -> fmt::Result {
        write!(f, "{:?}", String::from_utf8_lossy(&self.0))
    }
}

// ---- the proved side

// what stands in the output before a call
const BYTE: u8 = 0xA5;

// what the library writes; an output that is one place shorter must be refused with the sheet's own count and left as it was
fn ours(input: &[u8]) -> Vec<u8> {
    let mut out = vec![BYTE; kihavute::SHEET];
    let size = kihavute::season_into(input, &mut out).expect("every sheet fits");
    if out[size..].iter().any(|byte| *byte != BYTE) {
        return b"a place past the sheet is written".to_vec();
    }
    out.truncate(size);
    let mut least = vec![BYTE; size];
    let mut needed = [0; 8];
    needed[0] = size as u64;
    let short = kihavute::season_into(input, &mut least[1..]);
    if short.map_err(|refusal| (refusal.number(), refusal.carried())) != Err((8, needed))
        || least.iter().any(|byte| *byte != BYTE)
    {
        return b"a short output is not refused with the sheet's count, or written".to_vec();
    }
    out
}

// what the compiled program prints on this machine, its input written in pieces of so many bytes
fn printed(input: &[u8], piece: usize) -> Vec<u8> {
    let program = "tools/season";
    let mut run = Command::new(program)
        .stdin(Stdio::piped())
        .stdout(Stdio::piped())
        .spawn()
        .unwrap_or_else(|error| panic!("{program}: {error}"));
    let mut pipe = run.stdin.take().expect("the program has an input");
    for bytes in input.chunks(piece) {
        pipe.write_all(bytes).expect("the program takes all of its input");
    }
    drop(pipe);
    run.wait_with_output().expect("the program ends").stdout
}

// ---- seasons

// a plan after its line
fn after_its_count(plan: &[u8]) -> Vec<u8> {
    [format!("{}\n", plan.len()).as_bytes(), plan].concat()
}

// texts of each refusal that a plan can have, and lengths about those at which something changes
const TELLING: [&str; 28] = [
    "M0 0L",
    "M",
    "M1e 2",
    "M0 0A1 1 0 2 0 3 4",
    "M0 0R1 2",
    "L1 2",
    "M1 2Z3 4",
    "M0 0A1 1 1e39 0 0 1 1",
    "M0 0L3e38 3e38",
    "M-3e38 0L3e38 0",
    "M0 0H1e6",
    "M0 0H1000000.0625",
    "M0 0H999999.94",
    "M0 0H1e19",
    "M0 0H.0065",
    "M0 0H.0625",
    "M0 0H.1875",
    "M0 0H.0004",
    "M0 0H.0005",
    "M0 0H.00050000002",
    "M0 0H1e-45",
    "",
    " ",
    "M1 2",
    "M0 0Z",
    "M0 0L10 0H20V10C20 20 10 20 10 10Q5 5 0 10A5 5 0 0 1-10 10A0 1 0 0 1-9 9Zm1 1l2 2s1 2 3 4t1 2",
    "\u{e9}",
    "M0 0L1 1\r\n",
];

// so many commands, each of one number
fn commands(count: usize) -> Vec<u8> {
    format!("M0 0{}", "h1".repeat(count - 1)).into_bytes()
}

// one of the limits, or one beyond it
fn limit(stream: &mut Stream) -> Vec<u8> {
    let padded = |size: usize| format!("{:size$}", "M0 0H1").into_bytes();
    match stream.below(6) {
        0 => padded(4096),
        1 => padded(4097),
        2 => commands(256),
        3 => commands(257),
        4 => padded(4090 + stream.below(3000) as usize),
        _ => commands(300),
    }
}

fn plan(paths: &mut Paths) -> Vec<u8> {
    match paths.0.below(16) {
        0..3 => paths.text(),
        3..9 => {
            let stream = &mut paths.0;
            let kind = if stream.below(4) == 0 { stream.below(build::KINDS.len() as u32) } else { stream.below(3) };
            build::text(stream, kind).into_bytes()
        }
        9 => {
            let text = paths.text();
            paths.damaged(&text)
        }
        10 => limit(&mut paths.0),
        // a length anywhere up to some 16,000,000 metres, most often below the limit
        11 | 12 => {
            let (stream, bits) = (&mut paths.0, 0x3980_0000);
            let length = f32::from_bits(bits + stream.below(0x4B80_0000 - bits));
            format!("M0 0H{length}").into_bytes()
        }
        _ => TELLING[paths.0.below(TELLING.len() as u32) as usize].as_bytes().to_vec(),
    }
}

// a line that is no byte count, or whose count exceeds what follows
fn wrong_line(stream: &mut Stream) -> &'static str {
    let lines = [
        "\n",
        "",
        "3",
        "3\r\n",
        " 3\n",
        "3 \n",
        "+3\n",
        "-3\n",
        "0x3\n",
        "0000000003\n",
        "9999999999\n",
        "999999999\n",
        "4097\n",
        "65536\n",
        "M0 0\n",
        "3.\n",
        "1234567890",
        "000000000",
    ];
    lines[stream.below(lines.len() as u32) as usize]
}

// some plans; now and then a line that is none, a count with zeros before it, an end anywhere
fn season(paths: &mut Paths) -> Vec<u8> {
    let mut input = Vec::new();
    for _ in 0..paths.0.below(12) {
        let plan = plan(paths);
        match paths.0.below(24) {
            0 => input.extend(wrong_line(&mut paths.0).bytes()),
            1 => input.extend([format!("{:09}\n", plan.len()).as_bytes(), &plan].concat()),
            2 => input.extend([after_its_count(&plan), b"\n".to_vec()].concat()),
            _ => input.extend(after_its_count(&plan)),
        }
    }
    if paths.0.below(4) == 0 {
        input.truncate(paths.0.below(input.len() as u32 + 1) as usize);
    }
    input
}

fn seasons(seed: u64, count: u64) -> impl Iterator<Item = Text> {
    let mut paths = Paths(Stream::new(seed ^ 0x5EA5));
    (0..count).map(move |_| Text(season(&mut paths)))
}

// real drawings as plans, so many to a season, those that are too long among them
fn drawings(count: usize, together: usize) -> Option<Vec<Text>> {
    let gathered = read::gathered()?;
    let count = count.min(gathered.len());
    let chosen: Vec<Vec<u8>> = (0..count).map(|k| after_its_count(&gathered[k * gathered.len() / count])).collect();
    Some(chosen.chunks(together).map(|plans| Text(plans.concat())).collect())
}

/// The season that the program of the gate is run on, and its sheet: each telling plan, each limit and one beyond, random plans, and a
/// line that ends it.
pub fn recorded(seed: u64) -> (Vec<u8>, Vec<u8>) {
    let mut paths = Paths(Stream::new(seed ^ 0x4EC0));
    let padded = |size: usize| format!("{:size$}", "M0 0H1").into_bytes();
    let limits = [padded(4096), padded(4097), commands(256), commands(257)];
    let random: Vec<Vec<u8>> = (0..400).map(|_| plan(&mut paths)).filter(|plan| plan.len() < 200).take(120).collect();
    let telling = TELLING.iter().map(|plan| plan.as_bytes().to_vec());
    let plans: Vec<u8> = telling.chain(limits).chain(random).flat_map(|plan| after_its_count(&plan)).collect();
    let input = [plans.as_slice(), b"0000000003\nM0 0H1"].concat();
    let sheet = due(&input);
    (input, sheet)
}

// ---- the runs

fn group(report: &mut Report, name: &str, seasons: Vec<Text>, ours: impl Fn(&[u8]) -> Vec<u8>) {
    let plans: usize = seasons.iter().map(|season| outcomes(&season.0).len()).sum();
    let calls =
        report.group(name, seasons.into_iter(), |season| Sheet(ours(&season.0)), |season| Sheet(due(&season.0)));
    println!("  {name}: {calls} seasons, {plans} plans, {:.0} s", report.seconds());
}

// whether the sheet of examples/ and that of the gate's program are what the original answers
fn compare_stored(report: &mut Report, seed: u64) {
    let read = |file: &str| std::fs::read(file).unwrap_or_default();
    let example = read("examples/plans.season");
    let (input, sheet) = recorded(seed);
    let stored = [
        ("examples/plans.sheet", !example.is_empty() && read("examples/plans.sheet") == due(&example)),
        ("crates/season/stdin", read("crates/season/stdin") == input),
        ("crates/season/stdout", read("crates/season/stdout") == sheet),
    ];
    for (file, equal) in stored {
        if !equal {
            println!("  DIFFERENT: {file}");
        }
        report.count(1, equal);
    }
}

/// The stored seasons, random ones, each also cut anywhere, through the library.
pub fn compare(report: &mut Report, seed: u64, count: u64) {
    compare_stored(report, seed);
    group(report, "the recorded season", vec![Text(recorded(seed).0)], ours);
    group(report, "random seasons", seasons(seed, count).collect(), ours);
}

/// Every prefix of one season, and real drawings as plans, through the library.
pub fn compare_more(report: &mut Report, seed: u64) {
    let mut paths = Paths(Stream::new(seed ^ 0xC07));
    let whole: Vec<u8> = (0..40)
        .map(|_| plan(&mut paths))
        .filter(|plan| plan.len() < 120)
        .take(12)
        .flat_map(|plan| after_its_count(&plan))
        .collect();
    group(report, "a season cut anywhere", (0..=whole.len()).map(|end| Text(whole[..end].to_vec())).collect(), ours);
    match drawings(2_000, 40) {
        Some(seasons) => group(report, "real drawings as plans", seasons, ours),
        None => println!("  no drawings are there: tools/drawings fetches them"),
    }
}

/// Random seasons through the program, each in pieces of one of four sizes.
pub fn compare_program(report: &mut Report, seed: u64, count: u64) {
    for (k, piece) in [1, 7, 4096, 65_536].into_iter().enumerate() {
        let name = format!("seasons through the program, in pieces of {piece}");
        group(report, &name, seasons(seed + k as u64, count / 4).collect(), |input| printed(input, piece));
    }
}

/// Writes the season that the program of the gate is run on, and its sheet.
pub fn write(report: &mut Report, seed: u64) {
    let (input, sheet) = recorded(seed);
    group(report, "the recorded season", vec![Text(input.clone())], ours);
    std::fs::write("crates/season/stdin", input).expect("the season is written");
    std::fs::write("crates/season/stdout", sheet).expect("its sheet is written");
    println!("crates/season/stdin: seed {seed}");
}
