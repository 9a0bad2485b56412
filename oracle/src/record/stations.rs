//! The plans, p, that the program replay_reading runs through the station tool's work, and the listings that it is to print.
//!
//! A plan stands after its count of bytes, four digits, and the listings one after another.

use crate::compare::Report;
use crate::stations::{compare_plans, due, plans};
use crate::strict::Text;

// how many random plans follow the telling ones
const RANDOM: u64 = 60;

// what document 01 decides, and where a mistake would show
const TELLING: [&str; 73] = [
    // document 01's example, and the same with CR LF between its commands and at its end
    "3\nM0 0L3 4",
    "3\nM0 0\r\nL3 4\r\n",
    // a drawing with every letter in both cases, with each kind of segment
    "40\nM0 0L10 0H20V10C20 20 10 20 10 10Q5 5 0 10A5 5 0 0 1-10 10A0 1 0 0 1-9 9Zm1 1l2 2h3v-3c1 1 2-1 3 0q1 1 2 0a2 3 30 1 0 4 4z",
    // smooth curves in both cases, behind each letter, with groups that repeat
    "20\nM0 0C0 5 5 5 5 0S10-5 10 0s5 5 5 0 0-5 5 0",
    "20\nM0 0Q5 5 10 0T20 0t10 0 10 5T60 0",
    "9\nM1 2T4 6T9 9",
    "9\nM0 0S1 2 3 4",
    "9\nZS9 8 7 6Z",
    "9\nM0 0C1 2 3 4 5 6T7 8Q1 2 3 4S5 6 7 8",
    "9\nM0 0A5 5 0 0 1 5 5S1 2 3 4H1T2 3V4s1 2 3 4m1 1t2 2zT3 4",
    "2\nM-0-0T1 2S3 4-0-0T5 6",
    "2\nM.1.3Q.3.1.1.3T1 2",
    "3\nM0 0C1e38 0-3e38 0 3e38 0S1 2 3 4",
    // no text, no command that draws, no LF at the end
    "3\n",
    "3\n \t\n\r,",
    "2\nM1 2",
    "2\nZL1 2",
    "3\nM1 2Z",
    "4\nM1 2ZM3 4ZM5 6Z",
    "5\nM0 0L1 0L1 0L2 0\n",
    // 2 to 7
    "3\nM1",
    "3\nM",
    "3\nM1e 2",
    "3\nM0 0A1 1 0 2 0 3 4",
    "3\nM0 0R1 2 3 4",
    "3\nM0 0z t",
    "3\nS1 2 3 4",
    "3\nM1 2Z3 4",
    "3\n\u{e9}",
    "3\nM0 0L\0",
    // 10 and 11, the first segment before the next and 10 before 11
    "3\nM0 0A1 1 3600 0 0 1 1",
    "3\nM0 0A1 1 3600.0002441406250 0 0 1 1",
    "3\nM0 0L1 1A1 1-4000 0 0 3 4",
    "3\nM0 0A1 1 4000 0 0 1e39 4",
    "3\nM0 0A0 1 4000 0 0 3 4",
    "3\nM0 0L1e19 0",
    "3\nM0 0L2e19 0",
    "3\nM-3e38 0L3e38 0",
    "3\nM0 0L3 4L3e38 3e38",
    "3\nM0 0L3e38 3e38A1 1 4000 0 0 3 4",
    "3\nM0 0L3e38 3e38X",
    "3\nM0 0A5e9 5e9 0 0 1 3 4",
    // infinity, NaN, zeros of both signs, the least number and what is nearest to it
    "2\nM1e39-1e39",
    "2\nM1e39 0m-1e39 1",
    "2\nM1e39 0m-1e39 1L1 1",
    "2\nM1e39 0Z",
    "2\nM3.4028235e38 3.4028236e38",
    "2\nM16777217 16777217.0000001",
    "3\nM-0-0L0 0",
    "3\nM1e-45 7e-46L1e-46-1e-45",
    "2\nM1e999999999 1e-999999999",
    // the count of stations: 2 and 1,000 and beyond, 9 digits and 10, another form
    "2\nM0 0H1",
    "000000002\nM0 0H1",
    "0000000002\nM0 0H1",
    "1\nM0 0H1",
    "0\nM0 0H1",
    "1001\nM0 0H1",
    "999999999\nM0 0H1",
    "1000000000\nM0 0H1",
    "",
    "\n",
    "3",
    "3M0 0H1",
    "3\r\nM0 0H1",
    " 3\nM0 0H1",
    "3 \nM0 0H1",
    "+3\nM0 0H1",
    "-3\nM0 0H1",
    "3.\nM0 0H1",
    "0x3\nM0 0H1",
    "\u{663}\nM0 0H1",
    // the first line is judged first
    "1\nM0 0S",
    "x\nM0 0S",
];

// so many commands, each of one number
fn commands(count: usize) -> String {
    format!("M0 0{}", "h1".repeat(count - 1))
}

// the limits, one beyond each, and the order of the refusals that lie beyond
fn limits() -> Vec<Vec<u8>> {
    let padded = |start: &str, size: usize| format!("{start:size$}");
    let texts = [
        ("1000\n", "M0 0C0 9 9 9 9 0".to_string()),
        ("2\n", padded("M0 0H1", 4096)),
        ("2\n", padded("M0 0H1", 4097)),
        ("2\n", padded("M0 0S", 4097)),
        ("999\r\n", padded("M0 0H1", 4097)),
        ("2\n", commands(256)),
        ("2\n", commands(257)),
        ("2\n", commands(257) + "l3e38 3e38"),
        ("2\n", commands(300) + "S"),
        ("3\n", "Z".repeat(256)),
        ("3\n", "Z".repeat(4096)),
        ("2\n", "M0 0".to_string() + &"a1 1 0 001 1".repeat(255)),
        ("2\n", "M0 0".to_string() + &"a1 1 0 001 1".repeat(256)),
    ];
    texts.iter().map(|(line, text)| [line.as_bytes(), text.as_bytes()].concat()).collect()
}

/// The plans as the program reads them, the listings that it is to print, and how many there are.
pub fn list(report: &mut Report, seed: u64) -> (Vec<u8>, Vec<u8>, u64) {
    let telling = TELLING.iter().map(|plan| plan.as_bytes().to_vec()).chain([b"3\nM0 0\xFFL1 1".to_vec()]);
    let random = plans(seed, 4 * RANDOM).map(|plan| plan.0).filter(|plan| plan.len() < 200 && due(plan).len() < 2000);
    let all: Vec<Vec<u8>> = telling.chain(limits()).chain(random.take(RANDOM as usize)).collect();
    let stdin: Vec<u8> =
        all.iter().flat_map(|plan| [format!("p{:04}", plan.len()).as_bytes(), plan].concat()).collect();
    assert!(all.iter().all(|plan| plan.len() <= 9999), "a plan's count of bytes has four digits");
    let listings = all.iter().flat_map(|plan| due(plan)).collect();
    let count = all.len() as u64;
    compare_plans(report, "plans, recorded", all.into_iter().map(Text).collect());
    (stdin, listings, count)
}
