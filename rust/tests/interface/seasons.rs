//! The season report.

use kihavute::{SHEET, season, season_into};

#[test]
fn a_short_output_is_refused_with_the_sheets_length() {
    let input = b"8\nM1 1L7 9";
    let due = season(input).expect("few plans");
    let mut out = vec![7; due.len()];
    let refusal = season_into(input, &mut out[1..]).expect_err("it is one byte short");
    assert_eq!((refusal.number(), refusal.carried()[0]), (8, due.len() as u64));
    assert!(out.iter().all(|byte| *byte == 7));
    assert_eq!(season_into(input, &mut out), Ok(due.len()));
    assert_eq!(out, due);
}

#[test]
fn only_the_sheet_is_written() {
    let mut out = [7; SHEET];
    let size = season_into(b"", &mut out).expect("no plan");
    assert_eq!(&out[..size], b"readings 0\nrefusals 0\nletters 0\nkinds 0\nlengths 0\n");
    assert!(out[size..].iter().all(|byte| *byte == 7));
}
