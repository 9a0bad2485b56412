//! A listing that another tool wrote.

use crate::{refused, told};
use kihavute::*;

const PLAN: &[u8] = b"3\nM0 0L3 4";

#[test]
fn a_short_output_is_left_as_it_was() {
    let due = listing(PLAN);
    let mut out = vec![7; due.len()];
    let given = check_listing_into(PLAN, &due, &mut out[1..]);
    assert_eq!(told(given), refused(8, &[due.len() as u64]));
    assert!(out.iter().all(|byte| *byte == 7));
    assert_eq!(told(check_listing_into(PLAN, b"", &mut out)), Ok(Err(WrongLine(1))));
    assert_eq!(out, due);
}

#[test]
fn each_line_is_held_to_ours() {
    let due = listing(PLAN);
    let lines: Vec<&[u8]> = due.split_inclusive(|byte| *byte == b'\n').collect();
    assert_eq!(lines.len(), 9);
    for wrong in 0..9 {
        let mut other: Vec<Vec<u8>> = lines.iter().map(|line| line.to_vec()).collect();
        other[wrong][0] ^= 1;
        assert_eq!(check_listing(PLAN, &other.concat()), Err(WrongLine(wrong + 1)));
        let missing = [&lines[..wrong], &lines[wrong + 1..]].concat().concat();
        assert_eq!(check_listing(PLAN, &missing), Err(WrongLine(wrong + 1)));
        assert_eq!(check_listing(PLAN, &lines[..wrong].concat()), Err(WrongLine(wrong + 1)));
    }
    assert_eq!(check_listing(PLAN, &[&due[..], b"\n"].concat()), Err(WrongLine(10)));
    assert_eq!(check_listing(PLAN, &due), Ok(()));
}

#[test]
fn a_refused_plan_has_one_line() {
    assert_eq!(check_listing(b"", b"refused 13 0\n"), Ok(()));
    assert_eq!(check_listing(b"", b"refused 13 0"), Err(WrongLine(1)));
    assert_eq!(check_listing(b"", b"refused 13 0\nrefused 13 0\n"), Err(WrongLine(2)));
    assert_eq!(WrongLine(2).to_string(), "line 2 is wrong, missing or extra; compare it with the listing of the plan");
}
