//! The station tool.

use kihavute::*;

#[test]
fn a_short_output_is_left_as_it_was() {
    let plan = b"3\nM0 0L3 4";
    let due = listing(plan);
    let mut out = vec![7; due.len()];
    let refusal = listing_into(plan, &mut out[1..]).expect_err("it is one byte short");
    assert_eq!(refusal.reason(), Reason::NoRoom { needed: [due.len() as u64, 0, 0, 0, 0] });
    assert!(out.iter().all(|byte| *byte == 7));
    assert_eq!(listing_into(plan, &mut out), Ok(due.len()));
    assert_eq!(out, due);
}

#[test]
fn only_the_listing_is_written() {
    let mut out = vec![7; LISTING + 1];
    assert_eq!(listing_into(b"", &mut out), Ok(13));
    assert_eq!(&out[..13], b"refused 13 0\n");
    assert!(out[13..].iter().all(|byte| *byte == 7));
}

#[test]
fn a_large_listing_fits() {
    // the longest lines: arcs that fall back to lines, with offsets of four digits and numbers of three
    let (out, back) = ("A0 0 0 001 0", "A0 0 0 000 0");
    let text = format!("{}M0 0{}{out}", " ".repeat(1000), [out, back].concat().repeat(127));
    let large = listing(format!("1000\n{text}").as_bytes());
    assert!(large.starts_with(b"commands 256\nM 00000000 00000000 1000\nA 00000000 "));
    assert!(large.windows(22).any(|line| line == b"fallback 437F0000 255\n"));
    assert!(65_536 < large.len() && large.len() <= LISTING, "{} bytes", large.len());
    // a command more is a refusal, with the counts of letters, numbers and offsets
    assert_eq!(listing(format!("1000\n{text}H1").as_bytes()), b"refused 8 257 1789 257\n");
}
