//! Refusals by their names and in words.

use kihavute::Reason;

fn reason(number: u32, carried: &[u64]) -> Reason {
    let mut all = [0; 8];
    all[..carried.len()].copy_from_slice(carried);
    Reason::of(number, all)
}

#[test]
fn every_refusal_says_what_to_do() {
    for number in (1..=13).chain([255, 77]) {
        assert!(reason(number, &[7, 9]).to_string().contains(';'), "refusal {number}");
    }
    assert!(reason(6, &[82, 4]).to_string().contains("command R at byte 4"));
    assert!(reason(8, &[2, 4]).to_string().ends_with("2, 4"));
    assert!(reason(8, &[0]).to_string().ends_with(": 0"));
    assert!(reason(8, &[2, 8, 0, 2, 2]).to_string().ends_with(": 2, 8, 0, 2, 2"));
    assert_eq!(reason(8, &[2, 8, 0, 2, 2]), Reason::NoRoom { needed: [2, 8, 0, 2, 2] });
}

#[test]
fn a_number_that_is_not_known_is_not_another_one() {
    for number in [14, 77, 254, 256, u32::MAX] {
        assert_eq!(reason(number, &[]), Reason::Unknown { number });
    }
    assert_eq!(reason(255, &[]), Reason::ShortAnswer);
    assert!(reason(77, &[]).to_string().contains("refuses with 77, which is not known"));
    // what a call refuses has the name of its number and its values
    let refusal = kihavute::number(b"1e").unwrap_err();
    assert_eq!(refusal.reason(), Reason::of(refusal.number(), refusal.carried()));
}
