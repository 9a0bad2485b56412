//! Texts.

use crate::{NAN, refused, told};
use kihavute::*;

#[test]
fn decimals() {
    assert_eq!(number(b"-12.5e1,7"), Ok(((-125.0f32).to_bits(), 7)));
    assert_eq!(told(number(b"-.e1")), refused(3, &[0]));
    assert_eq!(told(number(b"1e 2")), refused(4, &[1]));
    assert_eq!(told(number(&[b'1'; 65_537])), refused(1, &[65_537]));
}

#[test]
fn texts() {
    for edition in [Edition::Svg11, Edition::Svg2] {
        assert_eq!(strict(b"M0 0L1 2", edition), Strict::Yes);
        assert_eq!(strict(b"", edition), Strict::Yes);
        assert_eq!(strict(b"M0 0,", edition), Strict::No);
        assert_eq!(strict(b"M0 0A-5 1 9 0 0 3 4", edition), Strict::No);
        assert_eq!(strict(&[b' '; 65_537], edition), Strict::TooLong(65_537));
    }
    let both = |text: &[u8]| [strict(text, Edition::Svg11), strict(text, Edition::Svg2)];
    for text in [&b"M0 0 L1 2"[..], b"M1e3 0", b"M1. 2", b" M5 5L6 6", b"M0 0A5 1-9 0 0-3-4"] {
        assert_eq!(both(text), [Strict::Yes, Strict::No]);
    }
    assert_eq!(both(b"\x0C"), [Strict::No, Strict::Yes]);
}

#[test]
fn reading() {
    let list = |letters: &[u8], numbers: &[f32], offsets: &[u32]| {
        Ok::<_, ReadError>(Commands { letters: letters.to_vec(), numbers: numbers.to_vec(), offsets: offsets.to_vec() })
    };
    assert_eq!(read(b""), list(b"", &[], &[]));
    assert_eq!(read(b" m1 2 3 4"), list(b"ML", &[1.0, 2.0, 4.0, 6.0], &[1, 1]));
    assert_eq!(read(b"ZL1 2"), list(b"ZL", &[1.0, 2.0], &[0, 1]));
    assert_eq!(read(b"M0 0a1 2 3 01 4 5z"), list(b"MAZ", &[0.0, 0.0, 1.0, 2.0, 3.0, 0.0, 1.0, 4.0, 5.0], &[0, 4, 17]));
    // more letters than bytes are guessed for
    let places: Vec<u32> = (0..100).collect();
    assert_eq!(read(&[b'z'; 100]), list(&[b'Z'; 100], &[], &places));
    let nan = read(b"M1e39 0m-1e39 0").unwrap().numbers[2];
    assert_eq!(nan.to_bits(), NAN);
    assert_eq!(read(&[b' '; 65_537]), Err(ReadError::TooLong(65_537)));
    assert_eq!(read(b"M1"), Err(ReadError::UnexpectedEnd(2)));
    assert_eq!(read(b"M"), Err(ReadError::ExpectedNumber(1)));
    assert_eq!(read(b"M1e 2"), Err(ReadError::InvalidNumber(2)));
    assert_eq!(read(b"M0 0A1 1 0 2 0 3 4"), Err(ReadError::ExpectedFlag(11)));
    assert_eq!(read(b"M0 0S1 2 3 4"), list(b"MC", &[0.0, 0.0, 0.0, 0.0, 1.0, 2.0, 3.0, 4.0], &[0, 4]));
    assert_eq!(read(b"M1 2T4 6 9 9"), list(b"MQQ", &[1.0, 2.0, 1.0, 2.0, 4.0, 6.0, 7.0, 10.0, 9.0, 9.0], &[0, 4, 4]));
    assert_eq!(read(b"S1 2 3 4"), Err(ReadError::MissingMoveTo(1)));
    assert_eq!(read(b"M0 0R1 2 3 4"), Err(ReadError::UnsupportedCommand(b'R', 4)));
    assert_eq!(read(b"M1 2Z3 4"), Err(ReadError::MissingMoveTo(5)));
    // in words as the refusal that read_into gives
    for text in [&b"M1"[..], b"M", b"M1e 2", b"M0 0A1 1 0 2 0 3 4", b"M0 0R1 2 3 4", b"M1 2Z3 4", &[b' '; 65_537]] {
        let error: Box<dyn std::error::Error> = Box::new(read(text).unwrap_err());
        assert_eq!(error.to_string(), read_into(text, &mut [], &mut [], &mut []).unwrap_err().to_string());
        assert_eq!(read_lean_into(text, &mut [], &mut [], &mut []), read_into(text, &mut [], &mut [], &mut []));
    }
    // the lean one stores the same, and writes nothing where it refuses
    let (mut letters, mut numbers, mut offsets) = ([b'-'; 3], [-1.0; 5], [9; 3]);
    assert_eq!(read_lean_into(b"m1 2 3 4x", &mut letters, &mut numbers, &mut offsets).unwrap_err().number(), 6);
    let short = read_lean_into(b"m1 2 3 4", &mut letters[..1], &mut numbers, &mut offsets).unwrap_err();
    assert_eq!(short.carried()[..3], [2, 4, 2]);
    let short = read_lean_into(b"m1 2 3 4", &mut letters, &mut numbers, &mut offsets[..1]).unwrap_err();
    assert_eq!(short.carried()[..3], [2, 4, 2]);
    assert_eq!((letters, numbers, offsets), ([b'-'; 3], [-1.0; 5], [9; 3]));
    assert_eq!(read_lean_into(b"m1 2 3 4", &mut letters, &mut numbers, &mut offsets), Ok((2, 4)));
    assert_eq!((letters, numbers, offsets), (*b"ML-", [1.0, 2.0, 4.0, 6.0, -1.0], [0, 0, 9]));
}

#[test]
fn lists() {
    assert_eq!(check_commands(b"ML", &[1.0, 2.0, 4.0, 6.0]), Ok(()));
    assert_eq!(told(check_commands(b"ML", &[1.0, 2.0, 4.0])), refused(9, &[1]));
    assert_eq!(told(check_commands(b"MZ", &[1.0, 2.0, 4.0])), refused(9, &[2]));
    assert_eq!(told(check_commands(&[b'Z'; 65_537], &[])), refused(13, &[65_537]));
}
