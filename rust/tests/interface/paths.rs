//! Stored paths, and what is flown along them.

use crate::{Told, bits, refused, told};
use kihavute::*;

// position, tangent, segment and the number of the raw parameter, which only a lookup makes
type Known = ([Bits; 2], [Bits; 2], Option<usize>, f32);

fn known(path: &Path, progress: Progress) -> Told<Known> {
    told(path.flight(progress)).map(|flight| (flight.position, flight.tangent, flight.segment, flight.raw.value()))
}

#[test]
fn a_path_of_every_kind() {
    let path = Path::from_text(b"M0 0L3 4Q6 4 6 8C6 12 9 12 9 8A2 2 0 0 1 13 8A0 1 0 0 1 14 8").expect("it builds");
    assert_eq!(path.len(), 5);
    let mut last = (Some(0), 0.0);
    for k in 0..=1000 {
        let flight = path.flight(Progress(k as f32 / 1000.0)).expect("it passes the check");
        let pair = (flight.segment, flight.raw.value());
        assert!(pair.0.is_some() && pair >= last, "it steps back at {k}");
        last = pair;
    }
    assert_eq!(last, (Some(4), 1.0));
    assert_eq!(path.flight(Progress(f32::NAN)), path.flight(Progress(0.0)));
    assert_eq!(known(&path, Progress(0.0)), Ok(([0, 0], bits([0.6, 0.8]), Some(0), 0.0)));
    assert_eq!(path.rotation_deg(Progress(1.0)), Ok(0.0));
    assert!(path.arc_length() > 20.0 && path.lengths().len() == 5);
}

#[test]
fn a_path_of_nothing_and_a_refused_one() {
    let empty = Path::from_text(b"").expect("no commands build");
    assert!(empty.is_empty() && empty.arc_length() == 0.0);
    assert_eq!(known(&empty, Progress(0.5)), Ok(([0, 0], [0, 0], None, 0.0)));
    let refusal = Path::from_commands(b"ML", &[0.0, 0.0, 3e38, 3e38]).expect_err("its length is not finite");
    assert_eq!(refusal.reason(), Reason::NotFinite { place: 0 });
}

#[test]
fn a_segment_knows_its_command() {
    let commands = |path: &Path| (0..path.len()).map(|k| path.command(k)).collect::<Option<Vec<usize>>>();
    let numbers = |text: &[u8]| commands(&Path::from_text(text).expect("it builds")).expect("each has a number");
    assert_eq!(numbers(b"M0 0L3 4M1 1L2 2"), [1, 3]);
    assert_eq!(numbers(b""), []);
    // a pair after an M draws, a group that repeats its letter is a command of its own, and a Z draws the way back
    assert_eq!(numbers(b"M0 0 3 4 6 8Z"), [1, 2, 3]);
    assert_eq!(numbers(b"M0 0M1 1Q3 4 6 8 6 4 9 9M2 2M3 3C1 2 3 4 5 6A2 2 0 0 1 13 8A0 1 0 0 1 14 8"), [2, 3, 6, 7, 8]);
    let path = Path::from_commands(b"MLML", &[0.0, 0.0, 3.0, 4.0, 1.0, 1.0, 2.0, 2.0]).expect("it builds");
    assert_eq!(commands(&path), Some(vec![1, 3]));
    assert_eq!((path.command(2), path.command(usize::MAX), Path::default().command(0)), (None, None, None));
}

#[test]
fn a_query_looks_at_the_numbers_of_the_commands() {
    let path = Path::from_text(b"M0 0L3 4M1 1L2 2").expect("it builds");
    let half = Progress(0.5);
    for numbers in [&[3, 1][..], &[1], &[], &[1, 3, 3]] {
        let bad = Stored { commands: numbers, ..path.stored() };
        let (mut segments, mut raws, mut out) = ([9], [9.0], [9.0; 4]);
        assert_eq!(bad.flight(half).map_err(|refusal| refusal.reason()), Err(Reason::BadPath));
        assert_eq!(bad.rotation_deg(half).map_err(|refusal| refusal.reason()), Err(Reason::BadPath));
        let places = bad.places(&[half], &mut segments, &mut raws);
        assert_eq!(places.map_err(|refusal| refusal.reason()), Err(Reason::BadPath));
        let flights = bad.flights(&[half], &mut segments, &mut raws, &mut out);
        assert_eq!(flights.map_err(|refusal| refusal.reason()), Err(Reason::BadPath));
        assert_eq!((segments, raws, out), ([9], [9.0], [9.0; 4]));
    }
    for numbers in [[1, 1], [0, 0], [7, u32::MAX]] {
        assert_eq!(Stored { commands: &numbers, ..path.stored() }.flight(half), path.flight(half));
    }
}

#[test]
fn a_batch_is_its_single_queries() {
    let path = Path::from_text(b"M0 0L3 4Q6 4 6 8C6 12 9 12 9 8A2 2 0 0 1 13 8A0 1 0 0 1 14 8").expect("it builds");
    let mut progresses: Vec<Progress> = (0..=100).map(|k| Progress(k as f32 / 100.0)).collect();
    progresses.extend([f32::NAN, 0.7, -1.0, 0.3, f32::INFINITY, 0.0, 1.0, 0.5].map(Progress));
    let count = progresses.len();
    let (mut segments, mut raws, mut out) = (vec![9; count + 1], vec![9.0; count + 1], vec![9.0; 4 * count + 1]);
    assert_eq!(path.flights(&progresses, &mut segments, &mut raws, &mut out), Ok(count));
    for (k, progress) in progresses.iter().enumerate() {
        let point = |from: usize| [out[4 * k + from], out[4 * k + from + 1]].map(f32::to_bits);
        let segment = Some(segments[k] as usize);
        assert_eq!(known(&path, *progress), Ok((point(0), point(2), segment, raws[k])));
    }
    assert_eq!((segments[count], raws[count], out[4 * count]), (9, 9.0, 9.0));
    let (mut columns, mut others) = (vec![9; count + 1], vec![9.0; count + 1]);
    assert_eq!(path.places(&progresses, &mut columns, &mut others), Ok(count));
    assert_eq!((columns, others), (segments, raws));
}

#[test]
fn a_batch_without_room_or_without_segments() {
    let path = Path::from_text(b"M0 0L3 4").expect("it builds");
    let (mut segments, mut raws, mut out) = ([9; 2], [9.0; 3], [9.0; 11]);
    let three = [0.0, 0.5, 1.0].map(Progress);
    let refusal = path.places(&three, &mut segments, &mut raws).expect_err("a place too few");
    assert_eq!(refusal.reason(), Reason::NoRoom { needed: [3, 3, 0, 0, 0] });
    let refusal = path.flights(&three, &mut [9; 3], &mut raws, &mut out).expect_err("a place too few");
    assert_eq!(refusal.reason(), Reason::NoRoom { needed: [3, 3, 12, 0, 0] });
    assert_eq!((segments, raws, out), ([9; 2], [9.0; 3], [9.0; 11]));
    let empty = Path::default();
    assert_eq!(empty.flights(&three[1..2], &mut segments, &mut raws, &mut out), Ok(1));
    assert_eq!((segments, raws), ([NO_SEGMENT, 9], [0.0, 9.0, 9.0]));
    assert_eq!(&out[..5], &[0.0, 0.0, 0.0, 0.0, 9.0]);
    assert_eq!(empty.places(&three[..2], &mut segments, &mut raws), Ok(2));
    assert_eq!((segments, raws), ([NO_SEGMENT; 2], [0.0, 0.0, 9.0]));
}

#[test]
fn stored_paths() {
    let refused = refused(12, &[]);
    let check = |kinds: &[u8], fields: &[f32], tables: &[f32], lengths: &[f32], commands: &[u32]| {
        told(check(kinds, fields, tables, lengths, commands))
    };
    assert_eq!(check(&[], &[], &[], &[], &[]), Ok(0));
    assert_eq!(check(&[0], &[0.0, 0.0, 3.0, 4.0], &[], &[5.0], &[1]), Ok(1));
    assert_eq!(check(&[5], &[], &[], &[5.0], &[1]), refused);
    assert_eq!(check(&[0], &[0.0, 0.0, 3.0], &[], &[5.0], &[1]), refused);
    // one number for each segment, none below the one before it, of any size
    let two = |commands: &[u32]| check(&[0, 0], &[0.0, 0.0, 3.0, 4.0, 3.0, 4.0, 6.0, 8.0], &[], &[5.0, 10.0], commands);
    for commands in [[1, 2], [1, 3], [1, 1], [0, 0], [0, u32::MAX], [u32::MAX, u32::MAX]] {
        assert_eq!(two(&commands), Ok(2), "{commands:?}");
    }
    for commands in [&[2, 1][..], &[u32::MAX, 0], &[], &[1], &[1, 2, 3], &[1, 2, 2]] {
        assert_eq!(two(commands), refused, "{commands:?}");
    }
    assert_eq!(check(&[], &[], &[], &[], &[0]), refused);
}
