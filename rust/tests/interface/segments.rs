//! Segments, one by one.

use kihavute::*;

const ALL: &[u8] = b"M0 0L3 4Q6 4 6 8C6 12 9 12 9 8A2 2 0 0 1 13 8A0 1 0 0 1 14 8";

fn arc(radius: f32, start: [f32; 2], end: [f32; 2]) -> Chord {
    Chord { start, radii: [radius, 2.0], x_axis_rotation: 0.0, large_arc: false, sweep: true, end }
}

#[test]
fn a_path_is_the_path_of_its_segments() {
    let whole = Path::from_text(ALL).expect("it builds");
    let mut path = Path::default();
    path.append(|room| room.line_to(1, [[0.0, 0.0], [3.0, 4.0]])).expect("a line");
    path.append(|room| room.quad_to(2, [[3.0, 4.0], [6.0, 4.0], [6.0, 8.0]])).expect("a quad");
    path.append(|room| room.cubic_to(3, [[6.0, 8.0], [6.0, 12.0], [9.0, 12.0], [9.0, 8.0]])).expect("a cubic");
    path.append(|room| room.arc_to(4, &arc(2.0, [9.0, 8.0], [13.0, 8.0]))).expect("an arc");
    path.append(|room| room.arc_to(5, &arc(0.0, [13.0, 8.0], [14.0, 8.0]))).expect("a fallback");
    assert_eq!(path, whole);

    let mut again = Path::default();
    for i in 0..whole.len() {
        let mut numbers = [9.0; 45];
        let (kind, count) = whole.stored().segment(i, &mut numbers).expect("it is stored").expect("there is one");
        let own = [4, 6, 8, 11, 11][usize::from(kind)];
        assert_eq!(count, own + if (1..4).contains(&kind) { 33 } else { 0 });
        assert_eq!(numbers[count], 9.0);
        again.append(|room| room.push_segment(i as u32 + 1, kind, &numbers[..own])).expect("it was one");
    }
    assert_eq!(again, whole);
    let stored = whole.stored();
    assert_eq!((stored.len(), stored.is_empty()), (Ok(5), Ok(false)));
    assert_eq!(stored.arc_length(), Ok(whole.arc_length().to_bits()));
}

#[test]
fn a_segment_is_asked_by_itself() {
    let path = Path::from_text(ALL).expect("it builds");
    let stored = path.stored();
    let half = Progress(0.5);
    assert_eq!(stored.segment_position(0, half), Ok(Some([1.5f32.to_bits(), 2.0f32.to_bits()])));
    assert_eq!(stored.segment_tangent(0, half), Ok(Some([0.6f32.to_bits(), 0.8f32.to_bits()])));
    assert_eq!(stored.segment_rotation_deg(4, half), Ok(Some(0)));
    assert_eq!(stored.segment_position(4, Progress(2.0)), Ok(Some([14.0f32.to_bits(), 8.0f32.to_bits()])));
    assert_eq!(stored.segment_position(5, half), Ok(None));
    assert_eq!(stored.segment_tangent(usize::MAX, half), Ok(None));
    assert_eq!(stored.segment_rotation_deg(5, half), Ok(None));
    assert_eq!(stored.segment(5, &mut []), Ok(None));
    assert_eq!(
        stored.segment(1, &mut [0.0; 38]).expect_err("a place too few").reason(),
        Reason::NoRoom { needed: [39, 0, 0, 0, 0] }
    );
    let bad = Stored { lengths: &[], ..stored };
    assert_eq!(bad.len().expect_err("no lengths").reason(), Reason::BadPath);
    assert_eq!(bad.segment_position(0, half).expect_err("no lengths").reason(), Reason::BadPath);
    for commands in [&[1, 2, 3, 5, 4][..], &[1, 2, 3, 4], &[1, 2, 3, 4, 5, 6]] {
        let bad = Stored { commands, ..stored };
        let mut out = [9.0; 44];
        let refusals = [
            bad.len().map(|_| ()),
            bad.is_empty().map(|_| ()),
            bad.arc_length().map(|_| ()),
            bad.segment(0, &mut out).map(|_| ()),
            bad.segment_position(0, half).map(|_| ()),
            bad.segment_tangent(0, half).map(|_| ()),
            bad.segment_rotation_deg(0, half).map(|_| ()),
        ];
        assert!(refusals.iter().all(|given| given.is_err_and(|refusal| refusal.reason() == Reason::BadPath)));
        assert_eq!(out, [9.0; 44]);
    }
    assert_eq!(Stored { commands: &[7; 5], ..stored }.len(), Ok(5));
}

#[test]
fn what_is_refused_leaves_the_path() {
    let whole = Path::from_text(ALL).expect("it builds");
    let mut path = whole.clone();
    let mut refused =
        |one: fn(&mut Growing) -> Result<[usize; 5], Refusal>| path.append(one).expect_err("refused").reason();
    assert_eq!(refused(|room| room.line_to(5, [[0.0, 0.0], [3e38, 3e38]])), Reason::NotFinite { place: 5 });
    assert_eq!(refused(|room| room.push_segment(5, 5, &[])), Reason::BadPath);
    assert_eq!(refused(|room| room.push_segment(5, 0, &[0.0; 5])), Reason::BadPath);
    assert_eq!(
        refused(|room| room.arc_to(5, &Chord { x_axis_rotation: f32::NAN, ..arc(2.0, [0.0, 0.0], [1.0, 0.0]) })),
        Reason::RotationRange { segment: 5 }
    );
    assert_eq!(
        refused(|room| {
            room.fields = &mut [];
            room.line_to(5, [[0.0, 0.0], [3.0, 4.0]])
        }),
        Reason::BadPath
    );
    // its last segment is of command 5
    assert_eq!(refused(|room| room.line_to(4, [[0.0, 0.0], [3.0, 4.0]])), Reason::BadPath);
    assert_eq!(refused(|room| room.push_segment(0, 0, &[0.0; 4])), Reason::BadPath);
    assert_eq!(
        refused(|room| {
            room.commands = &mut [];
            room.line_to(5, [[0.0, 0.0], [3.0, 4.0]])
        }),
        Reason::BadPath
    );
    assert_eq!(path, whole);
}

#[test]
fn a_segment_keeps_the_number_that_it_is_given() {
    let mut path = Path::default();
    for command in [3, 3, 7, u32::MAX, u32::MAX] {
        path.append(|room| room.line_to(command, [[0.0, 0.0], [3.0, 4.0]])).expect("no number falls");
    }
    assert_eq!(path.stored().commands, [3, 3, 7, u32::MAX, u32::MAX]);
    assert_eq!((path.command(2), path.command(5)), (Some(7), None));
    let refusal = path.append(|room| room.line_to(u32::MAX - 1, [[0.0, 0.0], [3.0, 4.0]]));
    assert_eq!(refusal.expect_err("a number falls").reason(), Reason::BadPath);
    assert_eq!(path.len(), 5);
}

#[test]
fn appending_needs_five_counts() {
    let (mut kinds, mut fields, mut tables, mut lengths) = ([9; 2], [9.0; 10], [9.0; 33], [9.0; 2]);
    let (mut one, mut commands) = ([9], [1, 9]);
    let mut room = Growing {
        kinds: &mut kinds,
        fields: &mut fields,
        tables: &mut tables,
        lengths: &mut lengths,
        commands: &mut one,
        count: 0,
    };
    assert_eq!(room.line_to(1, [[0.0, 0.0], [3.0, 4.0]]), Ok([1, 4, 0, 1, 1]));
    let quad = [[3.0, 4.0], [6.0, 4.0], [6.0, 8.0]];
    let refusal = room.quad_to(4, quad).expect_err("a place too few");
    assert_eq!(refusal.reason(), Reason::NoRoom { needed: [2, 10, 33, 2, 2] });
    assert_eq!((room.count, &room.kinds[1..], &room.fields[4..]), (1, &[9][..], &[9.0; 6][..]));
    room.commands = &mut commands;
    assert_eq!(room.quad_to(4, quad), Ok([2, 10, 33, 2, 2]));
    assert_eq!((room.count, one, commands), (2, [1], [1, 4]));
}

#[test]
fn a_number_that_falls_is_refused_before_a_path_that_is_full() {
    // a move and 65,535 lines are all that a list may have
    let letters: Vec<u8> = std::iter::once(b'M').chain(std::iter::repeat_n(b'L', 65_535)).collect();
    let numbers: Vec<f32> = (0..65_536u32).flat_map(|k| [(k % 2) as f32, 0.0]).collect();
    let mut path = Path::from_commands(&letters, &numbers).expect("it builds");
    assert_eq!((path.command(0), path.command(65_534)), (Some(1), Some(65_535)));
    path.append(|room| room.line_to(65_535, [[1.0, 0.0], [0.0, 0.0]])).expect("the last one that there is room for");
    let mut refused = |command| {
        let given = path.append(|room| room.line_to(command, [[0.0, 0.0], [1.0, 0.0]]));
        given.expect_err("it is full").reason()
    };
    assert_eq!(refused(65_534), Reason::BadPath);
    assert_eq!(refused(65_535), Reason::Range { found: 65_537 });
    assert_eq!(path.len(), 65_536);
}
