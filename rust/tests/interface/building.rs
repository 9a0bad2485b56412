//! Building.

use kihavute::*;

// what building into buffers of these sizes gives, and the buffers after it: 9 in every place before
type Built = (Result<[usize; 5], Refusal>, Vec<u8>, Vec<f32>, Vec<f32>, Vec<f32>, Vec<u32>);

fn built(
    sizes: [usize; 5],
    build: impl FnOnce(&mut [u8], &mut [f32], &mut [f32], &mut [f32], &mut [u32]) -> Result<[usize; 5], Refusal>,
) -> Built {
    let mut kinds = vec![9; sizes[0]];
    let [mut fields, mut tables, mut lengths] = [sizes[1], sizes[2], sizes[3]].map(|size| vec![9.0; size]);
    let mut commands = vec![9; sizes[4]];
    let given = build(&mut kinds, &mut fields, &mut tables, &mut lengths, &mut commands);
    (given, kinds, fields, tables, lengths, commands)
}

#[test]
fn building() {
    let text = b"M0 0L3 4M1 1L1 2";
    let list = read(text).expect("it reads");
    let by_text = |sizes| built(sizes, |k, f, t, l, c| build_text(text, k, f, t, l, c));
    let by_list = |sizes| built(sizes, |k, f, t, l, c| build(&list.letters, &list.numbers, k, f, t, l, c));
    let stored = (
        Ok([2, 8, 0, 2, 2]),
        vec![0, 0, 9],
        vec![0.0, 0.0, 3.0, 4.0, 1.0, 1.0, 1.0, 2.0, 9.0],
        vec![9.0],
        vec![5.0, 6.0, 9.0],
        vec![1, 3, 9],
    );
    assert_eq!(by_text([3, 9, 1, 3, 3]), stored);
    assert_eq!(by_list([3, 9, 1, 3, 3]), stored);
    // a place too few in one buffer: all five counts, and nothing is written
    for sizes in [[1, 8, 0, 2, 2], [2, 7, 0, 2, 2], [2, 8, 0, 1, 2], [2, 8, 0, 2, 1], [0; 5]] {
        let (given, kinds, fields, _, lengths, commands) = by_text(sizes);
        let refusal = given.expect_err("a place too few");
        assert_eq!(refusal.reason(), Reason::NoRoom { needed: [2, 8, 0, 2, 2] });
        assert!(refusal.to_string().ends_with(": 2, 8, 0, 2, 2"));
        assert!(kinds.iter().all(|kind| *kind == 9) && commands.iter().all(|command| *command == 9));
        assert!(fields.iter().chain(&lengths).all(|number| *number == 9.0));
        assert_eq!(by_list(sizes).0, given);
    }
    assert_eq!(by_text([2, 8, 0, 2, 2]).0, stored.0);
}
