//! Which command made each segment. The Rust does not say: command k has a segment where `from_commands` makes one more of the
//! first k + 1 commands than of the first k. A command without one is counted too.

use crate::build;
use crate::compare::Report;
use crate::samples::Stream;
use animato_path::poly::{CompoundPath, PathCommand};

// up to so many commands a list is taken to the letter of that rule, whose time grows with the square of their number
const SHORT: usize = 64;

/// For each segment the number of its command, counted from 0.
pub fn numbers(commands: &[PathCommand]) -> Vec<u32> {
    if commands.len() <= SHORT { by_the_letter(commands) } else { by_runs(commands) }
}

// how many segments the Rust makes
fn made(commands: &[PathCommand]) -> usize {
    CompoundPath::from_commands(commands).len()
}

fn by_the_letter(commands: &[PathCommand]) -> Vec<u32> {
    let counts: Vec<usize> = (0..=commands.len()).map(|first| made(&commands[..first])).collect();
    let of_each = counts.windows(2).zip(0..);
    of_each.flat_map(|(two, number)| std::iter::repeat_n(number, two[1] - two[0])).collect()
}

// The same in less time, by two things that are seen in `from_commands`: a MoveTo sets all that it keeps beside the path, and no
// command makes two segments. So the segments of a list are those of its runs, cut before each MoveTo; and where a run's first
// command makes none, and the run has one segment less than commands, each other command makes one. Any other run is taken to
// the letter.
fn by_runs(commands: &[PathCommand]) -> Vec<u32> {
    let (mut numbers, mut from) = (Vec::new(), 0);
    for run in commands.chunk_by(|_, next| !matches!(next, PathCommand::MoveTo(_))) {
        let count = run.len() as u32;
        if made(run) + 1 == run.len() && made(&run[..1]) == 0 {
            numbers.extend(from + 1..from + count);
        } else {
            numbers.extend(by_the_letter(run).iter().map(|number| from + number));
        }
        from += count;
    }
    assert_eq!(numbers.len(), made(commands), "the runs have the list's segments");
    numbers
}

/// Holds the second way to the first, on so many lists of up to some 60 commands.
pub fn compare(report: &mut Report, seed: u64, count: u64) {
    let mut stream = Stream::new(seed ^ 0x4A_0000);
    let mut equal = true;
    for _ in 0..count {
        let lists = 1 + stream.below(6);
        let commands: Vec<PathCommand> = (0..lists).flat_map(|_| build::list(&mut stream, 6)).collect();
        let (letter, runs) = (by_the_letter(&commands), by_runs(&commands));
        if letter != runs {
            println!("  DIFFERENT command numbers: {letter:?} to the letter, {runs:?} by runs: {commands:?}");
            equal = false;
            break;
        }
    }
    report.count(count, equal);
}
