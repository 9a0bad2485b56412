//! Which place of a plan each second of a recorded flight falls on. Arguments: a plan, and a file of ground speeds, one a line, in
//! whole millimetres per second; the plan's unit is the metre. Prints `seconds` and their count, then for each second, from 0, its
//! number, its segment, or - where the plan has none, and the raw parameter's bits in eight hexadecimal digits. The status is 1 where
//! the plan or the speeds are refused or cannot be read.

use std::error::Error;
use std::fmt::Write;
use std::process::ExitCode;

use kihavute::{NO_SEGMENT, Path};

fn flown(plan: &str, speeds: &str) -> Result<String, Box<dyn Error>> {
    let bytes = std::fs::read(plan).map_err(|error| format!("{plan}: {error}"))?;
    // the first line of a plan is the number of its stations
    let line = bytes.iter().position(|byte| *byte == b'\n').ok_or_else(|| format!("{plan}: its first line has no LF"))?;
    let path = Path::from_text(&bytes[line + 1..]).map_err(|refusal| format!("{plan}: {refusal}"))?;

    let text = std::fs::read_to_string(speeds).map_err(|error| format!("{speeds}: {error}"))?;
    let read = |(k, line): (usize, &str)| {
        line.parse::<u32>().map_err(|_| format!("{speeds}:{}: {line:?} is no whole number of millimetres per second", k + 1))
    };
    let recorded: Vec<u32> = text.lines().enumerate().map(read).collect::<Result<_, _>>()?;
    let (mut segments, mut raws) = (vec![0; recorded.len()], vec![0.0; recorded.len()]);
    let count = path.dry_run(&recorded, &mut segments, &mut raws).map_err(|refusal| format!("{speeds}: {refusal}"))?;

    let mut out = format!("seconds {count}\n");
    for (k, (segment, raw)) in segments.iter().zip(&raws).enumerate() {
        let name = if *segment == NO_SEGMENT { "-".into() } else { segment.to_string() };
        writeln!(out, "{k} {name} {:08X}", raw.to_bits())?;
    }
    Ok(out)
}

fn main() -> ExitCode {
    let words: Vec<String> = std::env::args().skip(1).collect();
    let [plan, speeds] = &words[..] else {
        eprintln!("usage: dry_run PLAN SPEEDS");
        return ExitCode::from(2);
    };
    match flown(plan, speeds) {
        Ok(out) => {
            print!("{out}");
            ExitCode::SUCCESS
        }
        Err(error) => {
            eprintln!("dry_run: {error}");
            ExitCode::FAILURE
        }
    }
}
