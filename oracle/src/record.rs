//! The lists of recorded answers that the programs replay_NAME run through the proved crates.

mod arc;
mod bezier;
mod decimal;
mod helpers;
mod legs;
mod morph;
mod path;
mod query;
mod spline;
mod stations;
mod strict;
mod svg;
mod table;

use crate::compare::Report;
use crate::{math, trig};
use std::fs;

/// The recorded answers that one program reads: its lists one after another, each block after the letter of its kind.
pub struct Recording {
    pub name: &'static str,
    lists: &'static [(&'static str, List)],
}

// a program prints of a list how many answers differ, or before that all that it answers
enum List {
    Counted(fn(&mut Report, u64) -> (Vec<u8>, u64)),
    Printed(fn(&mut Report, u64) -> (Vec<u8>, Vec<u8>, u64)),
}

use List::{Counted, Printed};

pub const RECORDINGS: &[Recording] = &[
    Recording {
        name: "numbers",
        lists: &[
            ("math", Counted(|report, seed| helpers::list(report, &math::FAMILY, 'm', seed))),
            ("trig", Counted(|report, seed| helpers::list(report, &trig::FAMILY, 't', seed))),
            ("decimal", Counted(decimal::list)),
        ],
    },
    Recording {
        name: "reading",
        lists: &[("svg", Counted(svg::list)), ("strict", Counted(strict::list)), ("stations", Printed(stations::list))],
    },
    Recording {
        name: "curves",
        lists: &[
            ("table", Counted(table::list)),
            ("bezier", Counted(bezier::list)),
            ("arc", Counted(arc::list)),
            ("spline", Counted(spline::list)),
            ("morph", Counted(morph::list)),
        ],
    },
    Recording { name: "paths", lists: &[("path", Counted(path::list)), ("query", Counted(query::list))] },
    Recording { name: "legs", lists: &[("legs", Counted(legs::list))] },
];

impl Recording {
    // what the program reads and what it is to print, and how many answers there are
    fn made(&self, report: &mut Report, seed: u64) -> (Vec<u8>, Vec<u8>, u64) {
        let (mut lists, mut printed, mut counts, mut whole) = (Vec::new(), Vec::new(), String::new(), 0);
        for (name, list) in self.lists {
            let (list, due, count) = match list {
                Counted(list) => {
                    let (list, count) = list(report, seed);
                    (list, Vec::new(), count)
                }
                Printed(list) => list(report, seed),
            };
            lists.extend(list);
            printed.extend(due);
            counts.push_str(&format!("{name}: replayed {count}, different 0\n"));
            whole += count;
        }
        printed.extend(counts.into_bytes());
        (lists, printed, whole)
    }

    /// Writes the lists and what the program is to print.
    pub fn write(&self, report: &mut Report, seed: u64) {
        let (list, due, count) = self.made(report, seed);
        fs::write(self.file("stdin"), list).expect("the list is written");
        fs::write(self.file("stdout"), due).expect("what is due is written");
        println!("{}: {count} answers, seed {seed}", self.file("stdin"));
    }

    /// Sees that the lists in the repository are those that would be written.
    pub fn compare(&self, report: &mut Report, seed: u64) {
        let (list, due, count) = self.made(report, seed);
        let read = |name: &str| fs::read(self.file(name)).unwrap_or_default();
        let equal = read("stdin") == list && read("stdout") == due;
        report.count(0, equal);
        let state = if equal { "as they would be written" } else { "DIFFERENT: oracle/record writes them anew" };
        println!("  replay_{}: {count} recorded answers, {state}", self.name);
    }

    fn file(&self, name: &str) -> String {
        format!("crates/replay_{}/{name}", self.name)
    }
}
