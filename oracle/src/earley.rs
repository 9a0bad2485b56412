//! Earley's recogniser over any grammar. It knows nothing of paths; a name that takes the longest text is recognised by
//! itself, from where it is due, and passed as a whole.

use crate::bnf::{Grammar, Symbol};

// a rule, how many of its symbols are passed, and where it started
#[derive(Clone, Copy, PartialEq)]
struct Item {
    rule: usize,
    passed: usize,
    start: usize,
}

/// What is known of a text from a place on.
#[derive(Clone, Copy)]
pub struct Found {
    /// Where the longest word ends.
    pub longest: Option<usize>,
    /// Whether the rest of the text can be the beginning of a longer word.
    pub open: bool,
}

pub struct Recogniser<'a> {
    grammar: &'a Grammar,
    nullable: Vec<bool>,
    // the bytes of a name that stands for single bytes
    bytes: Vec<Option<[bool; 256]>>,
}

impl<'a> Recogniser<'a> {
    pub fn new(grammar: &'a Grammar) -> Recogniser<'a> {
        let mut nullable = vec![false; grammar.rules_of.len()];
        loop {
            let before = nullable.clone();
            for rule in &grammar.rules {
                let empty = |symbol: &Symbol| matches!(symbol, Symbol::Name(name) if before[*name]);
                nullable[rule.name] |= rule.symbols.iter().all(empty);
            }
            if nullable == before {
                let bytes = (0..grammar.rules_of.len()).map(|name| bytes_of(grammar, name)).collect();
                return Recogniser { grammar, nullable, bytes };
            }
        }
    }

    /// Recognises a name from a place of a text on.
    pub fn run(&self, name: usize, text: &[u8], from: usize) -> Found {
        let mut work = Work {
            recogniser: self,
            text,
            from,
            sets: vec![Vec::new()],
            predicted: vec![usize::MAX; self.grammar.rules_of.len()],
            open: false,
        };
        work.predict(from, name);
        let mut longest = None;
        let mut place = from;
        while place - from < work.sets.len() {
            if work.fill(place, name) {
                longest = Some(place);
            }
            place += 1;
        }
        let last = work.sets.iter().rposition(|set| !set.is_empty()).map(|index| index + from);
        Found { longest, open: work.open || last == Some(text.len()) }
    }
}

fn bytes_of(grammar: &Grammar, name: usize) -> Option<[bool; 256]> {
    let mut bytes = [false; 256];
    for rule in &grammar.rules_of[name] {
        let [Symbol::Byte(byte)] = grammar.rules[*rule].symbols[..] else { return None };
        bytes[usize::from(byte)] = true;
    }
    Some(bytes)
}

struct Work<'a> {
    recogniser: &'a Recogniser<'a>,
    text: &'a [u8],
    from: usize,
    // the items at each place from `from` on, as far as there are any
    sets: Vec<Vec<Item>>,
    // the last place at which each name was predicted
    predicted: Vec<usize>,
    // a name that takes the longest text could go on past the end
    open: bool,
}

impl Work<'_> {
    fn next(&self, item: Item) -> Option<Symbol> {
        self.recogniser.grammar.rules[item.rule].symbols.get(item.passed).copied()
    }

    fn add(&mut self, place: usize, item: Item) {
        let index = place - self.from;
        if index >= self.sets.len() {
            self.sets.resize_with(index + 1, Vec::new);
        }
        if !self.sets[index].contains(&item) {
            self.sets[index].push(item);
        }
    }

    fn predict(&mut self, place: usize, name: usize) {
        if self.predicted[name] == place {
            return;
        }
        self.predicted[name] = place;
        for rule in &self.recogniser.grammar.rules_of[name] {
            self.sets[place - self.from].push(Item { rule: *rule, passed: 0, start: place });
        }
    }

    // all items at a place; whether the name is complete there, from the start
    fn fill(&mut self, place: usize, name: usize) -> bool {
        let mut complete = false;
        let mut index = 0;
        // what was found of each name that takes the longest text
        let mut longest: Vec<(usize, Found)> = Vec::new();
        while let Some(item) = self.sets[place - self.from].get(index).copied() {
            index += 1;
            let passed = Item { passed: item.passed + 1, ..item };
            match self.next(item) {
                Some(Symbol::Byte(byte)) => {
                    if self.text.get(place) == Some(&byte) {
                        self.add(place + 1, passed);
                    }
                }
                Some(Symbol::Name(due)) if self.recogniser.bytes[due].is_some() => {
                    let stands =
                        |bytes: &[bool; 256]| self.text.get(place).is_some_and(|byte| bytes[usize::from(*byte)]);
                    if self.recogniser.bytes[due].as_ref().is_some_and(stands) {
                        self.add(place + 1, passed);
                    }
                }
                Some(Symbol::Name(due)) if self.recogniser.grammar.longest[due] => {
                    let known = longest.iter().find(|(name, _)| *name == due).map(|(_, found)| *found);
                    let found = known.unwrap_or_else(|| self.recogniser.run(due, self.text, place));
                    if known.is_none() {
                        longest.push((due, found));
                    }
                    self.open |= found.open;
                    if let Some(end) = found.longest {
                        self.add(end, passed);
                    }
                }
                Some(Symbol::Name(due)) => {
                    self.predict(place, due);
                    if self.recogniser.nullable[due] {
                        self.add(place, passed);
                    }
                }
                None => {
                    let done = self.recogniser.grammar.rules[item.rule].name;
                    complete |= done == name && item.start == self.from;
                    for waiting in 0..self.sets[item.start - self.from].len() {
                        let other = self.sets[item.start - self.from][waiting];
                        if self.next(other) == Some(Symbol::Name(done)) {
                            self.add(place, Item { passed: other.passed + 1, ..other });
                        }
                    }
                }
            }
        }
        complete
    }
}
