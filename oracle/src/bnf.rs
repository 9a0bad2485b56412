//! A grammar written as text, read into rules. The path grammars of SVG 1.1 Second Edition, 8.3.9, and of SVG 2, 9.3.9, are data here.
//!
//! A line is `name = alternatives`; an alternative is a row of items; an item is a name, a quoted byte, a byte as `#x20`
//! or a group in parentheses, and `?`, `*` or `+` may follow it. A name with a `!` before its `=` takes the longest text.
//! The first name is the whole path.

use kihavute::Edition;
use std::collections::HashMap;

/// The productions of SVG 1.1. A number takes the longest text, with a sign or without.
const SVG_1_1: &str = r#"
svg-path = wsp* moveto-drawto-command-groups? wsp*
moveto-drawto-command-groups = moveto-drawto-command-group | moveto-drawto-command-group wsp* moveto-drawto-command-groups
moveto-drawto-command-group = moveto wsp* drawto-commands?
drawto-commands = drawto-command | drawto-command wsp* drawto-commands
drawto-command = closepath | lineto | horizontal-lineto | vertical-lineto | curveto | smooth-curveto | quadratic-bezier-curveto | smooth-quadratic-bezier-curveto | elliptical-arc
moveto = ( "M" | "m" ) wsp* moveto-argument-sequence
moveto-argument-sequence = coordinate-pair | coordinate-pair comma-wsp? lineto-argument-sequence
closepath = ( "Z" | "z" )
lineto = ( "L" | "l" ) wsp* lineto-argument-sequence
lineto-argument-sequence = coordinate-pair | coordinate-pair comma-wsp? lineto-argument-sequence
horizontal-lineto = ( "H" | "h" ) wsp* horizontal-lineto-argument-sequence
horizontal-lineto-argument-sequence = coordinate | coordinate comma-wsp? horizontal-lineto-argument-sequence
vertical-lineto = ( "V" | "v" ) wsp* vertical-lineto-argument-sequence
vertical-lineto-argument-sequence = coordinate | coordinate comma-wsp? vertical-lineto-argument-sequence
curveto = ( "C" | "c" ) wsp* curveto-argument-sequence
curveto-argument-sequence = curveto-argument | curveto-argument comma-wsp? curveto-argument-sequence
curveto-argument = coordinate-pair comma-wsp? coordinate-pair comma-wsp? coordinate-pair
smooth-curveto = ( "S" | "s" ) wsp* smooth-curveto-argument-sequence
smooth-curveto-argument-sequence = smooth-curveto-argument | smooth-curveto-argument comma-wsp? smooth-curveto-argument-sequence
smooth-curveto-argument = coordinate-pair comma-wsp? coordinate-pair
quadratic-bezier-curveto = ( "Q" | "q" ) wsp* quadratic-bezier-curveto-argument-sequence
quadratic-bezier-curveto-argument-sequence = quadratic-bezier-curveto-argument | quadratic-bezier-curveto-argument comma-wsp? quadratic-bezier-curveto-argument-sequence
quadratic-bezier-curveto-argument = coordinate-pair comma-wsp? coordinate-pair
smooth-quadratic-bezier-curveto = ( "T" | "t" ) wsp* smooth-quadratic-bezier-curveto-argument-sequence
smooth-quadratic-bezier-curveto-argument-sequence = coordinate-pair | coordinate-pair comma-wsp? smooth-quadratic-bezier-curveto-argument-sequence
elliptical-arc = ( "A" | "a" ) wsp* elliptical-arc-argument-sequence
elliptical-arc-argument-sequence = elliptical-arc-argument | elliptical-arc-argument comma-wsp? elliptical-arc-argument-sequence
elliptical-arc-argument = nonnegative-number comma-wsp? nonnegative-number comma-wsp? number comma-wsp flag comma-wsp? flag comma-wsp? coordinate-pair
coordinate-pair = coordinate comma-wsp? coordinate
coordinate = number
nonnegative-number ! = integer-constant | floating-point-constant
number ! = sign? integer-constant | sign? floating-point-constant
flag = "0" | "1"
comma-wsp = ( wsp+ comma? wsp* ) | ( comma wsp* )
comma = ","
integer-constant = digit-sequence
floating-point-constant = fractional-constant exponent? | digit-sequence exponent
fractional-constant = digit-sequence? "." digit-sequence | digit-sequence "."
exponent = ( "e" | "E" ) sign? digit-sequence
sign = "+" | "-"
digit-sequence = digit | digit digit-sequence
digit = "0" | "1" | "2" | "3" | "4" | "5" | "6" | "7" | "8" | "9"
wsp = #x20 | #x9 | #xD | #xA
"#;

/// Those of SVG 2, Candidate Recommendation of 4 October 2018, from memory, with `digit` for `[0-9]`.
const SVG_2: &str = r#"
svg_path = wsp* moveto? | ( moveto drawto_command* )?
drawto_command = moveto | closepath | lineto | horizontal_lineto | vertical_lineto | curveto | smooth_curveto | quadratic_bezier_curveto | smooth_quadratic_bezier_curveto | elliptical_arc
moveto = ( "M" | "m" ) wsp* coordinate_pair_sequence
closepath = ( "Z" | "z" )
lineto = ( "L" | "l" ) wsp* coordinate_pair_sequence
horizontal_lineto = ( "H" | "h" ) wsp* coordinate_sequence
vertical_lineto = ( "V" | "v" ) wsp* coordinate_sequence
curveto = ( "C" | "c" ) wsp* curveto_coordinate_sequence
curveto_coordinate_sequence = coordinate_pair_triplet | ( coordinate_pair_triplet comma_wsp? curveto_coordinate_sequence )
smooth_curveto = ( "S" | "s" ) wsp* smooth_curveto_coordinate_sequence
smooth_curveto_coordinate_sequence = coordinate_pair_double | ( coordinate_pair_double comma_wsp? smooth_curveto_coordinate_sequence )
quadratic_bezier_curveto = ( "Q" | "q" ) wsp* quadratic_bezier_curveto_coordinate_sequence
quadratic_bezier_curveto_coordinate_sequence = coordinate_pair_double | ( coordinate_pair_double comma_wsp? quadratic_bezier_curveto_coordinate_sequence )
smooth_quadratic_bezier_curveto = ( "T" | "t" ) wsp* coordinate_pair_sequence
elliptical_arc = ( "A" | "a" ) wsp* elliptical_arc_argument_sequence
elliptical_arc_argument_sequence = elliptical_arc_argument | ( elliptical_arc_argument comma_wsp? elliptical_arc_argument_sequence )
elliptical_arc_argument = number comma_wsp? number comma_wsp? number comma_wsp flag comma_wsp? flag comma_wsp? coordinate_pair
coordinate_pair_double = coordinate_pair comma_wsp? coordinate_pair
coordinate_pair_triplet = coordinate_pair comma_wsp? coordinate_pair comma_wsp? coordinate_pair
coordinate_pair_sequence = coordinate_pair | ( coordinate_pair comma_wsp? coordinate_pair_sequence )
coordinate_sequence = coordinate | ( coordinate comma_wsp? coordinate_sequence )
coordinate_pair = coordinate comma_wsp? coordinate
coordinate = sign? number
sign = "+" | "-"
exponent = ( "e" | "E" ) sign? digit+
number ! = digit+ | digit* "." digit+
flag = "0" | "1"
comma_wsp = ( wsp+ comma? wsp* ) | ( comma wsp* )
comma = ","
digit = "0" | "1" | "2" | "3" | "4" | "5" | "6" | "7" | "8" | "9"
wsp = #x9 | #x20 | #xA | #xC | #xD
"#;

#[derive(Clone, Copy, Debug, PartialEq, Eq)]
pub enum Symbol {
    Byte(u8),
    /// A name by its number.
    Name(usize),
}

/// One alternative of a name.
#[derive(Debug)]
pub struct Rule {
    pub name: usize,
    pub symbols: Vec<Symbol>,
}

#[derive(Debug)]
pub struct Grammar {
    pub rules: Vec<Rule>,
    /// The rules of each name.
    pub rules_of: Vec<Vec<usize>>,
    /// Whether a name takes the longest text.
    pub longest: Vec<bool>,
    numbers: HashMap<String, usize>,
}

impl Grammar {
    /// The path grammar of an edition.
    pub fn of(edition: Edition) -> Grammar {
        Grammar::read(match edition {
            Edition::Svg11 => SVG_1_1,
            Edition::Svg2 => SVG_2,
        })
    }

    fn read(text: &str) -> Grammar {
        let mut grammar =
            Grammar { rules: Vec::new(), rules_of: Vec::new(), longest: Vec::new(), numbers: HashMap::new() };
        for line in text.lines().filter(|line| !line.trim().is_empty()) {
            let (head, body) = line.split_once('=').expect("a line has a =");
            let name = grammar.named(head.trim_end_matches(['!', ' ']));
            grammar.longest[name] = head.contains('!');
            let words: Vec<&str> = body.split_whitespace().collect();
            let rest = grammar.alternatives(name, &words);
            assert!(rest.is_empty(), "left over: {rest:?}");
        }
        let undefined = grammar.numbers.iter().find(|(_, number)| grammar.rules_of[**number].is_empty());
        assert!(undefined.is_none(), "no production for {undefined:?}");
        grammar
    }

    /// The number of the whole path, the first name.
    pub fn path(&self) -> usize {
        0
    }

    fn named(&mut self, name: &str) -> usize {
        if let Some(number) = self.numbers.get(name) {
            return *number;
        }
        let number = self.unnamed();
        self.numbers.insert(name.to_owned(), number);
        number
    }

    // a name for a group, or for what ?, * or + follows
    fn unnamed(&mut self) -> usize {
        self.rules_of.push(Vec::new());
        self.longest.push(false);
        self.rules_of.len() - 1
    }

    fn add(&mut self, name: usize, symbols: Vec<Symbol>) {
        self.rules_of[name].push(self.rules.len());
        self.rules.push(Rule { name, symbols });
    }

    // the alternatives of a name up to a closing parenthesis or the end; what follows it
    fn alternatives<'a, 'b>(&mut self, name: usize, words: &'b [&'a str]) -> &'b [&'a str] {
        let mut rest = words;
        let mut symbols = Vec::new();
        loop {
            match rest.first() {
                None => {
                    self.add(name, symbols);
                    return rest;
                }
                Some(word) if word.starts_with(')') => {
                    self.add(name, symbols);
                    return rest;
                }
                Some(&"|") => {
                    self.add(name, std::mem::take(&mut symbols));
                    rest = &rest[1..];
                }
                Some(_) => {
                    let (symbol, after) = self.item(rest);
                    symbols.push(symbol);
                    rest = after;
                }
            }
        }
    }

    fn item<'a, 'b>(&mut self, words: &'b [&'a str]) -> (Symbol, &'b [&'a str]) {
        let word = words[0];
        if word == "(" {
            let group = self.unnamed();
            let rest = self.alternatives(group, &words[1..]);
            let times = rest[0].strip_prefix(')').expect("a group is closed");
            return (self.repeated(Symbol::Name(group), times), &rest[1..]);
        }
        if let Some(hex) = word.strip_prefix("#x") {
            return (Symbol::Byte(u8::from_str_radix(hex, 16).expect("a byte")), &words[1..]);
        }
        if let [b'"', byte, b'"'] = word.as_bytes() {
            return (Symbol::Byte(*byte), &words[1..]);
        }
        let (name, times) = word.split_at(word.trim_end_matches(['?', '*', '+']).len());
        let once = Symbol::Name(self.named(name));
        (self.repeated(once, times), &words[1..])
    }

    fn repeated(&mut self, once: Symbol, times: &str) -> Symbol {
        if times.is_empty() {
            return once;
        }
        let name = self.unnamed();
        let whole = Symbol::Name(name);
        match times {
            "?" => {
                self.add(name, vec![]);
                self.add(name, vec![once]);
            }
            "*" => {
                self.add(name, vec![]);
                self.add(name, vec![whole, once]);
            }
            "+" => {
                self.add(name, vec![once]);
                self.add(name, vec![whole, once]);
            }
            other => panic!("{other} is no repetition"),
        }
        whole
    }
}
