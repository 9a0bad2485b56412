//! Runs atan2 on pairs of every kind and holds each answer to the rule of document 01. It needs no other file:
//!
//!     tools/native-archive kihavute
//!     rustc -O -o target/native/atan_pairs oracle/atan_pairs.rs -L target/native -l static=kihavute
//!     target/native/atan_pairs SEED MILLIONS      pairs, all judged in f64, one in 64 by whole numbers
//!     target/native/atan_pairs time               nanoseconds a call, beside the machine's atan2f
//!
//! In f64 sine and cosine are the machine's, some 2^-52 from the sums, where the rule asks 2^-20 and an answer comes to
//! 2^-23; whatever is above half of the rule counts as wrong. By whole numbers the sums are those of the rule, term by term,
//! at the angle reduced by P, and nothing is rounded. The last line is 'N passed, M failed'.
use std::time::Instant;

extern "C" {
    fn kihavute_atan2(y: f32, x: f32) -> f32;
    fn atan2f(y: f32, x: f32) -> f32;
}

fn ours(y: f32, x: f32) -> f32 {
    // SAFETY: the function takes two floats by value and touches no memory.
    unsafe { kihavute_atan2(y, x) }
}

const PI: u32 = 0x4049_0FDB;
const TURN: u64 = 0x6487_ED51_10B4_611;

/// A natural number, the lowest 64 digits first, with no zero at the end.
#[derive(Clone, PartialEq, Eq)]
struct Whole(Vec<u64>);

impl Whole {
    fn of(n: u128) -> Whole {
        Whole(vec![n as u64, (n >> 64) as u64]).trimmed()
    }

    fn trimmed(mut self) -> Whole {
        while self.0.last() == Some(&0) {
            self.0.pop();
        }
        self
    }

    fn plus(&self, other: &Whole) -> Whole {
        let (long, short) = if self.0.len() < other.0.len() { (other, self) } else { (self, other) };
        let mut out = Vec::with_capacity(long.0.len() + 1);
        let mut carry = 0u128;
        for (i, digit) in long.0.iter().enumerate() {
            let sum = *digit as u128 + short.0.get(i).copied().unwrap_or(0) as u128 + carry;
            out.push(sum as u64);
            carry = sum >> 64;
        }
        out.push(carry as u64);
        Whole(out).trimmed()
    }

    fn times(&self, other: &Whole) -> Whole {
        let mut out = vec![0u64; self.0.len() + other.0.len()];
        for (i, a) in self.0.iter().enumerate() {
            let mut carry = 0u128;
            for (j, b) in other.0.iter().enumerate() {
                let sum = *a as u128 * *b as u128 + out[i + j] as u128 + carry;
                out[i + j] = sum as u64;
                carry = sum >> 64;
            }
            out[i + other.0.len()] = carry as u64;
        }
        Whole(out).trimmed()
    }

    fn shifted(&self, places: u32) -> Whole {
        let mut out = vec![0u64; (places / 64) as usize];
        let part = places % 64;
        let mut carry = 0u64;
        for digit in &self.0 {
            out.push(digit << part | carry);
            carry = if part == 0 { 0 } else { digit >> (64 - part) };
        }
        out.push(carry);
        Whole(out).trimmed()
    }

    fn at_most(&self, other: &Whole) -> bool {
        if self.0.len() != other.0.len() {
            return self.0.len() < other.0.len();
        }
        for (a, b) in self.0.iter().rev().zip(other.0.iter().rev()) {
            if a != b {
                return a < b;
            }
        }
        true
    }
}

/// The size of a finite float as digits and an exponent of two.
fn parts(x: f32) -> (u64, i32) {
    let bits = x.to_bits() & 0x7FFF_FFFF;
    let (field, digits) = (bits >> 23, (bits & 0x7F_FFFF) as u64);
    if field == 0 { (digits, -149) } else { (digits + 0x80_0000, field as i32 - 150) }
}

/// A Taylor sum at n / 2^s, from the exponent `first` on, over 2^(s·top)·top!: what is added and what is taken away.
fn sum(n: u64, s: u32, first: u32, top: u32) -> [Whole; 2] {
    let mut sides = [Whole(vec![]), Whole(vec![])];
    let mut power = Whole::of(1);
    for j in 0..=top {
        if j % 2 == first {
            let weight: u128 = (j + 1..=top).map(|k| k as u128).product();
            let term = power.times(&Whole::of(weight)).shifted(s * (top - j));
            let side = (j / 2 % 2) as usize;
            sides[side] = sides[side].plus(&term);
        }
        power = power.times(&Whole::of(n as u128));
    }
    sides
}

/// Whether a keeps the rule for y and x, by whole numbers.
fn keeps(y: f32, x: f32, a: f32) -> bool {
    let (mut n, e) = parts(a);
    let mut s = (-e) as u32;
    while n % 2 == 0 && s > 0 && n > 0 {
        n /= 2;
        s -= 1;
    }
    let mut flip = false;
    if n == 0 {
        s = 0;
    } else if s <= 56 && (n as u128) << (56 - s) > TURN as u128 / 2 {
        n = TURN - (n << (56 - s));
        s = 56;
        flip = true;
    }
    let cosine = sum(n, s, 0, 30);
    let sine = sum(n, s, 1, 31);
    let factorial = |top: u32| -> Whole { Whole::of((1..=top as u128).product()) };
    let (under_cosine, under_sine) = (factorial(30).shifted(30 * s), factorial(31).shifted(31 * s));
    let ((my, ey), (mx, ex)) = (parts(y), parts(x));
    let least = ey.min(ex);
    let rise = Whole::of(my as u128).shifted((ey - least) as u32);
    let run = Whole::of(mx as u128).shifted((ex - least) as u32);
    // y's sign is a's, so that both products with y lose it
    let left = x.is_sign_negative();
    let (up, down) = (flip as usize, 1 - flip as usize);
    let of = |size: &Whole, side: &Whole, under: &Whole| size.times(side).times(under);
    // y·cos - x·sin
    let (plus, minus) = if left { (up, down) } else { (down, up) };
    let added = of(&rise, &cosine[0], &under_sine).plus(&of(&run, &sine[plus], &under_cosine)).shifted(20);
    let taken = of(&rise, &cosine[1], &under_sine).plus(&of(&run, &sine[minus], &under_cosine)).shifted(20);
    let bound = of(&rise.plus(&run), &under_cosine, &under_sine);
    // x·cos + y·sin
    let (near, far) = if left { (1, 0) } else { (0, 1) };
    let ahead = of(&run, &cosine[near], &under_sine).plus(&of(&rise, &sine[up], &under_cosine));
    let behind = of(&run, &cosine[far], &under_sine).plus(&of(&rise, &sine[down], &under_cosine));
    added.at_most(&taken.plus(&bound)) && taken.at_most(&added.plus(&bound)) && !ahead.at_most(&behind)
}

struct Random(u64);

impl Random {
    fn next(&mut self) -> u64 {
        self.0 ^= self.0 << 13;
        self.0 ^= self.0 >> 7;
        self.0 ^= self.0 << 17;
        self.0.wrapping_mul(0x2545_F491_4F6C_DD1D)
    }

    fn below(&mut self, n: u64) -> u64 {
        (self.next() >> 16) % n
    }

    /// A float of any sign and digits with the exponent's field `field`.
    fn float(&mut self, field: u32) -> f32 {
        f32::from_bits(self.next() as u32 & 0x807F_FFFF | field << 23)
    }
}

const EDGES: [u32; 26] = [
    0, 1, 2, 3, 0x7F_FFFF, 0x80_0000, 0x80_0001, 0xFF_FFFF, 0x3380_0000, 0x3400_0000, 0x3880_0000, 0x3900_0000, 0x3900_0001,
    0x3980_0000, 0x3F00_0000, 0x3F49_0FDB, 0x3F7F_FFFF, 0x3F80_0000, 0x3F80_0001, 0x3FC9_0FDB, 0x4016_CBE4, PI, 0x4280_0000,
    0x4B80_0000, 0x7F7F_FFFE, 0x7F7F_FFFF,
];

/// The kinds of pairs, one after the other.
const KINDS: [&str; 10] =
    ["any bits", "equal binades", "binades up to 40 apart", "any binades", "near the x axis", "near the y axis", "near PI", "subnormal", "on a circle", "whole numbers and edges"];

fn pair(kind: usize, random: &mut Random) -> (f32, f32) {
    match kind {
        0 => (f32::from_bits(random.next() as u32), f32::from_bits(random.next() as u32)),
        1 => {
            let field = random.below(255) as u32;
            (random.float(field), random.float(field))
        }
        2 => {
            let field = 45 + random.below(165) as u32;
            let other = field + random.below(81) as u32 - 40;
            (random.float(field), random.float(other))
        }
        3 => {
            let (a, b) = (random.below(255) as u32, random.below(255) as u32);
            (random.float(a), random.float(b))
        }
        4 => {
            // the quotient lies around 2^-13, where the division takes over
            let field = 30 + random.below(200) as u32;
            let other = field - 11 - random.below(5) as u32;
            (random.float(other), random.float(field))
        }
        5 => {
            let field = 30 + random.below(200) as u32;
            let other = field - random.below(31) as u32;
            (random.float(field), random.float(other))
        }
        6 => {
            let field = 30 + random.below(200) as u32;
            let other = field - 20 - random.below(8) as u32;
            (random.float(other), -random.float(field).abs())
        }
        7 => {
            let (a, b) = (random.below(23) as u32, random.below(23) as u32);
            (
                f32::from_bits(random.next() as u32 & 0x807F_FFFF) * f32::from_bits(0x3F80_0000 - (a << 23)),
                f32::from_bits(random.next() as u32 & 0x807F_FFFF) * f32::from_bits(0x3F80_0000 - (b << 23)),
            )
        }
        8 => {
            let angle = (random.next() >> 11) as f64 / (1u64 << 53) as f64 * std::f64::consts::TAU;
            let size = f32::from_bits((20 + random.below(200) as u32) << 23) as f64;
            ((angle.sin() * size) as f32, (angle.cos() * size) as f32)
        }
        _ => {
            if random.below(2) == 0 {
                (random.below(2001) as f32 - 1000.0, random.below(2001) as f32 - 1000.0)
            } else {
                let mut edge = || f32::from_bits(EDGES[random.below(EDGES.len() as u64) as usize] | (random.next() as u32 & 0x8000_0000));
                (edge(), edge())
            }
        }
    }
}

#[derive(Default)]
struct Tally {
    pairs: u64,
    whole: u64,
    wrong: u64,
    residual: f64,
    forward: f64,
    ulps: f64,
    at: (f32, f32),
    far: (f32, f32),
}

impl Tally {
    fn wrong(&mut self, what: &str, y: f32, x: f32, a: f32) {
        self.wrong += 1;
        if self.wrong <= 10 {
            println!("wrong: {what}: y {:08X} x {:08X} answer {:08X}", y.to_bits(), x.to_bits(), a.to_bits());
        }
    }

    fn judge(&mut self, y: f32, x: f32, exactly: bool) {
        self.pairs += 1;
        let a = ours(y, x);
        if !y.is_finite() || !x.is_finite() {
            if a.to_bits() != 0x7FC0_0000 {
                self.wrong("not finite, and not 7FC00000", y, x, a);
            }
            return;
        }
        if y == 0.0 {
            let due = if x == 0.0 { 0 } else if x > 0.0 { y.to_bits() } else { y.to_bits() | PI };
            if a.to_bits() != due {
                self.wrong("y is zero", y, x, a);
            }
            if x == 0.0 {
                return;
            }
        }
        if a.to_bits() & 0x7FFF_FFFF > PI || a.is_sign_negative() != y.is_sign_negative() {
            self.wrong("range or sign", y, x, a);
            return;
        }
        let (rise, run, angle) = (y as f64, x as f64, a as f64);
        if y != 0.0 && x > 0.0 && rise.abs() * 16384.0 <= run && a.to_bits() != (y / x).to_bits() {
            self.wrong("tiny, and not the quotient", y, x, a);
        }
        let (s, c) = angle.sin_cos();
        let n = rise.abs() + run.abs();
        let (residual, forward) = ((rise * c - run * s).abs() / n * 1048576.0, (run * c + rise * s) / n);
        if !(residual <= 0.5 && forward > 0.0) {
            self.wrong("the rule in f64", y, x, a);
        }
        if residual > self.residual {
            (self.residual, self.at) = (residual, (y, x));
        }
        self.forward = self.forward.min(forward);
        let exact = rise.atan2(run);
        let ulp = f64::from_bits((exact.abs().to_bits() >> 52).max(1023 - 126) << 52) / 8388608.0;
        let ulps = (angle - exact).abs() / ulp;
        if ulps > self.ulps {
            (self.ulps, self.far) = (ulps, (y, x));
        }
        if exactly {
            self.whole += 1;
            if !keeps(y, x, a) {
                self.wrong("the rule by whole numbers", y, x, a);
            }
        }
    }
}

fn time() {
    let mut random = Random(0x9E37_79B9_7F4A_7C15);
    let points: Vec<(f32, f32)> =
        (0..4096).map(|_| (random.below(2_000_001) as f32 / 1000.0 - 1000.0, random.below(2_000_001) as f32 / 1000.0 - 1000.0)).collect();
    let theirs = |y: f32, x: f32| unsafe { atan2f(y, x) };
    let best = |f: &dyn Fn(f32, f32) -> f32, chained: bool| -> f64 {
        let mut best = f64::MAX;
        for _ in 0..200 {
            let start = Instant::now();
            let mut total = 0.0f32;
            for &(y, x) in &points {
                total = if chained { f(y + total * 1e-9, x) } else { total + f(y, x) };
            }
            std::hint::black_box(total);
            best = best.min(start.elapsed().as_nanos() as f64 / points.len() as f64);
        }
        best
    };
    println!("atan2, ns a call: throughput {:.1} (atan2f {:.1}), latency {:.1} (atan2f {:.1})", best(&ours, false), best(&theirs, false), best(&ours, true), best(&theirs, true));
}

fn main() {
    let words: Vec<String> = std::env::args().skip(1).collect();
    if words.first().map(String::as_str) == Some("time") {
        return time();
    }
    let (Some(seed), Some(millions)) = (words.first().and_then(|w| w.parse::<u64>().ok()), words.get(1).and_then(|w| w.parse::<u64>().ok())) else {
        eprintln!("usage: atan_pairs SEED MILLIONS | atan_pairs time");
        std::process::exit(2);
    };
    let mut random = Random(seed.wrapping_mul(0x9E37_79B9_7F4A_7C15) | 1);
    let mut tally = Tally { forward: 9.0, ..Tally::default() };
    for &a in &EDGES {
        for &b in &EDGES {
            for signs in 0..4u32 {
                tally.judge(f32::from_bits(a | (signs & 1) << 31), f32::from_bits(b | (signs >> 1) << 31), true);
            }
        }
    }
    for i in 0..millions * 1_000_000 {
        let (y, x) = pair((i % KINDS.len() as u64) as usize, &mut random);
        tally.judge(y, x, i / KINDS.len() as u64 % 64 == 0);
    }
    println!("seed {seed}: {} pairs of the kinds: {}; by whole numbers {}", tally.pairs, KINDS.join(", "), tally.whole);
    println!("largest residual {:.4} of 2^-20 at ({:e}, {:e}); least x·cos + y·sin {:.4} of |x|+|y|", tally.residual, tally.at.0, tally.at.1, tally.forward);
    println!("farthest from the f64 atan2: {:.3} last places at ({:e}, {:e})", tally.ulps, tally.far.0, tally.far.1);
    println!("{} passed, {} failed", tally.pairs - tally.wrong, tally.wrong);
    std::process::exit((tally.wrong > 0) as i32);
}
