// Works out docs/ORDER.md's witnesses on this machine, with the processor's own f32 arithmetic and fused multiply-add,
// and writes the page's two sections of them anew: `order` fails where the page differs or a theorem of Witnesses.antt
// has other bits, `order page` prints the sections to be put there, `order search` looks for witnesses anew.
// oracle/order builds and runs it.
use std::fs::read_to_string;
use std::process::exit;

// ---- the ways to look up

#[derive(Clone, Copy, PartialEq)]
enum Pick {
    NotBelow,
    Above,
}

#[derive(Clone, Copy, PartialEq)]
enum Share {
    Quotient,
    Reciprocal,
    FusedProduct,
    FusedQuotient,
    Contraction,
}

#[derive(Clone, Copy, PartialEq)]
enum Join {
    Division,
    Product,
    FusedDivision,
    FusedShare,
    FusedNumber,
}

#[derive(Clone, Copy)]
struct Way {
    pick: Pick,
    share: Share,
    clamped: bool,
    join: Join,
}

const LOOKUP: Way = Way { pick: Pick::NotBelow, share: Share::Quotient, clamped: true, join: Join::Division };

const SHARES: [(Share, &str); 5] = [
    (Share::Quotient, "(target - lower)/span"),
    (Share::Reciprocal, "(target - lower)·inverse"),
    (Share::FusedProduct, "target·inverse - lower·inverse"),
    (Share::FusedQuotient, "target·inverse - lower/span"),
    (Share::Contraction, "(total·progress - lower)/span"),
];

const JOINS: [(Join, &str); 5] = [
    (Join::Division, "(lower + share)/n"),
    (Join::Product, "(lower + share)·R"),
    (Join::FusedDivision, "share·R + lower/n, fused"),
    (Join::FusedShare, "share·R + (lower·R), fused"),
    (Join::FusedNumber, "lower·R + (share·R), fused"),
];

fn span(a: f32, b: f32) -> f32 {
    (b - a).max(f32::EPSILON)
}

fn clamped(progress: f32) -> f32 {
    if progress.is_nan() { 0.0 } else { progress.clamp(0.0, 1.0) }
}

// The share of the way from a to b at which the target lies: total·t rounded, for a clamped progress t.
fn share(way: Way, a: f32, b: f32, total: f32, t: f32) -> f32 {
    let (target, span) = (total * t, span(a, b));
    let inverse = 1.0 / span;
    let value = match way.share {
        Share::Quotient => (target - a) / span,
        Share::Reciprocal => (target - a) * inverse,
        Share::FusedProduct => target.mul_add(inverse, -(a * inverse)),
        Share::FusedQuotient => target.mul_add(inverse, -(a / span)),
        Share::Contraction => total.mul_add(t, -a) / span,
    };
    if way.clamped { value.clamp(0.0, 1.0) } else { value }
}

fn join(kind: Join, n: usize, before: usize, share: f32) -> f32 {
    let (count, number) = (n as f32, before as f32);
    let reciprocal = 1.0 / count;
    match kind {
        Join::Division => (number + share) / count,
        Join::Product => (number + share) * reciprocal,
        Join::FusedDivision => share.mul_add(reciprocal, number / count),
        Join::FusedShare => share.mul_add(reciprocal, number * reciprocal),
        Join::FusedNumber => number.mul_add(reciprocal, share * reciprocal),
    }
}

// The first length that is not below the target, or the first above it.
fn picked(way: Way, lengths: &[f32], target: f32) -> usize {
    match way.pick {
        Pick::NotBelow => lengths.iter().position(|length| !(*length < target)).unwrap(),
        Pick::Above => lengths.iter().position(|length| !(*length <= target)).unwrap(),
    }
}

fn last(lengths: &[f32]) -> f32 {
    lengths[lengths.len() - 1]
}

// The entry picked for a progress whose target lies inside, and its share.
fn part(way: Way, entries: &[f32], progress: f32) -> (usize, f32) {
    let (total, t) = (last(entries), clamped(progress));
    let upper = picked(way, entries, total * t);
    (upper, share(way, entries[upper - 1], entries[upper], total, t))
}

fn raw(way: Way, entries: &[f32], progress: f32) -> f32 {
    let (total, t) = (last(entries), clamped(progress));
    if total <= f32::EPSILON {
        return t;
    }
    if total * t <= 0.0 {
        return 0.0;
    }
    if total * t >= total {
        return 1.0;
    }
    let (upper, share) = part(way, entries, progress);
    join(way.join, entries.len() - 1, upper - 1, share)
}

// A path's segment and local progress.
fn spot(way: Way, lengths: &[f32], progress: f32) -> (usize, f32) {
    let (total, t) = (last(lengths), clamped(progress));
    if total <= f32::EPSILON || total * t >= total {
        return (lengths.len() - 1, 1.0);
    }
    if total * t <= 0.0 {
        return (0, 0.0);
    }
    let own = picked(way, lengths, total * t);
    (own, share(way, if own == 0 { 0.0 } else { lengths[own - 1] }, lengths[own], total, t))
}

// ---- the tables

// The runs of a table: (length, how often).
fn table(runs: &[(f32, usize)]) -> Vec<f32> {
    runs.iter().flat_map(|(length, times)| std::iter::repeat(*length).take(*times)).collect()
}

// A curve that stands still, is 1 long at the entry k, and 2 long from there on.
fn standing(k: usize, entries: usize) -> Vec<f32> {
    table(&[(0.0, k), (1.0, 1), (2.0, entries - k - 1)])
}

fn rising(a: f32, b: f32, c: f32) -> Vec<f32> {
    table(&[(0.0, 1), (a, 1), (b, 1), (c, 29)])
}

// The quad's table as crates/bezier/specs/Quads.antt and crates/table_samples/specs/Samples.antt have it: samples at
// i/31, each step's length squared and added in f64 and rounded to f32 once the root is taken (crates/lengths/specs/Length.antt), running sums in f32.
fn drawn(start: (f32, f32), control: (f32, f32), end: (f32, f32)) -> Vec<f32> {
    let lerp = |a: f32, b: f32, t: f32| a + (b - a) * t;
    let quad = |a: f32, b: f32, c: f32, t: f32| lerp(lerp(a, b, t), lerp(b, c, t), t);
    let sample = |t: f32| (quad(start.0, control.0, end.0, t), quad(start.1, control.1, end.1, t));
    let mut entries = vec![0.0];
    for i in 1..32 {
        let (from, to) = (sample((i - 1) as f32 / 31.0), sample(i as f32 / 31.0));
        let (x, y) = (to.0 - from.0, to.1 - from.1);
        entries.push(entries[i - 1] + (f64::from(x) * f64::from(x) + f64::from(y) * f64::from(y)).sqrt() as f32);
    }
    entries
}

fn after(x: f32) -> f32 {
    f32::from_bits(x.to_bits() + 1)
}

fn hex(x: f32) -> String {
    format!("{:08X}", x.to_bits())
}

// How many 2^exponent a number is, as the page writes it.
fn of(x: f64, exponent: i32) -> String {
    format!("{}·2^{exponent}", x * 2f64.powi(-exponent))
}

// ---- the page

const PAGE: &str = "docs/ORDER.md";
const THEOREMS: &str = "crates/table_order/proofs/Witnesses.antt";

struct Checked {
    theorems: String,
    right: bool,
}

impl Checked {
    fn holds(&mut self, what: &str, right: bool) {
        if !right {
            println!("NOT SO: {what}");
            self.right = false;
        }
    }

    // Halfway between two f32 values whose last place is 2^exponent.
    fn tie(&mut self, witness: &str, x: f64, exponent: i32) {
        self.holds(&format!("{witness}: {} is a tie", of(x, exponent)), (x * 2f64.powi(-exponent)).fract() == 0.5);
    }

    // The theorem's statement has these bits.
    fn theorem(&mut self, name: &str, numbers: &[f32]) {
        let statement = match self.theorems.find(&format!("\n{name} :")) {
            Some(from) => {
                let rest = &self.theorems[from..];
                rest[..rest.find("\nunfolding").unwrap_or(rest.len())].to_string()
            }
            None => String::new(),
        };
        for number in numbers {
            let bits = number.to_bits();
            let written = format!("bits 0x{:04x}_{:04x}", bits >> 16, bits & 0xffff);
            self.holds(&format!("{name} of {THEOREMS} has no {written}"), statement.contains(&written));
        }
    }

    // Both parameters of a way that steps back: as the theorem has them.
    fn back(&mut self, name: &str, way: Way, entries: &[f32], p: f32, q: f32) -> (f32, f32) {
        let (x, y) = (raw(way, entries, p), raw(way, entries, q));
        self.holds(&format!("{name}: from {} to {}", hex(x), hex(y)), p < q && y < x);
        self.theorem(name, &[x, y]);
        (x, y)
    }

    // The section of the page is this text.
    fn section(&mut self, title: &str, text: &str) {
        let page = read_to_string(PAGE).unwrap();
        let from = page.find(&format!("\n## {title}\n")).map(|at| &page[at + 1..]);
        let found = from.map(|from| &from[..from[3..].find("\n## ").map_or(from.len(), |end| end + 4)]);
        self.holds(&format!("the section '{title}' of {PAGE} is what `oracle/order page` prints"), found.map(str::trim_end) == Some(text.trim_end()));
    }
}

const DRAWN: &str = "A witness that somebody drew";

// What `search` finds by looking at each progress of the drawn curve, and at each number of entries.
fn each_progress(steps: usize, progresses: u32) -> String {
    format!("of the curve's {progresses} steps from one progress to the next, {steps} goes back (`oracle/order search` takes each)")
}

fn each_count(overlapping: &[usize]) -> String {
    format!("(lower + share)·R overlaps at {} of them, share·R + lower/n at {}, share·R + (lower·R) at {}, lower·R + (share·R) at {}", overlapping[1], overlapping[2], overlapping[3], overlapping[4])
}

fn drawn_section(check: &mut Checked) -> String {
    let entries = drawn((0.0, 0.0), (0.0, 0.0), (1.0, 0.0));
    let fused = Way { join: Join::FusedDivision, ..LOOKUP };
    let first = f32::from_bits(0x3EAC9EC4);
    let total = last(&entries);
    check.holds("the drawn curve's total is 1, so that the path's local progress is the progress", total == 1.0 && spot(LOOKUP, &[total], first) == (0, first));
    check.holds("the drawn curve steps back", raw(fused, &entries, after(first)) < raw(fused, &entries, first));
    check.holds("the lookup does not", raw(LOOKUP, &entries, after(first)) == raw(LOOKUP, &entries, first));
    let mut text = format!("## {DRAWN}\n\n");
    text += &format!(
        "`M0 0Q0 0 1 0`: a line that eases in, its control point on its start. The table that 01 builds for it is {} long, so progress and length are the same number, and its entry 18 is {}. R is 1/31 rounded.\n\n",
        hex(total),
        hex(entries[18])
    );
    text += "| Progress | Entry | Share | (lower + share)/31, the lookup | share·R + lower/31, fused |\n|---|---|---|---|---|\n";
    for bits in first.to_bits() - 1..first.to_bits() + 3 {
        let p = f32::from_bits(bits);
        let (entry, share) = part(LOOKUP, &entries, p);
        text += &format!("| {} | {entry} | {} | {} | {} |\n", hex(p), hex(share), hex(raw(LOOKUP, &entries, p)), hex(raw(fused, &entries, p)));
    }
    text += &format!(
        "\nFrom {} to {} the fused form steps back, {} to {}; the lookup gives {} twice. A packet of the later pulse is filed before one of the earlier; {}.\n\n",
        hex(first),
        hex(after(first)),
        hex(raw(fused, &entries, first)),
        hex(raw(fused, &entries, after(first))),
        hex(raw(LOOKUP, &entries, first)),
        each_progress(1, 1.0f32.to_bits())
    );
    text += "How it is computed: by `oracle/order` alone, which builds the table by the operations of `crates/bezier/specs/Quads.antt`, `crates/lengths/specs/Length.antt` and `crates/table_samples/specs/Samples.antt`. `./test` runs it. The count over all progresses is by `oracle/order search`, which is no step of `./test`. No theorem has these bits: a change in how a length is rounded moves them, and `oracle/order` then says so. That the form steps back at all is `fused-division-back`, witness A, on a table that nobody measures.\n";
    text
}

const WITNESSES: &str = "The witnesses, on paper";

fn witnesses_section(check: &mut Checked) -> String {
    let (half, next) = (0.5f32, after(0.5));
    let r = 1.0f32 / 31.0;
    let wide = |x: f32| x as f64;
    let number = |k: usize| k as f32;
    let mark = |k: usize| number(k) / 31.0;
    let bare = |share: Share| Way { share, clamped: false, ..LOOKUP };
    let joined = |join: Join| Way { join, ..LOOKUP };
    let mut text = format!("## {WITNESSES}\n\n");
    text += "Bits and the numbers they stand for are theorems of `crates/table_order/proofs/Witnesses.antt`, named at each witness; `oracle/order` works them out again and compares. What lies between them, the fractions before they are rounded, is by `oracle/order` alone, which writes this section. In A to E and G the progress 0.5 has an entry as its target; the f32 after it is 0.5 + 2^-24.\n\n";

    // A
    let a = standing(18, 32);
    let way = joined(Join::FusedDivision);
    let (x, y) = check.back("fused-division-back", way, &a, half, next);
    let ((entry, all), (later, little)) = (part(way, &a, half), part(way, &a, next));
    let sum = wide(r) + wide(mark(17));
    check.holds("A: a share of 1 after 17, then 2^-23 after 18", (entry, all, later, little) == (18, 1.0, 19, f32::EPSILON));
    check.tie("A", sum, -24);
    text += &format!("**A. share·R + lower/31, fused** (`fused-division-back`). Eighteen entries of 0, then 1, then thirteen of 2: a curve that stands still at first. R = {}.\n", of(wide(r), -28));
    text += &format!(
        "- 0.5: the target is 1, entry {entry}; the entry before is number 17 and the share is {all}. 17/31 rounded is {}. R + 17/31 = ({} + {})·2^-24 = {}, a tie; the even neighbour is {} = {:?}, {}.\n",
        of(wide(mark(17)), -24), wide(r) * 2f64.powi(24), wide(mark(17)) * 2f64.powi(24), of(sum, -24), of(wide(x), -24), x, hex(x)
    );
    text += &format!(
        "- 0.5 + 2^-24: the target is 1 + 2^-23, entry {later}; the share is 2^-23. 18/31 rounded is {}, and 2^-23·R adds {:.3} of its last place: {} = {:?}, {}. One step back.\n",
        of(wide(mark(18)), -24), wide(little) * wide(r) * 2f64.powi(24), of(wide(y), -24), y, hex(y)
    );
    check.theorem("lookup-stays", &[raw(LOOKUP, &a, half), raw(LOOKUP, &a, next)]);
    check.holds("A: the lookup stays", raw(LOOKUP, &a, half) == mark(18) && raw(LOOKUP, &a, next) == mark(18) && 18.0 + little == 18.0);
    text += &format!("- The lookup itself (`lookup-stays`): 17 + 1 = 18 and 18 + 2^-23 rounds to 18. Both give 18/31, {}.\n", hex(mark(18)));
    text += "- The same on entering three more entries, with as many entries of 0 before the 1:";
    for k in [22, 26, 30] {
        let (x, y) = check.back("fused-division-back", way, &standing(k, 32), half, next);
        text += &format!(" {k}, from {} to {}{}", hex(x), hex(y), if k == 30 { "." } else { ";" });
    }
    check.holds("A: the parts overlap at 18, 22, 26, 30", overlaps(Join::FusedDivision, 31) == [18, 22, 26, 30]);
    text += " On entering the other 26 the parts meet (`fused-division-entries`).\n\n";

    // B
    let b = standing(15, 49);
    let (x, y) = check.back("fused-products-back", joined(Join::FusedShare), &b, half, next);
    let s = 1.0f32 / 48.0;
    let (before, own) = (14.0 * wide(s), 15.0 * wide(s));
    text += &format!("**B. share·R + (lower·R), fused, 49 entries** (`fused-products-back`). Fifteen entries of 0, then 1, then thirty-three of 2. R is 1/48 rounded, {}.\n", of(wide(s), -29));
    text += &format!(
        "- 0.5: entry {}, number 14, share 1. 14·R = {} rounds to {}; plus R, which is {}, that is {}, rounded {} = {:?}, {}.\n",
        part(LOOKUP, &b, half).0, of(before, -25), of(wide(14.0 * s), -25), of(wide(s), -25), of(wide(14.0 * s) + wide(s), -25), of(wide(x), -25), x, hex(x)
    );
    text += &format!("- After: number 15. 15·R = {} rounds to {}; the share 2^-23 adds {:.2} of its last place: {:?}, {}.\n\n", of(own, -25), of(wide(15.0 * s), -25), wide(s) * 2f64.powi(2), y, hex(y));

    // C
    let c = standing(17, 32);
    let x = raw(joined(Join::Product), &c, next);
    check.theorem("products-out-of-place", &[x, raw(joined(Join::FusedShare), &c, next), mark(17)]);
    check.holds("C: below its place", part(LOOKUP, &c, next).0 == 18 && x < mark(17) && raw(joined(Join::FusedShare), &c, next) == x);
    check.tie("C", 17.0 * wide(r), -24);
    text += &format!(
        "**C. (lower + share)·R** (`products-out-of-place`). Seventeen entries of 0, then 1, then fourteen of 2. After 0.5: entry {}, number 17, share 2^-23, and 17 + 2^-23 rounds to 17. 17·R = {}, a tie, rounded to {} = {:?}, {}. The place of entry 17 is 17/31 = {:.2}·2^-24, rounded {}, {}: the raw parameter lies below the place of the entry that it has passed. share·R + (lower·R), fused, gives the same bits there.",
        part(LOOKUP, &c, next).0, of(17.0 * wide(r), -24), of(wide(x), -24), x, hex(x), 17.0 / 31.0 * 2f64.powi(24), of(wide(mark(17)), -24), hex(mark(17))
    );
    let far = f32::from_bits(0x7F000000);
    let steep = table(&[(0.0, 17), (1.0, 1), (far, 14)]);
    let tiny = f32::from_bits(0x00400001);
    let x = raw(joined(Join::FusedNumber), &steep, tiny);
    check.theorem("fused-number-out-of-place", &[tiny, x]);
    check.holds("C: below its place, once more", part(LOOKUP, &steep, tiny).0 == 18 && x < mark(17) && part(LOOKUP, &steep, tiny).1 * r == 0.0);
    text += &format!(
        " lower·R + (share·R), fused, needs a share whose product with R rounds to 0, since any other lifts the tie (`fused-number-out-of-place`): the curve is 1 long at entry 17 and 2^127 from there on; at progress {} it gives {}.\n\n",
        hex(tiny), hex(x)
    );

    // D and E
    let d = rising(15.0, 18.0, 36.0);
    let way = bare(Share::FusedProduct);
    let (x, y) = check.back("bare-fused-product-back", way, &d, half, next);
    let (third, eighteenth) = (1.0f32 / 3.0, 1.0f32 / 18.0);
    check.holds("D: the offsets", 15.0 * third == 5.0 && 18.0 * eighteenth == 1.0 && part(way, &d, half).1 == 1.0 + 2.0 * f32::EPSILON && 2.0 + part(way, &d, next).1 == 2.0);
    check.tie("D", 18.0 * wide(third) - 5.0, -23);
    text += "**D. target·inverse - (lower·inverse), fused, no clamp** (`bare-fused-product-back`). Lengths 0, 15, 18, then 36.\n";
    text += &format!(
        "- 0.5: the target is 18, in the part from 15 to 18; inverse = {}, a little more than 1/3. 15·inverse rounds to 5. 18·inverse - 5 is {}, a tie, and rounds to {}, 1 + 2^-22: more than the whole part. (1 + 1 + 2^-22)/31 = {:?}, {}.\n",
        of(wide(third), -25), of(18.0 * wide(third) - 5.0, -23), of(wide(part(way, &d, half).1), -23), x, hex(x)
    );
    text += &format!(
        "- After: the target is 18 + 2^-19, in the part from 18 to 36; inverse = {}, and 18·inverse rounds to 1; the share is {:.3e}. 2 + that rounds to 2, and 2/31 = {:?}, {}.\n\n",
        of(wide(eighteenth), -28), part(way, &d, next).1, y, hex(y)
    );
    let e = rising(7.0, 10.0, 20.0);
    let way = bare(Share::FusedQuotient);
    let (x, y) = check.back("bare-fused-quotient-back", way, &e, half, next);
    let (tenth, sevens) = (1.0f32 / 10.0, 7.0f32 / 3.0);
    check.holds("E: the shares", part(way, &e, half).1 == 1.0 + 2.0 * f32::EPSILON && 2.0 + part(way, &e, next).1 == 2.0);
    check.tie("E", 10.0 * wide(third) - wide(sevens), -23);
    text += "**E. target·inverse - lower/span, fused, no clamp** (`bare-fused-quotient-back`). Lengths 0, 7, 10, then 20.\n";
    text += &format!(
        "- 0.5: the target is 10, in the part from 7 to 10. 7/3 rounded is {}. 10·inverse = {}, and the difference is {}, again a tie: {}, and {:?}, {}.\n",
        of(wide(sevens), -22), of(10.0 * wide(third), -25), of(10.0 * wide(third) - wide(sevens), -23), of(wide(part(way, &e, half).1), -23), x, hex(x)
    );
    text += &format!("- After: the target is 10 + 2^-20; inverse = {}, 10/10 = 1, the share {:.3e}: 2/31 = {:?}, {}.\n\n", of(wide(tenth), -27), part(way, &e, next).1, y, hex(y));

    // F
    let f = table(&[(0.0, 1), (9.99e37, 1), (3.0e38, 30)]);
    let way = bare(Share::Reciprocal);
    let (p, q) = (0.333f32, after(0.333));
    let (x, y) = check.back("bare-reciprocal-back", way, &f, p, q);
    check.theorem("bare-reciprocal-back", &[f[1], f[2], p, q]);
    check.holds("F: the whole first part, then the second", f[31] * p == f[1] && part(way, &f, q).0 == 2 && 1.0 + part(way, &f, q).1 == 1.0);
    text += &format!("**F. (target - lower)·inverse, no clamp** (`bare-reciprocal-back`). Lengths 0, 9.99e37 = {}, then 3e38; progress 0.333, {}, and the f32 after it.\n", of(wide(f[1]), 103), hex(p));
    text += &format!(
        "- 0.333: the target rounds to {}, the whole first part. Its reciprocal is {:.2} of the smallest subnormal, 2^-149, and rounds up to {}. The product is 1 + {:.2}·2^-23 and rounds to {}. Divided by 31: {:?}, {}.\n",
        of(wide(f[31] * p), 103),
        2f64.powi(149) / wide(f[1]),
        (1.0 / f[1]).to_bits(),
        (wide(f[1]) * wide(1.0 / f[1]) - 1.0) * 2f64.powi(23),
        of(wide(part(way, &f, p).1), -23),
        x,
        hex(x)
    );
    text += &format!("- After: the target is {}, in the second part; the share is {:.1e}, 1 + that rounds to 1, and 1/31 = {:?}, {}.\n\n", of(wide(f[31] * q), 103), part(way, &f, q).1, y, hex(y));

    // G
    let g = standing(1, 32);
    let above = Way { pick: Pick::Above, ..LOOKUP };
    let paused = table(&[(0.0, 1), (1.0, 3), (2.0, 28)]);
    let trio = [1.0, 1.0, 2.0];
    check.holds("G: entries 1 and 2", (part(LOOKUP, &g, half).0, part(above, &g, half).0) == (1, 2) && raw(LOOKUP, &g, half) == raw(above, &g, half));
    check.theorem("above-skips-equal-lengths", &[raw(LOOKUP, &paused, half), raw(above, &paused, half)]);
    check.holds("G: 1/31 and 3/31", (raw(LOOKUP, &paused, half), raw(above, &paused, half)) == (mark(1), mark(3)));
    check.holds("G: the end of segment 0, the start of segment 2", (spot(LOOKUP, &trio, half), spot(above, &trio, half)) == ((0, 1.0), (2, 0.0)));
    text += &format!(
        "**G. The first length above the target** (`above-does-not-enclose`, `above-skips-equal-lengths`, `above-changes-segment`). Lengths 0, 1, then 2, at 0.5: the target is 1. The strict search gives entry {}, and 0 < 1 <= 1. The non-strict one gives entry {}; the entry before, 1, is not below the target, so the two do not enclose it as 01 has it. The raw parameter is the same here, (0 + 1)/31 and (1 + 0)/31. It differs where lengths are equal: for 0, 1, 1, 1, then 2, at 0.5, the strict search gives 1/31 = {:?}, {}, the first place where the curve is 1 long, and the non-strict one 3/31 = {:?}, {}, the last. On a path with running lengths 1, 1, 2 the strict search files the middle of the flight under segment {} at {}, the other under segment {} at {}, and a packet at that spot changes its segment.\n\n",
        part(LOOKUP, &g, half).0, part(above, &g, half).0, mark(1), hex(mark(1)), mark(3), hex(mark(3)), spot(LOOKUP, &trio, half).0, spot(LOOKUP, &trio, half).1, spot(above, &trio, half).0, spot(above, &trio, half).1
    );

    // H
    let h = rising(1.0, 1.0 + 2.0 * f32::EPSILON, 3.0);
    let way = bare(Share::Contraction);
    let (p, q) = (f32::from_bits(0x3EAAAAAE), f32::from_bits(0x3EAAAAAF));
    let (x, y) = check.back("bare-contraction-back", way, &h, p, q);
    check.theorem("bare-contraction-back", &[p, q]);
    check.holds("H: the whole part by the rounded target", part(LOOKUP, &h, p) == (2, 1.0) && raw(LOOKUP, &h, p) == raw(LOOKUP, &h, q) && 2.0 + part(way, &h, q).1 == 2.0);
    check.tie("H", 3.0 * wide(p), -23);
    text += "**H. (total·progress - lower)/span, the first two fused, no clamp** (`bare-contraction-back`). Lengths 0, 1, 1 + 2^-22, then 3 twenty-nine times.\n";
    text += &format!(
        "- {}, {}: total·progress = {}, a tie, and the target rounds to 1 + 2^-22, the end of the part from 1. The difference, not rounded, is {}, and the span {}: the share is {}, a quarter of a part too much. (1 + {})/31 = {:?}, {}.\n",
        of(wide(p), -25), hex(p), of(3.0 * wide(p), -23), of(3.0 * wide(p) - 1.0, -23), of(wide(h[2] - 1.0), -23), part(way, &h, p).1, part(way, &h, p).1, x, hex(x)
    );
    text += &format!("- After, {}: the target is past 1 + 2^-22, and the share {:.2e} of the part up to 3. 2 + that rounds to 2, and 2/31 = {:?}, {}.\n", hex(q), part(way, &h, q).1, y, hex(y));
    text += &format!("- The lookup gives {} twice, and so does the fused form with its clamp.\n\n", hex(raw(LOOKUP, &h, p)));
    let kept = Way { share: Share::Contraction, ..LOOKUP };
    check.holds("H: the clamp mends it", raw(kept, &h, p) == raw(LOOKUP, &h, p) && raw(kept, &h, q) == raw(LOOKUP, &h, q));

    // I
    let i = table(&[(0.0, 1), (3.0, 1), (5.0, 30)]);
    let (own, other) = (raw(LOOKUP, &i, half), raw(Way { share: Share::Reciprocal, ..LOOKUP }, &i, half));
    for share in [Share::Reciprocal, Share::FusedProduct, Share::FusedQuotient] {
        check.holds("I: three forms alike", raw(Way { share, ..LOOKUP }, &i, half) == other && other != own);
    }
    let earlier = f32::from_bits(0x3EAAAAAD);
    let (steady, moved) = (raw(LOOKUP, &h, earlier), raw(kept, &h, earlier));
    check.holds("I: the contraction differs", steady != moved);
    check.theorem("clamped-other-bits", &[own, other, earlier, steady, moved]);
    let ninth = raw(joined(Join::FusedNumber), &c, half);
    check.holds("I: the joins differ", ninth < raw(LOOKUP, &c, half));
    text += &format!(
        "**I. Other bits** (`clamped-other-bits`). Lengths 0, 3, then 5, at 0.5: the lookup gives {}, and with their clamps (target - lower)·inverse and both fused forms with the inverse give {}. On H's table at {} the lookup gives {} and (total·progress - lower)/span, fused and clamped, {}. The joins differ from the lookup in A and C.\n",
        hex(own), hex(other), hex(earlier), hex(steady), hex(moved)
    );
    text
}

// ---- the search

// The entries on entering which a join's parts overlap.
fn overlaps(kind: Join, n: usize) -> Vec<usize> {
    (1..n).filter(|k| join(kind, n, k - 1, 1.0) > join(kind, n, *k, 0.0)).collect()
}

// Whether the way steps back from one of the progresses around each entry to the next.
fn steps_back(way: Way, entries: &[f32]) -> Option<(f32, f32)> {
    let total = last(entries);
    for entry in &entries[1..entries.len() - 1] {
        let middle = (entry / total).to_bits().max(8);
        for bits in middle - 8..middle + 8 {
            let (p, q) = (f32::from_bits(bits), f32::from_bits(bits + 1));
            if raw(way, entries, q) < raw(way, entries, p) {
                return Some((p, q));
            }
        }
    }
    None
}

fn search(check: &mut Checked) {
    let page = read_to_string(PAGE).unwrap();
    let entries = drawn((0.0, 0.0), (0.0, 0.0), (1.0, 0.0));
    let fused = Way { join: Join::FusedDivision, ..LOOKUP };
    let one = 1.0f32.to_bits();
    let back = |bits: &u32| raw(fused, &entries, f32::from_bits(bits + 1)) < raw(fused, &entries, f32::from_bits(*bits));
    let found = (0..one).filter(back).count();
    let overlapping = JOINS.map(|(kind, _)| (1..4096).map(|spans| 16 * spans).filter(|n| !overlaps(kind, *n).is_empty() || join(kind, *n, n - 1, 1.0) > 1.0).count());
    for sentence in [each_progress(found, one), each_count(&overlapping)] {
        println!("{sentence}");
        check.holds("and the page has this sentence", page.contains(&sentence));
    }
    for (share, form) in SHARES {
        for clamped in [true, false] {
            for (join, name) in JOINS {
                let way = Way { pick: Pick::NotBelow, share, clamped, join };
                let mut found = None;
                'tables: for k in 1..30 {
                    for a in 1..24 {
                        for b in a + 1..30 {
                            let entries = table(&[(0.0, k), (a as f32, 1), (b as f32, 1), (2.0 * b as f32, 30 - k)]);
                            if let Some((p, q)) = steps_back(way, &entries) {
                                found = Some((k, a, b, p, q));
                                break 'tables;
                            }
                        }
                    }
                }
                let bound = if clamped { "clamped" } else { "bare" };
                match found {
                    Some((k, a, b, p, q)) => println!("{form}, {bound}; {name}: {k} entries of 0, then {a}, {b}, {}: from {p:?} to {q:?}", 2 * b),
                    None => println!("{form}, {bound}; {name}: none found in these tables"),
                }
            }
        }
    }
}

fn main() {
    let asked = std::env::args().nth(1);
    let mut check = Checked { theorems: read_to_string(THEOREMS).unwrap(), right: true };
    let (drawn, witnesses) = (drawn_section(&mut check), witnesses_section(&mut check));
    if asked.as_deref() == Some("page") {
        print!("{drawn}\n{witnesses}");
    } else if asked.as_deref() == Some("search") {
        search(&mut check);
    } else {
        check.section(DRAWN, &drawn);
        check.section(WITNESSES, &witnesses);
        if check.right {
            println!("order: the witnesses of {PAGE} come out as the page and {THEOREMS} have them");
        }
    }
    if !check.right {
        exit(1);
    }
}
