//! Lengths by themselves: the proved one against the machine's f64 root rounded to f32, on vectors of each kind at which a length
//! can go wrong.

use crate::compare::Report;
use crate::math::{Answer, FAMILY, Operands, number};
use crate::samples::Stream;
use std::cell::Cell;

/// The coordinates of one vector.
type Drawn = [f32; 2];

const KINDS: [(&str, fn(&mut Stream) -> Drawn); 8] = [
    ("any bits", |stream| [stream.bits(), stream.bits()].map(f32::from_bits)),
    ("of one size", |stream| {
        let exponent = stream.below(255);
        [0; 2].map(|_| sized(stream, exponent))
    }),
    ("of sizes apart", |stream| {
        let exponent = stream.below(255);
        let less = stream.below(28);
        [sized(stream, exponent), sized(stream, exponent.saturating_sub(less))]
    }),
    ("subnormal", |stream| [0; 2].map(|_| sized(stream, 0))),
    ("below 2^-126", |stream| {
        let mask = (1 << (stream.below(23) + 1)) - 1;
        [0; 2].map(|_| f32::from_bits(stream.bits() & (0x8000_0000 | mask)))
    }),
    ("near the largest", |stream| {
        [0; 2].map(|_| {
            let exponent = 252 + stream.below(3);
            sized(stream, exponent)
        })
    }),
    ("beside a middle", beside_a_middle),
    ("on a middle", on_a_middle),
];

// a float with this exponent field, of either sign
fn sized(stream: &mut Stream, exponent: u32) -> f32 {
    f32::from_bits(stream.bits() & 0x807F_FFFF | exponent << 23)
}

// m and y, where y is the f32 nearest to the leg that lengthens m to the middle of m and the next f32, or the f32 beside that one
fn beside_a_middle(stream: &mut Stream) -> Drawn {
    let m = f64::from(0x80_0000 + stream.below(0x80_0000));
    let y = (m + 0.25).sqrt() as f32;
    let y = f32::from_bits((y.to_bits() + stream.below(3)).wrapping_sub(1));
    scaled(stream, [m as f32, y])
}

// the legs of a right triangle in whole numbers whose longest side has 25 digits and is odd: a middle. The even f32 is below the
// side p² + q², and above three times such a side.
fn on_a_middle(stream: &mut Stream) -> Drawn {
    loop {
        let times = 1 + 2 * stream.below(2);
        let p = 1672 + stream.below(4121);
        let q = stream.below(p);
        let side = times * (p * p + q * q);
        let legs = [times * (p * p - q * q), times * (2 * p * q)];
        if side % 2 == 1 && side >> 24 == 1 && legs.iter().all(|leg| *leg < 1 << 24 || leg % 2 == 0) {
            return scaled(stream, legs.map(|leg| leg as f32));
        }
    }
}

// the vector times a power of two that keeps all its digits, with any signs, either leg first
fn scaled(stream: &mut Stream, [a, b]: Drawn) -> Drawn {
    let power = f32::from_bits((stream.below(200) + 1) << 23);
    let signs = stream.bits();
    let sign = |x: f32, bit: u32| if signs >> bit & 1 == 0 { x } else { -x };
    let [a, b] = [sign(a * power, 0), sign(b * power, 1)];
    if signs >> 2 & 1 == 0 { [a, b] } else { [b, a] }
}

// how far the f64 root lies from the nearest middle of two f32 values, in units of the f64; a root that is no f32's size lies far
fn beside(operands: &Operands) -> u64 {
    let [x, y] = [0, 1].map(|place| f64::from(f32::from_bits(operands.bits[place])));
    let root = (x * x + y * y).sqrt();
    if !(f64::from(f32::MIN_POSITIVE)..f64::from(f32::MAX)).contains(&root) {
        return u64::MAX;
    }
    (root.to_bits() & 0x1FFF_FFFF).abs_diff(0x1000_0000)
}

/// Compares so many lengths of each kind.
pub fn compare(report: &mut Report, seed: u64, count: u32) {
    let length = FAMILY.helpers.iter().find(|helper| helper.name == "length").expect("length is a helper");
    let ours = |operands: &Operands| (length.ours)(&operands.floats());
    println!("lengths, seed {seed}, {count} of each kind");
    for (place, (title, draw)) in KINDS.iter().enumerate() {
        let mut stream = Stream::new(seed ^ (place as u64) << 40);
        let (on, next) = (Cell::new(0u64), Cell::new(0u64));
        let inputs = (0..count).filter_map(|_| {
            let [x, y] = draw(&mut stream).map(f32::to_bits);
            let operands = length.operands([x, y, 0, 0, 0])?;
            match beside(&operands) {
                0 => on.set(on.get() + 1),
                1 => next.set(next.get() + 1),
                _ => {}
            }
            Some(operands)
        });
        let made = report.group(&format!("lengths, {title}"), inputs, ours, machine);
        println!("  {title:16} {made:10}, of them {} with an f64 root on a middle and {} one unit beside it", on.get(), next.get());
    }
}

// document 02's length, by the machine's root
fn machine(operands: &Operands) -> Answer {
    let [x, y] = [0, 1].map(|place| f64::from(f32::from_bits(operands.bits[place])));
    number((x * x + y * y).sqrt() as f32)
}
