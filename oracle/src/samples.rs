//! Inputs: numbers from a fixed seed, and the floats at which mistakes show.

/// Pseudo-random numbers that a seed fixes (the generator is splitmix64).
pub struct Stream(u64);

impl Stream {
    pub fn new(seed: u64) -> Stream {
        Stream(seed)
    }

    pub fn next(&mut self) -> u64 {
        self.0 = self.0.wrapping_add(0x9E37_79B9_7F4A_7C15);
        let mut z = self.0;
        z = (z ^ (z >> 30)).wrapping_mul(0xBF58_476D_1CE4_E5B9);
        z = (z ^ (z >> 27)).wrapping_mul(0x94D0_49BB_1331_11EB);
        z ^ (z >> 31)
    }

    pub fn bits(&mut self) -> u32 {
        (self.next() >> 32) as u32
    }

    pub fn below(&mut self, count: u32) -> u32 {
        ((self.next() >> 32) * u64::from(count) >> 32) as u32
    }

    // a float with this exponent field, of either sign
    fn of_exponent(&mut self, exponent: u32) -> u32 {
        self.bits() & 0x807F_FFFF | exponent << 23
    }
}

/// Floats at which a wrong order, a wrong test or a lost bit shows. The first 16 are also tried in every
/// combination of five.
pub const SPECIALS: [u32; 40] = [
    0x0000_0000, // +0
    0x8000_0000, // -0
    0x3F80_0000, // 1
    0xBF80_0000, // -1
    0x7F80_0000, // infinity
    0xFF80_0000, // -infinity
    0x7FC0_0000, // NaN
    0x0000_0001, // the least above 0
    0x7F7F_FFFF, // the greatest
    0x3400_0000, // 2^-23
    0x3F00_0000, // 1/2
    0x4B80_0000, // 2^24, where 1 is half a step
    0x007F_FFFF, // the greatest subnormal
    0x0080_0000, // the least normal
    0x3F80_0001, // the next above 1
    0x3F7F_FFFF, // the next below 1
    0xFF81_2345, // a NaN with a sign and a payload
    0x7F80_0001, // a signalling NaN
    0x8000_0001, // the greatest below 0
    0xFF7F_FFFF, // the least
    0x4049_0FDB, // PI
    0x4334_0000, // 180
    0xC334_0000, // -180
    0x33FF_FFFF, // the next below 2^-23
    0x3400_0001, // the next above 2^-23
    0x5F80_0000, // 2^64, whose square overflows
    0x5F7F_FFFF, // the next below it, whose square does not
    0x2000_0000, // 2^-63, whose square is the least normal
    0x1A35_04F3, // about 2^-74.5, whose square is about the least above 0
    0x4000_0000, // 2
    0x4040_0000, // 3
    0x4080_0000, // 4
    0x3DCC_CCCD, // 0.1
    0x3E99_999A, // 0.3
    0x4B7F_FFFF, // 2^24 - 1
    0x4B00_0001, // 2^23 + 1
    0x7F00_0000, // 2^127
    0x0040_0000, // half the least normal
    0xC2F6_E979, // -123.456
    0xBF00_0000, // -1/2
];

/// The bits of a number that was worked out. Which NaN an operation gives is the processor's choice (that of x86-64
/// has its sign set, that of aarch64 has not), so every NaN is the same one here: a seed gives the same inputs on
/// every machine.
pub fn worked_out(x: f32) -> u32 {
    if x.is_nan() { 0xFFC0_0000 } else { x.to_bits() }
}

/// A way to draw operands.
#[derive(Clone, Copy)]
pub enum Kind {
    AnyBits,
    Subnormal,
    Close,
    Planned,
    Edge,
    Angle,
}

pub const KINDS: [(Kind, &str); 5] = [
    (Kind::AnyBits, "any bits"),
    (Kind::Subnormal, "subnormals"),
    (Kind::Close, "close together"),
    (Kind::Planned, "as planned"),
    (Kind::Edge, "at the edges"),
];

// exponent fields of sizes whose squares, sums or quotients are at an edge of the format, or near 2^-23
const EDGES: [u32; 16] = [1, 2, 23, 51, 52, 53, 63, 64, 103, 104, 126, 127, 189, 190, 191, 254];

/// Operands of one call.
pub fn draw<const N: usize>(kind: Kind, stream: &mut Stream) -> [u32; N] {
    let mut operands = [0; N];
    let base = stream.below(61) + 97;
    let base = stream.of_exponent(base);
    for operand in &mut operands {
        *operand = match kind {
            Kind::AnyBits => stream.bits(),
            Kind::Subnormal => match stream.below(5) {
                0..3 => stream.of_exponent(0),
                3 => {
                    let exponent = stream.below(24);
                    stream.of_exponent(exponent)
                }
                _ => {
                    let exponent = stream.below(9) + 123;
                    stream.of_exponent(exponent)
                }
            },
            // a few steps from a common base, now and then on the other side of zero
            Kind::Close => base.wrapping_add(stream.below(33)).wrapping_sub(16) ^ u32::from(stream.below(8) == 0) << 31,
            // thousandths of a unit up to 16 km in metres, or a share from 0 to 1
            Kind::Planned => match stream.below(3) {
                0 => ((stream.below(1_000_001) as f32) / 1_000_000.0).to_bits(),
                _ => ((stream.below(1 << 25) as f32 - 16_777_216.0) / 1000.0).to_bits(),
            },
            // angles of up to 128 in size, of every binade from 2^-14 on
            Kind::Angle => {
                let exponent = stream.below(21) + 113;
                stream.of_exponent(exponent)
            }
            Kind::Edge => match stream.below(4) {
                0 => SPECIALS[stream.below(SPECIALS.len() as u32) as usize],
                _ => {
                    let exponent = EDGES[stream.below(EDGES.len() as u32) as usize];
                    stream.of_exponent(exponent)
                }
            },
        };
    }
    operands
}

/// A copy of a text with one to three bytes changed, left out, put in or doubled, or with its end cut off. The bytes put in
/// are telling ones, now and then a letter or any byte.
pub fn damaged(stream: &mut Stream, text: &[u8], telling: &[u8], letters: &[u8; 12]) -> Vec<u8> {
    let mut text = text.to_vec();
    for _ in 0..=stream.below(3) {
        let place = stream.below(text.len() as u32 + 1) as usize;
        let byte = match stream.below(8) {
            0 => stream.bits() as u8,
            1 => letters[stream.below(12) as usize],
            _ => telling[stream.below(telling.len() as u32) as usize],
        };
        match stream.below(5) {
            0 => text.insert(place, byte),
            1 if place < text.len() => text[place] = byte,
            2 if place < text.len() => {
                text.remove(place);
            }
            3 if place < text.len() => text.insert(place, text[place]),
            _ => text.truncate(place),
        }
    }
    text
}

/// Every combination of N of these values.
pub fn combinations<const N: usize>(values: &[u32], used: usize) -> impl Iterator<Item = [u32; N]> {
    (0..values.len().pow(used as u32)).map(move |mut number| {
        let mut operands = [0; N];
        for operand in &mut operands[..used] {
            *operand = values[number % values.len()];
            number /= values.len();
        }
        operands
    })
}
