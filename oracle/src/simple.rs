//! Simpler floats, with which a failing input is made small.

// floats from the simplest on
const SIMPLE: [u32; 12] = [
    0x0000_0000,
    0x3F80_0000,
    0x4000_0000,
    0x3F00_0000,
    0x4040_0000,
    0xBF80_0000,
    0x8000_0000,
    0x7F80_0000,
    0x7FC0_0000,
    0x3400_0000,
    0x0080_0000,
    0x0000_0001,
];

/// How hard a float is to read: by its place among the simple ones, else by its digits, size and sign.
pub fn effort(bits: u32) -> u32 {
    let place = SIMPLE.iter().position(|simple| *simple == bits);
    place.map_or(32 + 512 * significant(bits) + (bits >> 23 & 0xFF).abs_diff(127) * 2 + (bits >> 31), |place| {
        place as u32
    })
}

// how many leading digits of the fraction are in use
fn significant(bits: u32) -> u32 {
    let fraction = bits & 0x7F_FFFF;
    if fraction == 0 { 0 } else { 23 - fraction.trailing_zeros() }
}

/// Floats that are easier to read.
pub fn simpler_floats(bits: u32) -> impl Iterator<Item = u32> {
    let shorter = (0..23).map(move |kept| bits & !((1u32 << (23 - kept)) - 1));
    let exponent = bits >> 23 & 0xFF;
    let nearer = [64, 16, 4, 1].into_iter().filter_map(move |step: u32| {
        let away = exponent.abs_diff(127);
        let moved = if exponent > 127 { exponent.checked_sub(step)? } else { exponent + step };
        (moved.abs_diff(127) < away).then_some(bits & 0x807F_FFFF | moved << 23)
    });
    let unsigned = bits & 0x7FFF_FFFF;
    SIMPLE.into_iter().chain([unsigned]).chain(shorter).chain(nearer).filter(move |other| effort(*other) < effort(bits))
}
