//! Every one of the 2^32 patterns: the proved root against the machine's.

use crate::compare::Report;

/// Compares all patterns, in 16 parts.
pub fn compare(report: &mut Report) {
    for part in 0..16u32 {
        let first = part << 28;
        let different = (first..=first | 0x0FFF_FFFF).filter(|bits| ours(*bits) != machine(*bits));
        let (count, least) = different.fold((0u32, None), |(count, least), bits| (count + 1, least.or(Some(bits))));
        if let Some(bits) = least {
            println!("  DIFFERENT at {count} patterns, the first {bits:08X}");
            println!("    ours {:08X}, the machine {:08X}", ours(bits), machine(bits));
        }
        report.count(1 << 28, count == 0);
        println!("  {:2} of 16 parts of 2^28 patterns, {:.0} s", part + 1, report.seconds());
    }
}

fn ours(bits: u32) -> u32 {
    kihavute::sqrt(f32::from_bits(bits)).to_bits()
}

fn machine(bits: u32) -> u32 {
    let root = f32::from_bits(bits).sqrt();
    if root.is_nan() { 0x7FC0_0000 } else { root.to_bits() }
}
