//! Demand 3 on the compiled library, for splines and for resampled lines: nothing steps back. No Rust stands on the other
//! side; what each call must show is worked out here, in f32, from the definitions.

use crate::compare::Report;
use crate::morph;
use crate::query::{RISING, rising};
use crate::samples::Stream;
use crate::spline;
use animato_path::math::open::distance;
use kihavute::{Progress, resample, spline_flight, spline_table};

fn floats(patterns: &[u32]) -> Vec<f32> {
    patterns.iter().map(|bits| f32::from_bits(*bits)).collect()
}

// 2 to 12 points, now and then up to 40, and up to the most
fn points(stream: &mut Stream) -> usize {
    2 + match stream.below(4096) {
        0 => stream.below(4095),
        1..256 => stream.below(39),
        _ => stream.below(11),
    } as usize
}

/// Over so many random splines longer than 2^-23: as progress rises, neighbouring floats among them, the raw parameter that
/// `kihavute_spline_flight` answers never falls; it is +0 at 0 and 1 at 1, and the segment is always 0.
pub fn compare_splines(report: &mut Report, seed: u64, count: u64) {
    let mut stream = Stream::new(seed ^ 0x511);
    let (mut splines, mut pairs, mut still) = (0u64, 0u64, 0u64);
    let mut equal = true;
    while equal && splines < count {
        let (kind, _) = spline::KINDS[stream.below(spline::KINDS.len() as u32) as usize];
        let count = points(&mut stream);
        let numbers = floats(&spline::draw(kind, count, &mut stream));
        let mut table = vec![0.0; spline::count_of(numbers.len())];
        let Ok(entries) = spline_table(&numbers, &mut table) else { continue };
        if table[entries - 1] <= f32::EPSILON {
            continue;
        }
        let asked = |progress: Progress| {
            let flight = spline_flight(&numbers, &table[..entries], progress).ok()?;
            (flight.segment == Some(0)).then_some(flight.raw.value())
        };
        let progresses = rising(&mut stream);
        let raws: Option<Vec<f32>> = progresses.iter().map(|progress| asked(*progress)).collect();
        let back = raws.as_ref().map(|raws| raws.windows(2).position(|two| !(two[0] <= two[1])));
        let ends = raws.as_ref().is_some_and(|raws| raws[0].to_bits() == 0 && raws[RISING - 1] == 1.0);
        if back != Some(None) || !ends {
            println!("  STEPS BACK, or does not start at 0 or end at 1: points {numbers:?} at {back:?}");
            equal = false;
        }
        still += raws.map_or(0, |raws| raws.windows(2).filter(|two| two[0] == two[1]).count() as u64);
        splines += 1;
        pairs += RISING as u64 - 1;
        if splines % 50_000 == 0 {
            println!("  {splines} splines, {pairs} pairs, {:.0} s", report.seconds());
        }
    }
    println!("  order: {splines} splines, {pairs} pairs of rising progresses, {still} of them with the same raw parameter");
    report.count(pairs, equal);
}

// A line's running lengths, and for each output the point that it chose, from `chosenOf` of crates/resample_order: the ends are
// copied, each other output takes the first running length that is not below its target, or the last.
fn chosen(points: &[[f32; 2]], count: usize) -> (f32, Vec<usize>) {
    let mut lengths = vec![0.0f32];
    for pair in points.windows(2) {
        lengths.push(lengths[lengths.len() - 1] + distance(pair[0], pair[1]));
    }
    let last = points.len() - 1;
    let total = lengths[last];
    let pick = |i: usize| {
        let target = total * i as f32 / (count - 1) as f32;
        lengths.iter().position(|length| !(*length < target)).unwrap_or(last).min(last)
    };
    let each = |i: usize| match i {
        0 => 0,
        _ if i == count - 1 => last,
        _ => pick(i),
    };
    (total, (0..count).map(each).collect())
}

// whether a point lies between two others, to a few units in the last place of what is added there
fn between(p: [f32; 2], a: [f32; 2], b: [f32; 2]) -> bool {
    (0..2).all(|k| {
        let (low, high) = (f64::from(a[k].min(b[k])), f64::from(a[k].max(b[k])));
        let slack = 4.0 * f64::from(f32::EPSILON) * low.abs().max(high.abs()) + f64::from(f32::from_bits(1));
        (low - slack..=high + slack).contains(&f64::from(p[k]))
    })
}

/// Over so many random lines longer than 2^-23 with two or more points, resampled to two or more: the point that each output
/// chose never goes back, and the output lies on the leg that ends there.
pub fn compare_resampled(report: &mut Report, seed: u64, count: u64) {
    let mut stream = Stream::new(seed ^ 0x4E5);
    let (mut lines, mut outputs, mut infinite) = (0u64, 0u64, 0u64);
    let mut equal = true;
    while equal && lines < count {
        let (kind, _) = morph::KINDS[stream.below(morph::KINDS.len() as u32) as usize];
        let many = points(&mut stream);
        let mut numbers = floats(&morph::numbers(kind, many, &mut stream));
        // totals near the largest f32 and just above 2^-23
        match stream.below(8) {
            0 => numbers = scaled(&mut stream, 3.4e38),
            1 => numbers = scaled(&mut stream, 1.2e-7),
            _ => {}
        }
        let wanted = 2 + match stream.below(512) {
            0 => stream.below(4095),
            _ => stream.below(64),
        } as usize;
        let mut out = vec![0.0; 2 * wanted];
        if resample(&numbers, wanted, &mut out).is_err() {
            continue;
        }
        let points: Vec<[f32; 2]> = numbers.chunks_exact(2).map(|pair| [pair[0], pair[1]]).collect();
        let (total, chosen) = chosen(&points, wanted);
        if total <= f32::EPSILON {
            continue;
        }
        infinite += u64::from(!(total * (wanted - 2) as f32).is_finite());
        let rises = chosen.windows(2).all(|two| two[0] <= two[1]) && chosen[1..].iter().all(|k| *k >= 1);
        let at = |i: usize| [out[2 * i], out[2 * i + 1]];
        let same = |p: [f32; 2], q: [f32; 2]| p.map(f32::to_bits) == q.map(f32::to_bits);
        let ends = same(at(0), points[0]) && same(at(wanted - 1), points[points.len() - 1]);
        let lies = (1..wanted - 1).all(|i| between(at(i), points[chosen[i] - 1], points[chosen[i]]));
        if !rises || !ends || !lies {
            println!("  GOES BACK, or leaves its leg: {numbers:?} at {wanted}: rises {rises}, ends {ends}, lies {lies}");
            equal = false;
        }
        lines += 1;
        outputs += wanted as u64;
        if lines % 250_000 == 0 {
            println!("  {lines} lines, {outputs} outputs, {:.0} s", report.seconds());
        }
    }
    println!("  order: {lines} resampled lines, {outputs} outputs, {infinite} lines with an infinite target");
    report.count(outputs, equal);
}

// two points about so far apart, along either axis or askew
fn scaled(stream: &mut Stream, size: f32) -> Vec<f32> {
    let part = |stream: &mut Stream| size * (0.5 + stream.below(1 << 20) as f32 / 2_097_152.0);
    let [x, y] = [part(stream), part(stream) * stream.below(2) as f32];
    vec![0.0, 0.0, x, y]
}
