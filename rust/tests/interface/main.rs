//! The wrapper through its public interface alone: a module for each one of src/.

mod building;
mod checks;
mod curves;
mod listings;
mod lookup;
mod numbers;
mod paths;
mod refusals;
mod runs;
mod seasons;
mod segments;
mod shapes;
mod splines;
mod texts;

use kihavute::{Bits, Refusal};

const NAN: Bits = 0x7FC0_0000;

fn bits(point: [f32; 2]) -> [Bits; 2] {
    point.map(f32::to_bits)
}

// what a call gives: only a call makes a refusal, so one is held to its number and to all that it carries
type Told<A> = Result<A, (u32, [u64; 8])>;

fn told<A>(given: Result<A, Refusal>) -> Told<A> {
    given.map_err(|refusal| (refusal.number(), refusal.carried()))
}

// a refusal of this number that carries these values, zeros after them
fn refused<A>(number: u32, carried: &[u64]) -> Told<A> {
    let mut all = [0; 8];
    all[..carried.len()].copy_from_slice(carried);
    Err((number, all))
}
