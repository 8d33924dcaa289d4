//! `round_to_pow2` at its ends.
use crate::PANIC;
use leapfrog::util::round_to_pow2;
use std::hint::black_box;
use std::panic::catch_unwind;

pub fn at_the_ends() -> Vec<String> {
    let ends = [("0", 0usize), ("2^63", 1 << 63), ("2^63+1", (1 << 63) + 1)];
    let rounded = |x: usize| catch_unwind(|| round_to_pow2(black_box(x)));
    let said = |x: usize| rounded(x).map_or_else(|_| PANIC.lock().unwrap().clone(), |n| n.to_string());
    ends.iter().map(|(name, x)| format!("round_to_pow2({name}): {}", said(*x))).collect()
}
