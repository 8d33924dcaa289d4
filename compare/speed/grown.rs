//! The Rust's insert from 8 cells on, in a crate of its own: a second call site would change what the compiler inlines.
use leapfrog::{HashMap, MurmurHasher};
use std::hash::BuildHasherDefault;

pub type Map = HashMap<u64, u64, BuildHasherDefault<MurmurHasher>>;

#[inline(never)]
pub fn grow(keys: &[u64]) -> u64 {
    let mut map = Map::with_capacity_and_hasher(8, Default::default());
    let mut sum = 0u64;
    for key in keys {
        sum = sum.wrapping_add(map.insert(*key, *key >> 1).unwrap_or(0));
    }
    sum.wrapping_add((map.capacity() + map.len()) as u64)
}
