//! The Rust's calls in loops, each with one call site in this crate, so that the compiler may inline it as it does for a user.
use leapfrog::{HashMap, MurmurHasher};
use std::hash::BuildHasherDefault;

pub type Map = HashMap<u64, u64, BuildHasherDefault<MurmurHasher>>;

#[inline(never)]
pub fn find(map: &Map, keys: &[u64]) -> u64 {
    let mut sum = 0u64;
    for key in keys {
        sum = sum.wrapping_add(map.get(key).copied().unwrap_or(0));
    }
    sum
}

#[inline(never)]
pub fn insert(map: &mut Map, keys: &[u64]) -> u64 {
    let mut sum = 0u64;
    for key in keys {
        sum = sum.wrapping_add(map.insert(*key, *key >> 1).unwrap_or(0));
    }
    sum.wrapping_add(map.len() as u64)
}

#[inline(never)]
pub fn remove(map: &mut Map, keys: &[u64]) -> u64 {
    let mut sum = 0u64;
    for key in keys {
        sum = sum.wrapping_add(map.remove(key).unwrap_or(1));
    }
    sum.wrapping_add(map.len() as u64)
}
