//! Requests as lines, asked of the Rust's public calls.
use crate::PANIC;
use leapfrog::hashmap::{Entry, HashMap};
use leapfrog::{FnvHasher, MurmurHasher, SimpleHasher};
use std::hash::{BuildHasherDefault, Hasher};
use std::panic::{catch_unwind, AssertUnwindSafe};

type Map<H> = HashMap<u64, u64, BuildHasherDefault<H>>;
const NULL: u64 = u64::MAX - 1;

/// What the Rust answers to each line, up to the first that panics. The first line is `table SIZE HASHER`.
pub fn answers(asks: &[&str]) -> Vec<String> {
    let first: Vec<&str> = asks[0].split(' ').collect();
    let size = first[1].parse().unwrap();
    match first[2] {
        "simple" => ask_all(Map::<SimpleHasher>::with_capacity_and_hasher(size, Default::default()), asks),
        "murmur" => ask_all(Map::<MurmurHasher>::with_capacity_and_hasher(size, Default::default()), asks),
        _ => ask_all(Map::<FnvHasher>::with_capacity_and_hasher(size, Default::default()), asks),
    }
}

fn ask_all<H: Hasher + Default>(mut map: Map<H>, asks: &[&str]) -> Vec<String> {
    let mut said = vec!["fresh".to_string()];
    for ask in &asks[1..] {
        match catch_unwind(AssertUnwindSafe(|| ask_one(&mut map, ask))) {
            Ok(answer) => said.push(answer),
            Err(_) => {
                said.push(PANIC.lock().unwrap().clone());
                break;
            }
        }
    }
    said
}

fn number(word: &str) -> u64 {
    match word.strip_prefix('-') {
        Some(digits) => digits.parse::<u64>().unwrap().wrapping_neg(),
        None if word == "null" => NULL,
        None => word.parse().unwrap(),
    }
}

pub fn shown(value: u64) -> String {
    match value {
        NULL => "null".to_string(),
        u64::MAX => "2^64-1".to_string(),
        value => value.to_string(),
    }
}

pub fn option(value: Option<u64>) -> String {
    value.map_or("None".to_string(), |value| format!("Some({})", shown(value)))
}

fn ask_one<H: Hasher + Default>(map: &mut Map<H>, ask: &str) -> String {
    let words: Vec<&str> = ask.split(' ').collect();
    let n = |i: usize| number(words[i]);
    match words[0] {
        "insert" => option(map.insert(n(1), n(2))),
        // keys from the first to the second, each its own value; the last answer
        "inserts" => option((n(1)..=n(2)).map(|key| map.insert(key, key)).last().unwrap()),
        "removes" => option((n(1)..=n(2)).map(|key| map.remove(&key)).last().unwrap()),
        "find" => option(map.get(&n(1)).copied()),
        "remove" => option(map.remove(&n(1))),
        "get_key_value" => match map.get_key_value(&n(1)) {
            Some((key, value)) => format!("Some({}, {})", shown(*key), shown(*value)),
            None => "None".to_string(),
        },
        "len" => shown(map.len() as u64),
        "is_empty" => map.is_empty().to_string(),
        "capacity" => map.capacity().to_string(),
        "hash" => map.hash_usize(&n(1)).to_string(),
        "entry_insert" => match map.entry(n(1)) {
            Entry::Occupied(_) => "Occupied".to_string(),
            Entry::Vacant(mut entry) => format!("Vacant, now {}", shown(*entry.insert(n(2)))),
        },
        _ => panic!("no such request: {ask}"),
    }
}
