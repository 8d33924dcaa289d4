//! The requests of a run, as scenes. Each starts with a fresh table.
use crate::form::*;
use crate::keys::*;
use crate::model::{Hasher, NULL};
use crate::served::hasher_number;

pub type Scene = Vec<Request>;

pub fn ask(kind: u64, args: &[u64]) -> Request {
    Request::new(kind, args)
}

pub fn table(size: u64, hasher: Hasher, digests: bool) -> Scene {
    vec![ask(DIGESTS, &[digests as u64]), ask(TABLE, &[size, hasher_number(hasher)])]
}

/// The worked examples of document 01 that concern a table of fixed size.
pub fn worked() -> Vec<Scene> {
    let simple = |size: u64, rest: &[Request]| [table(size, Hasher::Simple, true), rest.to_vec()].concat();
    let insert = |key: u64| ask(INSERT, &[key, 10 * (key % 100)]);
    let one = [8, 16, 24, 1].map(insert).to_vec();
    let full: Scene = (1..=9).map(insert).chain([insert(u64::MAX)]).collect();
    let many = |n: u64| (0..n).map(|j| insert(2 + 256 * j)).collect::<Scene>();
    vec![
        simple(8, &[one, vec![ask(FIND, &[1])]].concat()),
        simple(8, &full),
        simple(8, &[insert(u64::MAX), insert(u64::MAX - 8)]),
        simple(8, &[insert(5), ask(REMOVE, &[5]), insert(5)]),
        simple(8, &[insert(0), ask(INSERT, &[6, NULL]), ask(INSERT, &[6, u64::MAX]), ask(FIND, &[6])]),
        simple(256, &[vec![insert(1)], many(127), vec![insert(257)]].concat()),
        simple(256, &[vec![insert(1)], many(128), vec![insert(257)]].concat()),
    ]
}

/// All sequences of so many inserts, removes and finds of the keys, each after the keys laid before.
pub fn short(length: u32, before: &[u64], keys: &[u64]) -> Vec<Scene> {
    let letters = 3 * keys.len();
    let mut start = table(8, Hasher::Simple, true);
    start.extend(before.iter().map(|key| ask(INSERT, &[*key, *key])));
    let sequence = |number: usize| {
        let mut rest = number;
        let mut scene = start.clone();
        for step in 0..length as u64 {
            let key = keys[rest % letters / 3];
            scene.push(match rest % letters % 3 {
                0 => ask(INSERT, &[key, 100 + step]),
                1 => ask(REMOVE, &[key]),
                _ => ask(FIND, &[key]),
            });
            rest /= letters;
        }
        scene
    };
    (0..letters.pow(length)).map(sequence).collect()
}

/// One request of a user's: mostly inserts, finds and removes, now and then a small call or one that is refused.
fn everyday(random: &mut Random, hasher: Hasher, keys: &[u64]) -> Request {
    let key = random.pick(keys);
    match random.below(100) {
        0 => ask(INSERT, &[zero_hash(hasher), random.value()]),
        1 => ask(INSERT, &[key, NULL]),
        2 => ask(random.pick(&[FIND, REMOVE, CONTAINS_KEY, GET_KEY_VALUE]), &[zero_hash(hasher)]),
        3..=4 => ask(random.pick(&[LEN, IS_EMPTY, CAPACITY]), &[]),
        5..=7 => ask(random.pick(&[CONTAINS_KEY, GET_KEY_VALUE]), &[key]),
        8 => ask(HASH, &[key]),
        9..=28 => ask(FIND, &[key]),
        29..=48 => ask(REMOVE, &[key]),
        _ => ask(INSERT, &[key, random.value()]),
    }
}

/// Everyday requests over as many random keys as the table has cells, or half as many, or more.
pub fn life(random: &mut Random, size: u64, hasher: Hasher, steps: u64, digests: bool) -> Scene {
    let count = size * random.pick(&[2, 3, 4, 5, 6]) / 4;
    let keys: Vec<u64> = (0..count).map(|_| random_key(random)).collect();
    let mut scene = table(size, hasher, digests);
    scene.extend((0..steps).map(|_| everyday(random, hasher, &keys)));
    if !digests {
        scene.push(ask(DIGEST, &[]));
    }
    scene
}

/// A key of any kind: small, large, or with a pattern.
pub fn random_key(random: &mut Random) -> u64 {
    match random.below(4) {
        0 => 1 + random.below(100_000),
        1 => u64::MAX - random.below(100_000),
        2 => (1 + random.below(1000)) << random.below(54),
        _ => random.next(),
    }
}

/// Everyday requests over keys that have one, two or four homes between them.
pub fn crowd(random: &mut Random, size: u64, hasher: Hasher, steps: u64) -> Scene {
    let homes: Vec<u64> = (0..random.pick(&[1, 2, 4])).map(|_| random.below(size)).collect();
    let count = random.pick(&[4, 8, 16, size + 8]);
    let keys: Vec<u64> = (0..count)
        .map(|_| {
            let home = random.pick(&homes);
            with_home(random, hasher, size, home)
        })
        .collect();
    let mut scene = table(size, hasher, true);
    scene.extend((0..steps).map(|_| everyday(random, hasher, &keys)));
    scene
}

/// A run of taken cells about as long as the window, with a gap here and there, and keys of the home before it. Simple and
/// Murmur may start so close below 2^64 that positions wrap within the window.
pub fn window(random: &mut Random, size: u64, hasher: Hasher) -> Scene {
    let start = match random.below(2) {
        0 => (random.next() / size * size).wrapping_add(random.below(size)).max(1),
        _ => u64::MAX - random.below(140),
    };
    let gaps = random.pick(&[0, 1, 1, 2, 3]);
    let gaps: Vec<u64> = (0..gaps).map(|_| random.pick(&[1, 2, 126, 127, 128, 129])).collect();
    let mut scene = table(size, hasher, true);
    for i in (0..size.min(132)).filter(|i| !gaps.contains(i)) {
        let hash = start.wrapping_add(i);
        let key = with_hash(hasher, hash).unwrap_or_else(|| with_home(random, hasher, size, hash % size));
        scene.push(ask(INSERT, &[key, random.value()]));
    }
    for _ in 0..4 {
        let key = with_home(random, hasher, size, start % size);
        scene.push(ask(INSERT, &[key, random.value()]));
        scene.push(ask(FIND, &[key]));
    }
    scene
}

/// A number that a forged word may be: nothing, null, or a hash, key or value that is about.
fn forged_word(random: &mut Random, keys: &[u64]) -> u64 {
    match random.below(8) {
        0 | 1 => 0,
        2 => NULL,
        3 => u64::MAX,
        4 => random.next(),
        _ => random.pick(keys),
    }
}

fn forged_delta(random: &mut Random, size: u64) -> u64 {
    match random.below(8) {
        0..=2 => 0,
        3 => random.below(256),
        4 => random.pick(&[127, 128, 129, 255]),
        _ => random.below(size.min(256)),
    }
}

/// Spoils a word, a delta or the record.
pub fn spoil(random: &mut Random, size: u64, hasher: Hasher, keys: &[u64]) -> Request {
    match random.below(8) {
        0 => {
            let live = random.pick(&[0, 1, size - 1, size, size + 1, u64::MAX]);
            ask(RECORD, &[hasher_number(random.pick(&[hasher, hasher, Hasher::Murmur])), live])
        }
        1..=3 => ask(WORD, &[random.below(3 * size), forged_word(random, keys)]),
        _ => ask(DELTA, &[random.below(2 * size), forged_delta(random, size)]),
    }
}

/// A table made by calls, then spoilt again and again with calls between. Off the Rust's domain from the first spoiling on.
pub fn spoilt(random: &mut Random, size: u64, hasher: Hasher, steps: u64) -> Scene {
    let keys: Vec<u64> = (0..size).map(|_| {
        let home = random.below(size / 4);
        with_home(random, hasher, size, home)
    }).collect();
    let mut scene = table(size, hasher, true);
    for _ in 0..random.below(size + 1) {
        scene.push(ask(INSERT, &[random.pick(&keys), random.value()]));
    }
    for _ in 0..steps {
        scene.push(match random.below(4) {
            0 if random.one_in(3) => ask(CHECK, &[]),
            0 => spoil(random, size, hasher, &keys),
            1 if random.one_in(4) => bucket(random, size, &keys),
            _ => everyday(random, hasher, &keys),
        });
    }
    scene
}

/// Every word and every delta forged.
pub fn forged(random: &mut Random, size: u64, hasher: Hasher, steps: u64) -> Scene {
    let keys: Vec<u64> = (0..4).map(|_| {
        let home = random.below(2);
        with_home(random, hasher, size, home)
    }).collect();
    let mut scene = table(size, hasher, false);
    scene.extend((0..3 * size).map(|i| ask(WORD, &[i, forged_word(random, &keys)])));
    scene.extend((0..2 * size).map(|i| ask(DELTA, &[i, forged_delta(random, size)])));
    scene.push(ask(RECORD, &[hasher_number(hasher), random.below(size + 2)]));
    scene.push(ask(DIGESTS, &[1]));
    scene.push(ask(CHECK, &[]));
    scene.extend((0..steps).map(|_| everyday(random, hasher, &keys)));
    scene
}

/// A chain of the greatest length that still ends, or one link more, or a cycle: homes, then links of 1.
pub fn chain(size: u64, links: u64, key: u64) -> Scene {
    let mut scene = table(size, Hasher::Simple, true);
    scene.extend((0..size).map(|i| ask(WORD, &[3 * i, size + 1 + i])));
    scene.push(ask(DELTA, &[0, 1]));
    for i in 1..links.min(size) {
        scene.push(ask(DELTA, &[8 * (i / 4) + i % 4 + 4, 1]));
    }
    for live in [0, size] {
        scene.push(ask(RECORD, &[1, live]));
        scene.extend([CHECK, FIND, REMOVE, CONTAINS_KEY, GET_KEY_VALUE].map(|kind| ask(kind, &[key])));
        scene.push(ask(INSERT, &[key, 7]));
    }
    scene
}

/// A request that takes a bucket out, or puts one back.
fn bucket(random: &mut Random, size: u64, keys: &[u64]) -> Request {
    let mut place = || match random.below(6) {
        0 => size / 4,
        1 => u64::MAX - 7,
        _ => random.below(size / 4),
    };
    let (b, c) = (place(), place());
    match random.below(4) {
        0 => ask(TAKE, &[b]),
        1 => ask(COPY, &[b, c]),
        2 => ask(CELL, &[b, random.below(6)]),
        _ => ask(CHANGE, &[b, random.below(6), random.pick(keys), random.value()]),
    }
}

/// Every call on slices of these lengths and a record with that live count.
pub fn lengths(words: u64, deltas: u64, live: u64, hasher: Hasher) -> Scene {
    let mut scene = table(16, hasher, false);
    scene.push(ask(INSERT, &[21, 5]));
    scene.push(ask(LEND, &[words, deltas]));
    scene.push(ask(RECORD, &[hasher_number(hasher), live]));
    scene.push(ask(DIGESTS, &[(words < 1000) as u64]));
    for kind in [FIND, REMOVE, INSERT, CONTAINS_KEY, GET_KEY_VALUE, LEN, IS_EMPTY, CAPACITY, HASH, CHECK, TAKE, CELL, COPY, CHANGE, CLEAR] {
        let zero = zero_hash(hasher);
        scene.extend([[21, 6], [zero, 6], [21, NULL], [zero, NULL], [0, 0], [1, 3]].map(|args| ask(kind, &args)));
    }
    scene.push(ask(DIGEST, &[]));
    scene
}

/// Lengths that no table has, and some that one has.
pub fn all_lengths() -> Vec<Scene> {
    let mut scenes = Vec::new();
    for (words, deltas) in [(0, 0), (3, 2), (12, 8), (23, 16), (24, 15), (24, 16), (24, 17), (25, 16), (48, 16), (24, 32), (36, 24), (48, 32),
        (72, 48), (27, 18), (300, 200), (384, 256), (196_608, 131_072), (196_608, 131_071), (393_216, 262_144), (196_611, 131_074)] {
        for live in [0, 8, 9, deltas / 2, deltas / 2 + 1, u64::MAX] {
            scenes.push(lengths(words, deltas, live, HASHERS[scenes.len() % 3]));
        }
    }
    scenes
}
