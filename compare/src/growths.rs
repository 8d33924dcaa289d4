//! Scenes of moves and of growing tables.
use crate::form::*;
use crate::keys::*;
use crate::model::{Hasher, NULL};
use crate::scenes::{ask, random_key, table, Scene};
use crate::served::hasher_number;

/// A fresh growing table.
fn halves(cells: u64, size: u64, hasher: Hasher, digests: bool) -> Scene {
    vec![ask(DIGESTS, &[digests as u64]), ask(HALVES, &[cells, size, hasher_number(hasher)])]
}

fn grow(random: &mut Random, key: u64) -> Request {
    ask(GROW, &[key, random.value()])
}

/// The worked examples that concern growth: 8's second sentence, and 11.
pub fn worked() -> Vec<Scene> {
    let grow = |key: u64| ask(GROW, &[key, 10 * (key % 100)]);
    let remove = |key: u64| ask(GROW_REMOVE, &[key]);
    let live = |n: u64| -> Scene {
        let mut scene = halves(8, 8, Hasher::Simple, true);
        scene.extend((1..=8).map(grow));
        scene.extend((n + 1..=8).map(remove));
        scene.extend([grow(9), ask(PARTS, &[]), ask(GROW_CHECK, &[])]);
        scene
    };
    let mut eleven = halves(65_536, 256, Hasher::Simple, false);
    eleven.push(grow(1));
    eleven.extend((0..128).map(|j| grow(2 + (j << 32))));
    eleven.extend([grow(1 + (1 << 32)), ask(PARTS, &[]), ask(GROW_CHECK, &[]), ask(GROW_FIND, &[2 + (127 << 32)]), ask(DIGEST, &[])]);
    let scenes = [live(0), live(4), live(5), live(8), eleven];
    scenes.to_vec()
}

/// A table of 256 cells that no table of twice the cells or more takes in index order: the last cell's key finds its home taken by
/// one that came round, and the window behind it full. As a plain move into `to` cells, and as growth with so many in each half.
pub fn wrapped(to: u64) -> Vec<Scene> {
    let keys = || [255, 255 + (1 << 32)].into_iter().chain((0..128).map(|j| 256 + (j << 32)));
    let mut plain = table(256, Hasher::Simple, false);
    plain.extend(keys().map(|key| ask(INSERT, &[key, key >> 32])));
    plain.extend([ask(SPARE, &[3 * to, 2 * to]), ask(MOVE, &[]), ask(FIND, &[255]), ask(CHECK, &[]), ask(DIGEST, &[])]);
    let mut grown = halves(to, 256, Hasher::Simple, false);
    grown.extend(keys().map(|key| ask(GROW, &[key, key >> 32])));
    grown.extend([ask(GROW, &[255 + (2 << 32), 1]), ask(GROW_FIND, &[255]), ask(GROW_CHECK, &[]), ask(DIGEST, &[])]);
    vec![plain, grown]
}

/// What a move has to clear, and what it must not take over: words and deltas past the table in both halves of a growing one;
/// in plain moves a value under hash 0, and a key that two cells hold, neither counted in live.
pub fn forged() -> Vec<Scene> {
    let mut past = halves(16, 8, Hasher::Simple, true);
    past.extend((1..=8).map(|key| ask(GROW, &[key, key])));
    past.extend((1..=4).map(|key| ask(GROW_REMOVE, &[key])));
    past.extend([ask(WORD, &[36, 55]), ask(DELTA, &[24, 5]), ask(SPARE_WORD, &[37, 77]), ask(SPARE_DELTA, &[25, 3]), ask(GROW, &[9, 9])]);
    let mut plain = table(8, Hasher::Simple, true);
    plain.extend([ask(INSERT, &[1, 10]), ask(INSERT, &[2, 20]), ask(SPARE, &[48, 32])]);
    plain.extend([ask(WORD, &[17, 7]), ask(MOVE, &[]), ask(WORD, &[15, 1]), ask(WORD, &[16, 1]), ask(MOVE, &[])]);
    vec![past, plain]
}

/// A run of 129 taken cells from `from` on in a table of `size` cells, of which `live` of the last 64 stay live: the next key of
/// its first home is Full, and the sample counts so many.
fn crowded(random: &mut Random, from: u64, live: u64) -> Scene {
    let keys: Vec<u64> = (0..129).map(|i| from + i + (random.below(1000) << 32)).collect();
    let mut scene: Scene = keys.iter().map(|key| grow(random, *key)).collect();
    scene.extend(keys[..129 - live as usize].iter().map(|key| ask(GROW_REMOVE, &[*key])));
    scene.push(grow(random, from + (1000 << 32)));
    scene
}

/// Samples that decide between two first sizes, under Simple. Of the 64 cells 17 are live, the first and the last among them: the
/// table keeps its size, and with 16 it would not. Then of the next 64 none is live, while 41 keys are: the first size is 8, and the
/// fourth try goes through.
pub fn sampled(random: &mut Random) -> Scene {
    let (from, high) = (1 + random.below(10), 1 << 32);
    let remove = |i: u64| ask(GROW_REMOVE, &[from + i]);
    let mut scene = halves(512, 256, Hasher::Simple, false);
    scene.extend((0..129).map(|i| grow(random, from + i)));
    scene.extend((0..113).filter(|i| *i != 65).map(remove));
    scene.push(grow(random, from + high));
    scene.extend((129..242).map(|i| grow(random, from + i)));
    scene.extend((152..242).map(remove));
    scene.push(grow(random, from + 113 + high));
    scene.extend([ask(GROW_FIND, &[from + 151]), ask(PARTS, &[]), ask(GROW_CHECK, &[]), ask(DIGEST, &[])]);
    scene
}

/// Growth whose first try is smaller than the table and Full, under Simple: the keys of a run and one more, whose homes are apart
/// at 4T cells and at 2T, have their homes together at T.
pub fn full_below(random: &mut Random, to: u64, cells: u64) -> Scene {
    let from = random.below(to / 2 - 128);
    let mut scene = halves(cells, 4 * to, Hasher::Simple, false);
    scene.extend((0..129).map(|i| grow(random, from + i)));
    scene.push(grow(random, from + 3 * to));
    let live = 5 + random.below(4);
    scene.extend(crowded(random, from + 2 * to + 140, live));
    scene.extend([ask(GROW_FIND, &[from + 3 * to]), ask(PARTS, &[]), ask(GROW_CHECK, &[]), ask(DIGEST, &[])]);
    scene
}

/// Growth whose first try has the table's own size and is Full, under Simple: a removed key leaves a gap in a run, which in index
/// order the key that had been pushed out of it takes, so that the last key of the run's first home finds no cell. `apart`: that
/// key has another home at twice the size; else only NoRoom ends it.
pub fn full_again(random: &mut Random, size: u64, cells: u64, apart: bool) -> Scene {
    let from = random.below(size / 8);
    let (gap, high) = (from + 100, 1 << 32);
    let last = if apart { from + size + high } else { from + high };
    let mut scene = halves(cells, size, Hasher::Simple, false);
    scene.extend((0..100).map(|i| grow(random, from + i)));
    scene.push(grow(random, from + 2 * high));
    scene.extend((101..129).map(|i| grow(random, from + i)));
    scene.extend([grow(random, gap + high), grow(random, last), ask(GROW_REMOVE, &[from + 2 * high])]);
    let live = 17 + random.below(16);
    scene.extend(crowded(random, from + size / 2, live));
    scene.extend([ask(GROW_FIND, &[last]), ask(PARTS, &[]), ask(GROW_CHECK, &[]), ask(DIGEST, &[])]);
    scene
}

/// One request of a user's on a growing table.
fn everyday(random: &mut Random, hasher: Hasher, keys: &[u64]) -> Request {
    let key = random.pick(keys);
    match random.below(100) {
        0 => ask(GROW, &[zero_hash(hasher), random.value()]),
        1 => ask(GROW, &[key, NULL]),
        2 => ask(random.pick(&[GROW_FIND, GROW_REMOVE]), &[zero_hash(hasher)]),
        3 => ask(PARTS, &[]),
        4..=14 => ask(GROW_FIND, &[key]),
        15..=34 => ask(GROW_REMOVE, &[key]),
        _ => grow(random, key),
    }
}

/// Everyday requests over so many keys: from the least size on, or any other up to C.
pub fn life(random: &mut Random, cells: u64, hasher: Hasher, digests: bool) -> Scene {
    let size = if random.one_in(3) { 8 << random.below(cells.ilog2() as u64 - 2) } else { 8 };
    // a large table that is crowded tries again at every insert, and takes long
    let share = if digests { random.pick(&[1, 2, 3, 4, 6]) } else { random.pick(&[1, 2]) };
    let count = (cells * share / 4).max(4);
    let keys: Vec<u64> = (0..count).map(|_| random_key(random)).collect();
    let mut scene = halves(cells, size, hasher, digests);
    scene.extend((0..2 * count + 20).map(|_| everyday(random, hasher, &keys)));
    scene.extend([ask(GROW_CHECK, &[]), ask(DIGEST, &[])]);
    scene
}

/// Keys come and go: at each time a few are live, so that a table full of removed keys keeps its size or takes a smaller one.
pub fn passing(random: &mut Random, cells: u64, hasher: Hasher, digests: bool) -> Scene {
    let size = 8 << random.below(cells.ilog2() as u64 - 2);
    let stay = random.pick(&[0, 1, 2, size / 8, size / 4, size / 2]).min(200);
    let mut scene = halves(cells, size, hasher, digests);
    let mut live: Vec<u64> = Vec::new();
    for _ in 0..(3 * size).clamp(40, 3000) {
        let key = random_key(random);
        scene.push(grow(random, key));
        live.push(key);
        while live.len() as u64 > stay {
            let i = random.below(live.len() as u64) as usize;
            scene.push(ask(GROW_REMOVE, &[live.swap_remove(i)]));
        }
        if random.one_in(20) {
            scene.push(grow(random, key));
        }
    }
    scene.extend([ask(GROW_CHECK, &[]), ask(DIGEST, &[])]);
    scene
}

/// Keys of one or two homes, whatever the size: growth does not part them, and ends in NoRoom.
pub fn collisions(random: &mut Random, cells: u64, hasher: Hasher, digests: bool) -> Scene {
    let size = 8 << random.below(cells.ilog2() as u64 - 2);
    let homes: Vec<u64> = (0..random.pick(&[1, 2])).map(|_| random.below(cells)).collect();
    let mut scene = halves(cells, size, hasher, digests);
    let mut keys = Vec::new();
    for _ in 0..(cells + 8).min(150) {
        let home = random.pick(&homes);
        let key = with_home(random, hasher, cells, home);
        keys.push(key);
        scene.push(grow(random, key));
        if random.one_in(6) {
            scene.push(ask(random.pick(&[GROW_REMOVE, GROW_FIND]), &[random.pick(&keys)]));
        }
    }
    scene.extend([ask(GROW_CHECK, &[]), ask(DIGEST, &[])]);
    scene
}

/// Two runs of cells, as in example 11: what does not fit the window at one size does not at the next.
pub fn runs(random: &mut Random, cells: u64, digests: bool) -> Scene {
    let hasher = random.pick(&[Hasher::Simple, Hasher::Murmur]);
    let size = cells.min(64 << random.below(6));
    let start = 1 + random.below(1 << 30);
    let key = |hash: u64| with_hash(hasher, hash).unwrap();
    let mut scene = halves(cells, size, hasher, digests);
    scene.push(grow(random, key(start)));
    for j in 0..128 {
        scene.push(grow(random, key(start + 1 + (j << 32))));
    }
    for j in 1..=random.below(4) + 1 {
        scene.push(grow(random, key(start + (j << 32))));
        scene.push(ask(GROW_FIND, &[key(start + 1 + (j << 32))]));
    }
    scene.extend([ask(GROW_CHECK, &[]), ask(DIGEST, &[])]);
    scene
}

/// A number that a word of a spoilt table may be.
fn word(random: &mut Random, keys: &[u64]) -> u64 {
    match random.below(6) {
        0 => 0,
        1 => NULL,
        2 => random.next(),
        _ => random.pick(keys),
    }
}

/// Spoils a word or a delta of either half, or the record.
fn spoil(random: &mut Random, cells: u64, size: u64, hasher: Hasher, keys: &[u64]) -> Request {
    let near = if random.one_in(3) { cells } else { size };
    let delta = random.pick(&[0, 0, 1, 2, 3, 7, 127, 128, 255]);
    match random.below(10) {
        0 => {
            let live = random.pick(&[0, 1, size - 1, size, size + 1, u64::MAX]);
            ask(RECORD, &[hasher_number(random.pick(&[hasher, Hasher::Murmur])), live])
        }
        1 => ask(IN_USE, &[random.pick(&[0, 4, 8, 12, size, size / 2, 2 * size, cells, 2 * cells, u64::MAX]), random.below(2)]),
        2..=4 => ask(WORD, &[random.below(3 * near), word(random, keys)]),
        5 => ask(SPARE_WORD, &[random.below(3 * near), word(random, keys)]),
        6..=8 => ask(DELTA, &[random.below(2 * near), delta]),
        _ => ask(SPARE_DELTA, &[random.below(2 * near), delta]),
    }
}

/// A growing table made by calls, then spoilt again and again with calls between.
pub fn spoilt(random: &mut Random, cells: u64, hasher: Hasher, steps: u64) -> Scene {
    let size = 8 << random.below(cells.ilog2() as u64 - 2);
    let keys: Vec<u64> = (0..size + 4).map(|_| {
        let home = random.below(size);
        with_home(random, hasher, size, home)
    }).collect();
    let mut scene = halves(cells, size, hasher, true);
    for _ in 0..random.below(2 * size) {
        let key = random.pick(&keys);
        scene.push(grow(random, key));
    }
    for _ in 0..steps {
        scene.push(match random.below(6) {
            0 => spoil(random, cells, size, hasher, &keys),
            1 if random.one_in(3) => ask(random.pick(&[PARTS, GROW_CHECK]), &[]),
            1 if random.one_in(4) => ask(random.pick(&[MOVE, MOVE_BACK]), &[]),
            _ => everyday(random, hasher, &keys),
        });
    }
    scene
}

/// A full table with something wrong that only a move meets: a value under hash 0, a cell twice, a live count that is not theirs.
/// Then one insert more.
pub fn broken(random: &mut Random, cells: u64, hasher: Hasher) -> Scene {
    let size = (8 << random.below(4)).min(cells);
    let mut scene = halves(cells, size, hasher, true);
    let half = random.below(2);
    let (in_word, in_delta) = if half == 0 { (WORD, DELTA) } else { (SPARE_WORD, SPARE_DELTA) };
    let keys: Vec<u64> = (0..size).map(|i| with_home(random, hasher, size, i)).collect();
    let mut live = 0;
    for (i, key) in keys.iter().enumerate() {
        let removed = random.one_in(4);
        live += !removed as u64;
        let value = if removed { NULL } else { random.value() };
        scene.extend([(0, crate::model::hash_of(hasher, *key)), (1, *key), (2, value)].map(|(j, x)| ask(in_word, &[3 * i as u64 + j, x])));
    }
    scene.push(ask(IN_USE, &[size, half]));
    let (i, j) = (random.below(size), random.below(size));
    let wrong = random.below(6);
    match wrong {
        // a value under hash 0 is no taken cell, so the insert must not come upon it
        0 => scene.push(ask(in_word, &[3 * i, 0])),
        1 => scene.extend((0..2).map(|n| ask(in_word, &[3 * i + n, if n == 0 { crate::model::hash_of(hasher, keys[j as usize]) } else { keys[j as usize] }]))),
        2 => live = live.wrapping_add(random.pick(&[1, u64::MAX])),
        3 => scene.push(ask(in_word, &[3 * i, random.next()])),
        4 => scene.push(ask(in_delta, &[random.below(2 * size), random.below(size)])),
        _ => (),
    }
    scene.push(ask(RECORD, &[hasher_number(hasher), live]));
    // what stands in the spare half is cleared by a try alone
    scene.push(ask(if half == 0 { SPARE_WORD } else { WORD }, &[random.below(3 * cells), 77]));
    let home = random.below(size);
    let more = with_home(random, hasher, size, home);
    let at = |key: u64| grow_five(key);
    scene.extend([ask(GROW_CHECK, &[]), at(more), ask(PARTS, &[]), ask(GROW_FIND, &[keys[i as usize]]), at(more), at(keys[j as usize]), ask(GROW_REMOVE, &[more])]);
    scene
}

fn grow_five(key: u64) -> Request {
    ask(GROW, &[key, 5])
}

/// Every call on halves of these lengths, with a record of that size and live count.
pub fn lengths(lent: (u64, u64), spare: (u64, u64), size: u64, live: u64, half: u64) -> Scene {
    let mut scene = halves(16, 8, Hasher::Simple, false);
    scene.extend([ask(GROW, &[21, 5]), ask(LEND, &[lent.0, lent.1]), ask(SPARE, &[spare.0, spare.1])]);
    scene.extend([ask(RECORD, &[1, live]), ask(IN_USE, &[size, half]), ask(DIGESTS, &[(lent.0.max(spare.0) < 1000) as u64])]);
    for kind in [GROW_FIND, GROW_REMOVE, PARTS, GROW_CHECK, GROW, MOVE, MOVE_BACK] {
        scene.extend([[21, 6], [0, 6], [21, NULL], [0, NULL]].map(|args| ask(kind, &args)));
    }
    scene.extend([ask(CLEAR_HALVES, &[size, 2]), ask(GROW, &[21, 6]), ask(CLEAR_HALVES, &[size, 0]), ask(CLEAR_HALVES, &[8, 1])]);
    scene.extend([ask(HALVES, &[size, 8, 1]), ask(HALVES, &[16, size, 1]), ask(DIGEST, &[])]);
    scene
}

pub fn all_lengths() -> Vec<Scene> {
    let good = [(0, 0), (12, 8), (24, 16), (48, 32), (196_608, 131_072)];
    let bad = [(23, 16), (24, 15), (25, 16), (24, 17), (36, 24), (72, 48), (48, 16), (24, 32), (300, 200), (393_216, 262_144)];
    let mut pairs: Vec<_> = good.iter().chain(&bad).map(|l| (*l, *l)).collect();
    pairs.extend(bad.iter().flat_map(|l| [(*l, (24, 16)), ((24, 16), *l)]));
    pairs.extend([((24, 16), (48, 32)), ((48, 32), (24, 16)), ((48, 16), (48, 32)), ((48, 32), (24, 32))]);
    let mut scenes = Vec::new();
    for (lent, spare) in pairs {
        for (size, live) in [(8, 0), (8, 8), (8, 9), (16, 0), (16, 17), (0, 0), (4, 0), (12, 0), (32, 0), (65_536, 0), (131_072, 0), (u64::MAX, 0), (8, u64::MAX)] {
            scenes.push(lengths(lent, spare, size, live, scenes.len() as u64 % 2));
        }
    }
    scenes
}

/// A table of one of the `sizes` least sizes, moved to sizes above and below, there and back. With `spoils` it is spoilt before each
/// move.
pub fn moves(random: &mut Random, hasher: Hasher, sizes: u64, spoils: bool) -> Scene {
    let size = 8 << random.below(sizes);
    let count = random.pick(&[size / 4, size / 2, 3 * size / 4, size]);
    let keys: Vec<u64> = (0..count + 1).map(|_| random_key(random)).collect();
    let mut scene = table(size, hasher, true);
    for key in &keys[1..] {
        scene.push(ask(INSERT, &[*key, random.value()]));
        if random.one_in(6) {
            scene.push(ask(REMOVE, &[random.pick(&keys)]));
        }
    }
    for _ in 0..5 {
        if spoils {
            scene.push(match spoil(random, size, size, hasher, &keys) {
                Request { kind: IN_USE, .. } => ask(RECORD, &[hasher_number(hasher), random.below(size + 2)]),
                request => request,
            });
        }
        let to: u64 = 8 << random.below(sizes + 2);
        let lengths = if random.one_in(12) { [3 * to + 1, 2 * to] } else { [3 * to, 2 * to] };
        scene.extend([ask(SPARE, &lengths), ask(SPARE_WORD, &[random.below(3 * to), 99]), ask(MOVE, &[])]);
        let key = random.pick(&keys);
        scene.extend([ask(FIND, &[key]), ask(INSERT, &[key, random.value()])]);
    }
    let back: u64 = 8 << random.below(sizes + 2);
    scene.extend([ask(MOVE, &[]), ask(LEND, &[3 * back, 2 * back]), ask(MOVE_BACK, &[]), ask(CHECK, &[])]);
    scene.extend(keys.iter().take(20).map(|key| ask(FIND, &[*key])));
    scene
}
