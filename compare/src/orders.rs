//! Demand 3: a list of inserts and removes and the same requests in another order, the order per key kept. Both are run from
//! one table, and the answers themselves are held to the claim.
use crate::form::*;
use crate::keys::*;
use crate::model::{hash_of, Hasher, NULL};
use crate::scenes::{ask, random_key, table, Scene};
use std::collections::{BTreeMap, BTreeSet};

/// A list, a reordering of it, and the table that both start from.
pub struct Pair {
    size: u64,
    hasher: Hasher,
    /// The calls that make the table.
    start: Scene,
    list: Scene,
    /// Request i of the list is number place[i] of the reordered one.
    place: Vec<usize>,
    /// What is looked up at both ends.
    lookups: Scene,
}

// ---- making pairs

/// A request of a list: mostly inserts and removes, some of them refused under 2 or 3.
fn listed(random: &mut Random, hasher: Hasher, keys: &[u64]) -> Request {
    let key = random.pick(keys);
    match random.below(40) {
        0 => ask(INSERT, &[zero_hash(hasher), random.value()]),
        1 => ask(REMOVE, &[zero_hash(hasher)]),
        2 | 3 => ask(INSERT, &[key, NULL]),
        4..=17 => ask(REMOVE, &[key]),
        _ => ask(INSERT, &[key, random.value()]),
    }
}

/// Keys for a list: as many as there are cells, or somewhat fewer or more; random ones, or of few homes.
fn pool(random: &mut Random, size: u64, hasher: Hasher) -> Vec<u64> {
    let count = random.pick(&[size / 2, 3 * size / 4, size - 1, size, size, size + 1, size + 2, size + size / 4]);
    let homes: Vec<u64> = (0..random.pick(&[1, 2, size / 4])).map(|_| random.below(size)).collect();
    let scattered = random.below(3) > 0;
    let mut keys = BTreeSet::new();
    while (keys.len() as u64) < count {
        let home = random.pick(&homes);
        keys.insert(if scattered { random_key(random) } else { with_home(random, hasher, size, home) });
    }
    keys.into_iter().collect()
}

/// Keys of one home and many of the next: whether the first find room within the window depends on how many came before.
fn neighbours(random: &mut Random, size: u64, hasher: Hasher) -> Vec<u64> {
    let home = random.below(size);
    let mut keys: BTreeSet<u64> = (0..2 + random.below(3)).map(|_| with_home(random, hasher, size, home)).collect();
    let most = 130 + random.below(110);
    while (keys.len() as u64) < most {
        keys.insert(with_home(random, hasher, size, (home + 1) % size));
    }
    keys.into_iter().collect()
}

/// Calls on a fresh table, so that the list meets live and removed cells and empty ones.
fn start(random: &mut Random, size: u64, hasher: Hasher, keys: &[u64]) -> Scene {
    let some = &keys[..random.below(keys.len() as u64 + 1) as usize];
    let others: Vec<u64> = (0..random.below(size / 4 + 1)).map(|_| random_key(random)).collect();
    let keys = [some, &others].concat();
    if keys.is_empty() {
        return Scene::new();
    }
    (0..random.below(size + 1)).map(|_| listed(random, hasher, &keys)).collect()
}

pub fn pair(random: &mut Random, size: u64, hasher: Hasher) -> Pair {
    let near = size > 128 && random.one_in(3);
    let mut keys = if near { neighbours(random, size, hasher) } else { pool(random, size, hasher) };
    shuffle(random, &mut keys);
    let start = if near && random.one_in(2) { Scene::new() } else { start(random, size, hasher, &keys) };
    let mut list: Scene = (0..random.below(size + 1)).map(|_| listed(random, hasher, &keys)).collect();
    if near || random.one_in(2) {
        // each key once more, so that as many cells are wanted as there are keys
        list.extend(keys.iter().map(|key| ask(INSERT, &[*key, random.value()])));
        shuffle(random, &mut list);
    }
    let place = reordering(random, &list);
    let lookups = lookups(random, hasher, &[&start[..], &list].concat());
    Pair { size, hasher, start, list, place, lookups }
}

/// Worked example 10 of document 01, where the last key is Full; reordered it comes second and is New.
pub fn one_full() -> Pair {
    let keys: Vec<u64> = [vec![1], (0..128).map(|j| 2 + 256 * j).collect(), vec![257]].concat();
    let list: Scene = keys.iter().map(|key| ask(INSERT, &[*key, 10 * (*key % 100)])).collect();
    let last = list.len() - 1;
    let place = (0..=last).map(|i| if i == 0 { 0 } else if i == last { 1 } else { i + 1 }).collect();
    let lookups = [1, 257, 2, 2 + 256 * 127, 3].map(|key| ask(FIND, &[key])).to_vec();
    Pair { size: 256, hasher: Hasher::Simple, start: Scene::new(), list, place, lookups }
}

/// Every key of the start and of the list, that whose hash is 0, and some of neither.
fn lookups(random: &mut Random, hasher: Hasher, requests: &[Request]) -> Scene {
    let mut keys: BTreeSet<u64> = requests.iter().map(|request| request.args[0]).collect();
    keys.insert(zero_hash(hasher));
    keys.extend((0..8).map(|_| random_key(random)));
    let ways = |key: &u64| match random.below(8) {
        0 => [FIND, CONTAINS_KEY, GET_KEY_VALUE].map(|kind| ask(kind, &[*key])).to_vec(),
        _ => vec![ask(FIND, &[*key])],
    };
    keys.iter().flat_map(ways).collect()
}

fn shuffle<T>(random: &mut Random, items: &mut [T]) {
    for i in (1..items.len()).rev() {
        items.swap(i, random.below(i as u64 + 1) as usize);
    }
}

/// Where each request goes: keys change places, and each key's requests then take that key's places in order.
fn reordering(random: &mut Random, list: &[Request]) -> Vec<usize> {
    let keys: Vec<u64> = list.iter().map(|request| request.args[0]).collect();
    let mut moved = keys.clone();
    match random.below(4) {
        0 => moved.sort_by_key(|key| key.wrapping_mul(0x9e37_79b9_7f4a_7c15)),
        1 => moved.reverse(),
        2 => {
            for _ in 0..1 + random.below(8) {
                let i = random.below(keys.len().max(2) as u64 - 1) as usize;
                if i + 1 < moved.len() {
                    moved.swap(i, i + 1);
                }
            }
        }
        _ => shuffle(random, &mut moved),
    }
    let mut places: BTreeMap<u64, Vec<usize>> = BTreeMap::new();
    for (i, key) in moved.iter().enumerate().rev() {
        places.entry(*key).or_default().push(i);
    }
    keys.iter().map(|key| places.get_mut(key).unwrap().pop().unwrap()).collect()
}

// ---- a pair as requests

impl Pair {
    fn reordered(&self) -> Scene {
        let mut other = self.list.clone();
        for (request, place) in self.list.iter().zip(&self.place) {
            other[*place] = *request;
        }
        other
    }

    /// One run: the start, the list, and what the end is like.
    fn run(&self, list: Scene) -> Scene {
        let check = ask(CHECK, &[]);
        let start = [table(self.size, self.hasher, false), self.start.clone(), vec![check]].concat();
        [start, list, vec![check, ask(DIGEST, &[])], self.lookups.clone()].concat()
    }

    /// Both runs, one after the other.
    pub fn scene(&self) -> Scene {
        [self.run(self.list.clone()), self.run(self.reordered())].concat()
    }

    /// The different keys with an acceptable insert in the list, that hold no cell at the start.
    fn wanting(&self, start: &[Answer]) -> u64 {
        let acceptable = |r: &&Request| r.kind == INSERT && r.args[1] != NULL && hash_of(self.hasher, r.args[0]) != 0;
        let holding = self.start.iter().zip(start).filter(|(_, answer)| answer.number == number("New"));
        let holding: BTreeSet<u64> = holding.map(|(request, _)| request.args[0]).collect();
        let keys: BTreeSet<u64> = self.list.iter().filter(acceptable).map(|request| request.args[0]).collect();
        keys.difference(&holding).count() as u64
    }
}

// ---- the claim

/// The answers of one run, by its parts.
struct Run<'a> {
    start: &'a [Answer],
    list: &'a [Answer],
    checks: [Answer; 2],
    digest: Answer,
    lookups: &'a [Answer],
}

impl Run<'_> {
    fn of<'a>(pair: &Pair, answers: &'a [Answer]) -> Run<'a> {
        let (start, rest) = answers[2..].split_at(pair.start.len());
        let (list, end) = rest[1..].split_at(pair.list.len());
        Run { start, list, checks: [rest[0], end[0]], digest: end[1], lookups: &end[2..] }
    }

    fn full(&self) -> bool {
        self.list.iter().any(|answer| answer.number == number("refused 4 Full"))
    }

    /// S less the cells that were taken by New.
    fn empty_at_start(&self, size: u64) -> u64 {
        size - self.start.iter().filter(|answer| answer.number == number("New")).count() as u64
    }
}

/// An answer without the count of cells looked at, and without what stands beside it.
fn bare(answer: &Answer) -> (u64, [u64; 3]) {
    (answer.number, answer.values)
}

/// What one party's answers to all pairs came to.
#[derive(Default)]
pub struct Held {
    pub lists: u64,
    pub none_full: u64,
    pub one_full: u64,
    pub both_full: u64,
    pub matched: u64,
    pub lookups: u64,
    pub cells_differ: u64,
    /// Lists at sizes up to 128: with keys that want a cell just as many as there are empty cells, and one more.
    pub just_fit: u64,
    pub just_not: u64,
    pub failures: u64,
}

impl Held {
    /// Holds the answers to both runs of a pair to the claim.
    pub fn hold(&mut self, pair: &Pair, answers: &[Answer]) {
        let (one, two) = answers.split_at(answers.len() / 2);
        let runs = [Run::of(pair, one), Run::of(pair, two)];
        self.lists += 1;
        let full = runs.iter().filter(|run| run.full()).count();
        *[&mut self.none_full, &mut self.one_full, &mut self.both_full][full] += 1;
        if runs.iter().flat_map(|run| run.checks).any(|check| check.number != number("Sound")) {
            self.fail(pair, "a start or an end is not sound");
        }
        if full == 0 {
            self.alike(pair, &runs[0], &runs[1]);
        }
        if pair.size <= 128 {
            self.room(pair, &runs);
        }
    }

    /// No request was Full: the same answers at matched positions, the same live count, all lookups alike.
    fn alike(&mut self, pair: &Pair, one: &Run, two: &Run) {
        let same = |(i, answer): (usize, &Answer)| bare(answer) == bare(&two.list[pair.place[i]]);
        if !one.list.iter().enumerate().all(same) {
            self.fail(pair, "answers at matched positions differ");
        }
        if one.digest.live != two.digest.live {
            self.fail(pair, "live counts differ");
        }
        if one.lookups.iter().map(bare).ne(two.lookups.iter().map(bare)) {
            self.fail(pair, "lookups differ");
        }
        self.matched += one.list.len() as u64;
        self.lookups += one.lookups.len() as u64;
        self.cells_differ += (one.digest.digest != two.digest.digest) as u64;
    }

    /// Up to 128 cells: none is Full exactly if the keys that want a cell number at most the empty cells.
    fn room(&mut self, pair: &Pair, runs: &[Run; 2]) {
        for run in runs {
            let (wanting, empty) = (pair.wanting(run.start), run.empty_at_start(pair.size));
            if run.full() == (wanting <= empty) {
                self.fail(pair, "Full, or none, against the number of keys");
            }
            self.just_fit += (wanting == empty) as u64;
            self.just_not += (wanting == empty + 1) as u64;
        }
    }

    fn fail(&mut self, pair: &Pair, what: &str) {
        self.failures += 1;
        if self.failures <= 3 {
            println!("\n{what}; the two runs:");
            pair.scene().iter().for_each(|request| println!("    {}", request.text()));
        }
    }

    pub fn print(&self) {
        println!("lists with a reordering: {}", self.lists);
        println!("  with no Full: {}, Full in both runs: {}, in one run only (above 128 cells): {}", self.none_full, self.both_full, self.one_full);
        println!("  answers at matched positions compared: {}, lookups compared: {}", self.matched, self.lookups);
        println!("  cells or deltas differ at the end although the answers agree: {}", self.cells_differ);
        println!("  runs up to 128 cells whose keys just fit: {}, by one not: {}", self.just_fit, self.just_not);
    }
}
