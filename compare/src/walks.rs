//! Scenes for the cursor, for setting and for entries. The model follows a scene while it is made, so that the scene knows how
//! far a walk goes and which cells are live.
use crate::entries::Place;
use crate::form::*;
use crate::keys::*;
use crate::model::{hash_of, Hasher, NULL};
use crate::scenes::{ask, random_key, spoil, table, Scene};
use crate::served::{hasher_number, Served};

/// A scene that is being made.
struct Making<'a> {
    served: &'a mut Served,
    scene: Scene,
    size: u64,
    hasher: Hasher,
    keys: Vec<u64>,
}

const USES: [u64; 8] = [ENTRY_GET, ENTRY_REPLACE, ENTRY_REMOVE, REMOVE_ENTRY, ENTRY_INSERT, OR_INSERT, INSERT_ENTRY, ENTRY_KEY];

impl Making<'_> {
    /// A table of that size with random keys, or with keys of few homes.
    fn fresh<'a>(served: &'a mut Served, random: &mut Random, size: u64, hasher: Hasher, digests: bool) -> Making<'a> {
        let homes = random.pick(&[0, 1, 2, size / 4]);
        let mut key = |_: u64| match homes {
            0 => random_key(random).max(1),
            _ => {
                let home = random.below(homes);
                with_home(random, hasher, size, home)
            }
        };
        let keys = (0..size + 4).map(&mut key).collect();
        let mut making = Making { served, scene: Scene::new(), size, hasher, keys };
        for request in table(size, hasher, digests) {
            making.push(request);
        }
        making
    }

    fn push(&mut self, request: Request) -> Answer {
        self.scene.push(request);
        self.served.serve(&request)
    }

    fn ask(&mut self, kind: u64, args: &[u64]) -> Answer {
        self.push(ask(kind, args))
    }

    fn fill(&mut self, random: &mut Random, steps: u64) {
        for _ in 0..steps {
            self.change(random);
        }
    }

    /// An insert, a remove, or setting a value at some cell.
    fn change(&mut self, random: &mut Random) {
        let key = random.pick(&self.keys);
        match random.below(8) {
            0..=4 => self.ask(INSERT, &[key, random.value()]),
            5 | 6 => self.ask(REMOVE, &[key]),
            _ => self.ask(SET, &[random.below(self.size), random.value()]),
        };
    }

    /// Steps to the end, and twice more.
    fn walk(&mut self) {
        let mut ends = 0;
        while ends < 3 {
            ends += (self.ask(STEP, &[]).number != number("Next")) as u64;
        }
    }

    /// A use of the entry that is held, of either case; now and then with null.
    fn use_entry(&mut self, random: &mut Random) {
        let kind = random.pick(&USES);
        let value = if random.one_in(16) { NULL } else { random.value() };
        match kind {
            ENTRY_REPLACE | ENTRY_INSERT | OR_INSERT | INSERT_ENTRY => self.ask(kind, &[value]),
            _ => self.ask(kind, &[]),
        };
    }

    /// What may come between an entry and its use.
    fn between(&mut self, random: &mut Random, key: u64) {
        let hasher = hasher_number(random.pick(&[self.hasher, self.hasher, Hasher::Murmur]));
        match random.below(12) {
            0 | 1 => drop(self.ask(REMOVE, &[key])),
            2 | 3 => drop(self.ask(INSERT, &[key, random.value()])),
            4 if random.one_in(3) => drop(self.ask(CLEAR, &[hasher])),
            5 if random.one_in(3) => {
                let size = random.pick(&[8, self.size, (self.size / 2).max(8), (2 * self.size).min(2048)]);
                self.ask(TABLE, &[size, hasher]);
                for _ in 0..random.below(6) {
                    let other = random.pick(&self.keys);
                    self.ask(INSERT, &[random.pick(&[key, other]), random.value()]);
                }
            }
            _ => self.change(random),
        }
    }

    /// An entry's fields forged: of a key that is about, and one of them wrong, or none.
    fn forge(&mut self, random: &mut Random) {
        let key = if random.one_in(12) { zero_hash(self.hasher) } else { random.pick(&self.keys) };
        let right = hash_of(self.hasher, key);
        let of_other = hash_of(self.hasher, random.pick(&self.keys));
        let hash = random.pick(&[right, right, right, 0, right ^ 1, of_other]);
        let at = self.served.table().entry(key).ok().map(|entry| entry.place);
        let below = random.below(self.size);
        let cell = match at {
            Some(Place::Occupied(cell)) if !random.one_in(3) => cell,
            _ => random.pick(&[below, below, self.size, self.size - 1, self.size + 1, u64::MAX, 1 << 62]),
        };
        match random.below(3) {
            0 => self.ask(FORGE_VACANT, &[key, hash]),
            _ => self.ask(FORGE_OCCUPIED, &[key, hash, cell]),
        };
    }
}

/// A table walked from the start to the end, from any position, and while it changes.
pub fn walk(served: &mut Served, random: &mut Random, size: u64, hasher: Hasher) -> Scene {
    let mut making = Making::fresh(served, random, size, hasher, size <= 32);
    let steps = random.pick(&[0, size / 2, size, 2 * size, 3 * size, 4 * size]);
    making.fill(random, steps);
    making.ask(CURSOR, &[0]);
    making.walk();
    for _ in 0..12 {
        let below = random.below(size);
        let position = random.pick(&[below, below, below, size - 1, size, size + 1, 2 * size, u64::MAX]);
        making.ask(CURSOR, &[position]);
        for _ in 0..1 + random.below(3) {
            making.ask(STEP, &[]);
        }
    }
    making.ask(CURSOR, &[0]);
    for _ in 0..size.min(80) {
        if making.ask(STEP, &[]).number != number("Next") {
            making.ask(CURSOR, &[random.below(4)]);
        }
        if random.one_in(2) {
            making.change(random);
        }
    }
    making.ask(DIGEST, &[]);
    making.scene
}

/// Values set at cells of every kind, at indices that no cell has, and null.
pub fn setting(served: &mut Served, random: &mut Random, size: u64, hasher: Hasher) -> Scene {
    let mut making = Making::fresh(served, random, size, hasher, size <= 64);
    let steps = random.pick(&[0, size / 2, size, 2 * size]);
    making.fill(random, steps);
    for _ in 0..40 {
        let below = random.below(size);
        let index = random.pick(&[below, below, below, below, 0, size - 1, size, size + 1, u64::MAX, u64::MAX / 3 + 1, 1 << 61]);
        let value = if random.one_in(6) { NULL } else { random.value() };
        making.ask(SET, &[index, value]);
        if random.one_in(3) {
            making.change(random);
        }
    }
    making.ask(DIGEST, &[]);
    making.scene
}

/// Entries used at once.
pub fn at_once(served: &mut Served, random: &mut Random, size: u64, hasher: Hasher) -> Scene {
    let mut making = Making::fresh(served, random, size, hasher, size <= 64);
    let steps = random.pick(&[0, size / 2, size, 2 * size]);
    making.fill(random, steps);
    for _ in 0..30 {
        let key = if random.one_in(20) { zero_hash(hasher) } else { random.pick(&making.keys) };
        making.ask(ENTRY, &[key]);
        making.use_entry(random);
    }
    making.ask(DIGEST, &[]);
    making.scene
}

/// Entries used late, once or several times, and forged ones. With spoiling in between where that is wanted.
pub fn late(served: &mut Served, random: &mut Random, size: u64, hasher: Hasher, spoilt: bool) -> Scene {
    let mut making = Making::fresh(served, random, size, hasher, size <= 64);
    let steps = random.pick(&[size / 2, size, 2 * size]);
    making.fill(random, steps);
    for _ in 0..20 {
        let key = random.pick(&making.keys);
        match random.below(4) {
            0 => making.forge(random),
            _ => drop(making.ask(ENTRY, &[key])),
        }
        for _ in 0..random.pick(&[0, 1, 1, 2, 4]) {
            making.between(random, key);
        }
        if spoilt {
            for _ in 0..random.below(4) {
                let spoiling = spoil(random, size, hasher, &making.keys);
                making.push(spoiling);
            }
            making.ask(CURSOR, &[random.below(size)]);
            making.ask(STEP, &[]);
            making.ask(SET, &[random.below(size + 1), random.value()]);
        }
        for _ in 0..random.pick(&[1, 1, 2, 3]) {
            making.use_entry(random);
        }
    }
    making.ask(DIGEST, &[]);
    making.scene
}

/// Small tables that show one thing each.
pub fn worked() -> Vec<Scene> {
    let simple = |rest: &[Request]| [table(8, Hasher::Simple, true), rest.to_vec()].concat();
    // the last cell is live, and one before it removed
    let walked = simple(&[
        ask(INSERT, &[7, 70]), ask(INSERT, &[6, 60]), ask(REMOVE, &[6]), ask(SET, &[6, 1]), ask(SET, &[7, 71]), ask(SET, &[5, 1]),
        ask(CURSOR, &[0]), ask(STEP, &[]), ask(STEP, &[]), ask(STEP, &[]),
    ]);
    // the cell of an entry holds another key
    let another = |rest: Request| {
        simple(&[ask(INSERT, &[1, 10]), ask(ENTRY, &[1]), ask(CLEAR, &[1]), ask(INSERT, &[9, 90]), rest, ask(ENTRY, &[9]), rest])
    };
    // an unsound one, on which replacing by an entry and inserting the key differ: the home of 9 is empty and links to 9 itself
    let empty_home = |rest: &[Request]| {
        let forged = [ask(WORD, &[6, 9]), ask(WORD, &[7, 9]), ask(WORD, &[8, 90]), ask(DELTA, &[1, 1]), ask(RECORD, &[1, 1])];
        simple(&[&forged[..], &[ask(CHECK, &[]), ask(ENTRY, &[9])], rest].concat())
    };
    vec![
        walked,
        another(ask(ENTRY_GET, &[])),
        another(ask(ENTRY_REPLACE, &[5])),
        another(ask(ENTRY_REMOVE, &[])),
        empty_home(&[ask(ENTRY_REPLACE, &[91])]),
        empty_home(&[ask(INSERT, &[9, 91]), ask(ENTRY_GET, &[]), ask(ENTRY_REMOVE, &[])]),
    ]
}

/// Every request on slices of lengths that no table has, and of some that one has, with a record and entries of another table.
pub fn shapes() -> Vec<Scene> {
    let lengths = [(0, 0), (12, 8), (23, 16), (24, 15), (24, 16), (24, 17), (36, 24), (48, 32), (24, 32), (96, 64), (393_216, 262_144)];
    let scene = |(words, deltas): (u64, u64), live: u64| {
        let mut scene = table(16, Hasher::Simple, false);
        scene.extend([ask(INSERT, &[21, 5]), ask(INSERT, &[15, 6]), ask(LEND, &[words, deltas]), ask(RECORD, &[1, live]), ask(DIGESTS, &[(words < 1000) as u64])]);
        for held in [ask(FORGE_OCCUPIED, &[15, 15, 15]), ask(FORGE_OCCUPIED, &[21, 21, 5]), ask(FORGE_VACANT, &[21, 21]), ask(FORGE_VACANT, &[0, 0]), ask(ENTRY, &[9])] {
            for kind in USES {
                scene.extend([held, ask(kind, &[7]), held, ask(kind, &[NULL])]);
            }
        }
        scene.extend([[0, 1], [5, 9], [15, 9], [16, 9], [5, NULL], [16, NULL]].map(|args| ask(SET, &args)));
        for position in [0, 6, 16, u64::MAX] {
            scene.extend([ask(CURSOR, &[position]), ask(STEP, &[]), ask(STEP, &[])]);
        }
        scene
    };
    lengths.into_iter().flat_map(|l| [0, 2, 8, 9, l.1 / 2, l.1 / 2 + 1, u64::MAX].map(|live| scene(l, live))).collect()
}

/// All sequences of so many changes, entries and uses of entries over two keys of one home.
pub fn short(length: u32) -> Vec<Scene> {
    let letters = [
        ask(ENTRY, &[1]), ask(ENTRY, &[9]), ask(INSERT, &[1, 10]), ask(REMOVE, &[1]), ask(INSERT, &[9, 90]), ask(REMOVE, &[9]), ask(CLEAR, &[1]),
        ask(ENTRY_GET, &[]), ask(ENTRY_REPLACE, &[5]), ask(REMOVE_ENTRY, &[]), ask(ENTRY_INSERT, &[6]), ask(OR_INSERT, &[7]), ask(INSERT_ENTRY, &[8]),
    ];
    let start = [table(8, Hasher::Simple, true), vec![ask(INSERT, &[9, 1]), ask(ENTRY, &[1])]].concat();
    let sequence = |number: usize| {
        let rest = (0..length).map(|place| letters[number / letters.len().pow(place) % letters.len()]);
        start.iter().copied().chain(rest).collect()
    };
    (0..letters.len().pow(length)).map(sequence).collect()
}
