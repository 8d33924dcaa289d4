//! Scenes for the checker: tables made by calls, which are sound, and the same tables spoilt, which mostly are not. A scene
//! says itself what a check must give wherever it knows; the model's checker says it everywhere.
use crate::aims::{anything, AIMS};
use crate::form::*;
use crate::keys::*;
use crate::model::{Hasher, Record, Said, Table, NULL};
use crate::scenes::{ask, random_key, table, Scene};
use crate::served::hasher_number;

/// What a scene itself says of a check.
#[derive(Clone, Copy, PartialEq, Debug)]
pub enum Expect {
    Sound,
    /// 1
    Shape,
    /// 9, and this rule alone fails.
    Alone(usize),
    /// 9, and this rule is among those that fail.
    Among(usize),
    /// The scene leaves it to the model.
    Model,
}

impl Expect {
    /// Whether the rules that fail are as expected; none where check 1 refuses.
    pub fn meets(&self, fails: &Option<Vec<usize>>) -> bool {
        match (self, fails) {
            (Expect::Model, _) | (Expect::Shape, None) => true,
            (Expect::Sound, Some(rules)) => rules.is_empty(),
            (Expect::Alone(rule), Some(rules)) => *rules == [*rule],
            (Expect::Among(rule), Some(rules)) => rules.contains(rule),
            _ => false,
        }
    }
}

/// A scene, and what it says of its checks in turn.
#[derive(Default)]
pub struct Checked {
    pub scene: Scene,
    pub expected: Vec<Expect>,
}

impl Checked {
    fn check(&mut self, expect: Expect) {
        self.scene.push(ask(CHECK, &[]));
        self.expected.push(expect);
    }
}

/// A table of the model's that follows the scene while it is made, so that the scene knows its cells.
struct Made {
    words: Vec<u64>,
    deltas: Vec<u8>,
    record: Record,
    checked: Checked,
}

impl Made {
    fn fresh(size: u64, hasher: Hasher, digests: bool) -> Made {
        let mut made = Made {
            words: vec![0; 3 * size as usize],
            deltas: vec![0; 2 * size as usize],
            record: Record { hasher, live: 0 },
            checked: Checked { scene: table(size, hasher, digests), expected: Vec::new() },
        };
        made.table().clear(hasher);
        made
    }

    fn table(&mut self) -> Table<'_> {
        Table { words: &mut self.words, deltas: &mut self.deltas, record: &mut self.record }
    }

    fn insert(&mut self, key: u64, value: u64) -> Said {
        self.checked.scene.push(ask(INSERT, &[key, value]));
        self.table().insert(key, value).said
    }

    fn remove(&mut self, key: u64) {
        self.checked.scene.push(ask(REMOVE, &[key]));
        self.table().remove(key);
    }

    /// Inserts keys until so many cells are taken, or none can be any more; every third time a key that is there is removed or
    /// inserted again, and now and then something is refused. Checked every so many calls.
    fn fill(&mut self, random: &mut Random, count: u64, every: u64, mut key: impl FnMut(&mut Random) -> u64) {
        let hasher = self.record.hasher;
        let mut keys = Vec::new();
        let mut tries = 0;
        while (keys.len() as u64) < count && tries < 4 * count {
            tries += 1;
            let new = key(random);
            if self.insert(new, random.value()) == Said::New {
                keys.push(new);
            }
            match random.below(9) {
                0 | 1 if !keys.is_empty() => self.remove(random.pick(&keys)),
                2 if !keys.is_empty() => drop(self.insert(random.pick(&keys), random.value())),
                3 if random.one_in(8) => drop(self.insert(zero_hash(hasher), random.value())),
                4 if random.one_in(8) => drop(self.insert(new, NULL)),
                _ => (),
            }
            if tries % every == 0 {
                self.checked.check(Expect::Sound);
            }
        }
        self.checked.check(Expect::Sound);
    }

    /// Spoils, checks, and makes it as it was again.
    fn spoil(&mut self, spoiling: &[Request], expect: Expect) {
        let before: Vec<Request> = spoiling.iter().rev().map(|request| self.undoing(request)).collect();
        self.checked.scene.extend(spoiling);
        self.checked.check(expect);
        self.checked.scene.extend(before);
    }

    /// The request that takes a spoiling of one place back.
    fn undoing(&self, spoiling: &Request) -> Request {
        let i = spoiling.args[0];
        match spoiling.kind {
            WORD => ask(WORD, &[i, self.words[i as usize]]),
            DELTA => ask(DELTA, &[i, self.deltas[i as usize] as u64]),
            _ => ask(RECORD, &[hasher_number(self.record.hasher), self.record.live]),
        }
    }
}

/// How many cells of a table are to be taken: from none to all.
fn fills(size: u64) -> [u64; 9] {
    [0, 1, size / 4, size / 2, 3 * size / 4, 7 * size / 8, size - 2, size - 1, size]
}

/// A source of keys: random ones, or ones that have so many homes between them.
fn keys_of(random: &mut Random, size: u64, hasher: Hasher, homes: u64) -> impl FnMut(&mut Random) -> u64 {
    let homes: Vec<u64> = (0..homes).map(|_| random.below(size)).collect();
    move |random: &mut Random| match homes.is_empty() {
        true => random_key(random),
        false => {
            let home = random.pick(&homes);
            with_home(random, hasher, size, home)
        }
    }
}

/// A table made by calls, for each fill, and checked on the way: yes each time. Of large ones three fills.
pub fn made(random: &mut Random, size: u64, hasher: Hasher) -> Vec<Checked> {
    let every = if size <= 64 { 1 } else { size / 8 };
    let small = size <= 1024;
    // chains of few homes are too long to be made and checked in larger tables
    let homes = if small { random.pick(&[0, 0, 1, 2, size / 4]) } else { 0 };
    let counts = if small { fills(size).to_vec() } else { (0..3).map(|_| random.pick(&fills(size))).collect() };
    let fill = |count: u64| {
        let mut made = Made::fresh(size, hasher, small);
        let key = keys_of(random, size, hasher, homes);
        made.fill(random, count, every, key);
        made.checked
    };
    counts.into_iter().map(fill).collect()
}

/// Tables made by calls, each spoilt in one place time and again, at random and with an aim, and made whole in between.
pub fn spoilt(random: &mut Random, size: u64, hasher: Hasher, times: u64) -> Checked {
    let mut made = Made::fresh(size, hasher, size <= 256);
    let homes = if size <= 1024 { random.pick(&[0, 2, 3, size / 4]) } else { 0 };
    let key = keys_of(random, size, hasher, homes);
    let count = random.pick(&fills(size)[2..]);
    made.fill(random, count, u64::MAX, key);
    for _ in 0..times {
        for aim in AIMS {
            if let Some((spoiling, expect)) = aim(random, &made.table(), size as usize) {
                made.spoil(&spoiling, expect);
            }
        }
        let any: Scene = (0..random.pick(&[1, 1, 1, 2, 3])).map(|_| anything(random, &made.table(), size)).collect();
        made.spoil(&any, Expect::Model);
        made.checked.check(Expect::Sound);
    }
    made.checked
}
