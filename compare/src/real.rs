//! The Rust behind requests: what it answers, in document 01's words, where a request lies on its domain.
use crate::entered::{Entered, Held};
use crate::form::*;
use crate::growing::Growing;
use crate::model::{Hasher, Record, Table, NULL};
use crate::served::{checked, hasher_number, hasher_of, Served};
use crate::sound::Check;
use leapfrog::hashmap::peek::{self, Fixed, Map};
use leapfrog::{FnvHasher, MurmurHasher, SimpleHasher};
use std::alloc::Allocator;

/// The Rust's map, whatever its hasher.
pub trait Rust: Entered {
    fn insert(&mut self, key: u64, value: u64) -> Option<u64>;
    fn insert_fixed(&mut self, key: u64, value: u64) -> Fixed;
    fn get(&self, key: u64) -> Option<u64>;
    fn remove(&mut self, key: u64) -> Option<u64>;
    fn contains_key(&self, key: u64) -> bool;
    fn get_key_value(&self, key: u64) -> Option<(u64, u64)>;
    fn len(&self) -> usize;
    fn is_empty(&self) -> bool;
    fn capacity(&self) -> usize;
    fn hash(&self, key: u64) -> u64;
    fn cell(&self, i: usize) -> [u64; 3];
    fn deltas(&self, b: usize) -> [u8; 8];
    fn moved(&self, cells: usize) -> Option<Box<dyn Rust>>;
}

impl<H: std::hash::Hasher + Default + 'static, A: Allocator + Clone + 'static> Rust for Map<H, A> {
    fn insert(&mut self, key: u64, value: u64) -> Option<u64> {
        Map::insert(self, key, value)
    }
    fn insert_fixed(&mut self, key: u64, value: u64) -> Fixed {
        peek::insert_fixed(self, key, value)
    }
    fn get(&self, key: u64) -> Option<u64> {
        Map::get(self, &key).copied()
    }
    fn remove(&mut self, key: u64) -> Option<u64> {
        Map::remove(self, &key)
    }
    fn contains_key(&self, key: u64) -> bool {
        Map::contains_key(self, &key)
    }
    fn get_key_value(&self, key: u64) -> Option<(u64, u64)> {
        Map::get_key_value(self, &key).map(|(k, v)| (*k, *v))
    }
    fn len(&self) -> usize {
        Map::len(self)
    }
    fn is_empty(&self) -> bool {
        Map::is_empty(self)
    }
    fn capacity(&self) -> usize {
        Map::capacity(self)
    }
    fn hash(&self, key: u64) -> u64 {
        self.hash_usize(&key) as u64
    }
    fn cell(&self, i: usize) -> [u64; 3] {
        peek::cell(self, i)
    }
    fn deltas(&self, b: usize) -> [u8; 8] {
        peek::deltas(self, b)
    }
    fn moved(&self, cells: usize) -> Option<Box<dyn Rust>> {
        peek::moved(self, cells).map(|map| Box::new(map) as Box<dyn Rust>)
    }
}

/// A fresh table of the Rust's.
pub fn fresh(size: usize, hasher: Hasher) -> Box<dyn Rust> {
    match hasher {
        Hasher::Simple => Box::new(Map::<SimpleHasher>::with_capacity_and_hasher(size, Default::default())),
        Hasher::Murmur => Box::new(Map::<MurmurHasher>::with_capacity_and_hasher(size, Default::default())),
        Hasher::Fnv => Box::new(Map::<FnvHasher>::with_capacity_and_hasher(size, Default::default())),
    }
}

/// The Rust beside the model: a map while the table is one made by calls, none while it is forged.
#[derive(Default)]
pub struct Real {
    map: Option<Box<dyn Rust>>,
    /// How many inserts revived a key: the Rust's `len` is short by so many (docs/DIFFERENCES.md).
    revived: u64,
    /// How often its cells and deltas were read, held to the model's checker, and not sound.
    read: u64,
    pub checked: u64,
    pub unsound: u64,
    pub held: Held,
    pub growing: Growing,
}

impl Real {
    /// The Rust's answer to a request that the model answered so, or none where the request is off its domain.
    pub fn serve(&mut self, request: &Request, model: &Answer, served: &Served) -> Option<Answer> {
        if (MOVE_BACK..=GROW_CHECK).contains(&request.kind) {
            self.map = None;
        }
        if let Some(answer) = self.growing.serve(request, model, served) {
            return Some(answer);
        }
        match request.kind {
            MOVE => return self.moved(model, served),
            TABLE | CLEAR if model.number == number("Cleared") => {
                self.map = Some(fresh(model.capacity as usize, hasher_of(model.hasher)?));
                self.revived = 0;
            }
            TABLE | LEND | RECORD | WORD | DELTA | COPY | CHANGE => self.map = None,
            _ => (),
        }
        self.held.follow(request, model);
        let map = self.map.as_mut()?;
        let mut answer = *model;
        let asked = match request.kind {
            CURSOR.. => self.held.ask(map.as_mut(), &mut self.revived, request, model),
            _ => ask(map.as_mut(), &mut self.revived, request, model.number),
        };
        if let Some((number, values)) = asked {
            (answer.number, answer.values) = (number, values);
        }
        answer.capacity = map.capacity() as u64;
        answer.live = (map.len() as u64).wrapping_add(self.revived);
        if model.digest != 0 || request.kind == CHECK {
            let record = Record { hasher: hasher_of(model.hasher)?, live: answer.live };
            let mut laid = Laid::of(map.as_ref(), record);
            self.read += 1;
            // up to 64 cells each time, in larger tables the more seldom the larger they are
            if [CHECK, DIGEST].contains(&request.kind) || self.read % (answer.capacity / 64).max(1) == 0 {
                let check = laid.check();
                self.checked += 1;
                self.unsound += (check != Check::Sound) as u64;
                answer.number = if request.kind == CHECK { number(checked(check)) } else { answer.number };
            }
            if model.digest != 0 {
                answer.digest = laid.digest(served);
            }
        }
        asked.map(|_| answer).or_else(|| (answer != *model).then_some(answer))
    }
}

impl Real {
    /// The Rust's own move of a copy of the map. Full has the model's position: the Rust gives none.
    fn moved(&self, model: &Answer, served: &Served) -> Option<Answer> {
        let map = self.map.as_ref()?;
        let cells = served.spare.0 / 3;
        if model.number == number("refused 1 Shape") {
            return None;
        }
        let mut answer = *model;
        let record = Record { hasher: hasher_of(model.hasher)?, live: (map.len() as u64).wrapping_add(self.revived) };
        let moved = map.moved(cells);
        answer.number = number(if moved.is_some() { "Moved" } else { "refused 4 Full" });
        if let (Some(to), true) = (moved, model.digest != 0) {
            let to = Laid::of(to.as_ref(), record);
            let mut digest = Digest(Laid::of(map.as_ref(), record).table_digest());
            digest.words(&to.words);
            digest.bytes(&to.deltas);
            answer.digest = digest.0;
        }
        Some(answer)
    }
}

/// Asks the Rust, and puts what it gives into document 01's words: number and values. None where it is not to be asked.
fn ask(map: &mut dyn Rust, revived: &mut u64, request: &Request, model: u64) -> Option<(u64, [u64; 3])> {
    let [key, value, ..] = request.args;
    let told = |said: &str, value: u64| Some((number(said), [value, 0, 0]));
    if [INSERT, FIND, REMOVE, CONTAINS_KEY, GET_KEY_VALUE].contains(&request.kind) && map.hash(key) == 0 {
        return None;
    }
    match request.kind {
        TABLE | CLEAR => told("Cleared", 0),
        DIGEST => told("done", 0),
        INSERT if value == NULL => None,
        INSERT => inserted(insert(map, key, value, model), revived),
        FIND => map.get(key).map_or(told("Absent", 0), |value| told("Found", value)),
        REMOVE => map.remove(key).map_or(told("Absent", 0), |value| told("Removed", value)),
        CONTAINS_KEY => told(if map.contains_key(key) { "yes" } else { "no" }, 0),
        GET_KEY_VALUE => match map.get_key_value(key) {
            // a removed key is shown with null: on the list of differences
            None | Some((_, NULL)) => told("Absent", 0),
            Some((key, value)) => Some((number("Pair"), [key, value, 0])),
        },
        LEN => told("Number", (map.len() as u64).wrapping_add(*revived)),
        IS_EMPTY if *revived == 0 => told(if map.is_empty() { "yes" } else { "no" }, 0),
        CAPACITY => told("Number", map.capacity() as u64),
        HASH => told("Number", map.hash(key)),
        // it has no checker: the model's says of its cells what is to be said
        CHECK => told("Sound", 0),
        _ => None,
    }
}

/// The public insert, or, where the model says Full and the public one would grow, its private body at fixed size.
fn insert(map: &mut dyn Rust, key: u64, value: u64, model: u64) -> Fixed {
    if model == number("refused 4 Full") {
        return map.insert_fixed(key, value);
    }
    map.insert(key, value).map_or(Fixed::New, Fixed::Found)
}

fn inserted(fixed: Fixed, revived: &mut u64) -> Option<(u64, [u64; 3])> {
    let (said, value) = match fixed {
        Fixed::New => ("New", 0),
        Fixed::Found(NULL) => {
            *revived += 1;
            ("Revived", 0)
        }
        Fixed::Found(old) => ("Replaced", old),
        Fixed::Overflow(position) => ("refused 4 Full", position as u64),
    };
    Some((number(said), [value, 0, 0]))
}

/// The Rust's own cells and deltas, laid out as document 01 has them, with its `len` translated as live count.
pub struct Laid {
    pub words: Vec<u64>,
    pub deltas: Vec<u8>,
    record: Record,
}

impl Laid {
    pub fn of(map: &dyn Rust, record: Record) -> Laid {
        let size = map.capacity();
        let words = (0..size).flat_map(|i| map.cell(i)).collect();
        let deltas = (0..size / 4).flat_map(|b| map.deltas(b)).collect();
        Laid { words, deltas, record }
    }

    pub fn check(&mut self) -> Check {
        Table { words: &mut self.words, deltas: &mut self.deltas, record: &mut self.record }.check()
    }

    /// The digest of its words and its deltas, each for itself.
    pub fn parts(&self) -> (u64, u64) {
        let (mut words, mut deltas) = (Digest(1), Digest(1));
        words.words(&self.words);
        deltas.bytes(&self.deltas);
        (words.0, deltas.0)
    }

    fn table_digest(&self) -> u64 {
        let mut digest = Digest::new(hasher_number(self.record.hasher), self.record.live);
        digest.words(&self.words);
        digest.bytes(&self.deltas);
        digest.0
    }

    fn digest(&self, served: &Served) -> u64 {
        let mut digest = Digest(self.table_digest());
        served.spare_digest(&mut digest);
        digest.0
    }
}
