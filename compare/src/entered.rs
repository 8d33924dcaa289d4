//! The Rust's iterators and entries behind requests. Its iterators hand back no index, so their pairs are laid beside its live
//! cells in index order. Its entries borrow the map, so one is made anew where it is used and not refused: then the key is in the
//! same case as when the entry was made. Late ones that are Stale the Rust does not have.
use crate::form::*;
use crate::model::NULL;
use crate::real::Rust;
use leapfrog::hashmap::peek::Map;
use leapfrog::hashmap::Entry;

pub trait Entered {
    /// Keys and values in the order of its iterator.
    fn pairs(&self) -> Vec<(u64, u64)>;
    /// Sets the value of the n-th pair that its iterator over mutable ones hands back; the key and the old value.
    fn set_nth(&mut self, n: usize, value: u64) -> Option<(u64, u64)>;
    /// Sets a key's value through a reference to it.
    fn set_key(&mut self, key: u64, value: u64) -> Option<u64>;
    fn is_occupied(&mut self, key: u64) -> bool;
    /// Makes an entry and uses it at once: what was said and its values, New for a key that was removed too.
    fn use_entry(&mut self, key: u64, kind: u64, value: u64) -> (&'static str, [u64; 2]);
}

impl<H: std::hash::Hasher + Default, A: std::alloc::Allocator + Clone> Entered for Map<H, A> {
    fn pairs(&self) -> Vec<(u64, u64)> {
        self.iter().map(|(key, value)| (*key, *value)).collect()
    }

    fn set_nth(&mut self, n: usize, value: u64) -> Option<(u64, u64)> {
        let (key, place) = self.iter_mut().nth(n)?;
        Some((*key, std::mem::replace(place, value)))
    }

    fn set_key(&mut self, key: u64, value: u64) -> Option<u64> {
        self.get_mut(&key).map(|place| std::mem::replace(place, value))
    }

    fn is_occupied(&mut self, key: u64) -> bool {
        matches!(self.entry(key), Entry::Occupied(_))
    }

    fn use_entry(&mut self, key: u64, kind: u64, value: u64) -> (&'static str, [u64; 2]) {
        let new = |good: bool| (if good { "New" } else { WRONG }, [0, 0]);
        match (self.entry(key), kind) {
            (entry, ENTRY_KEY) => ("Number", [*entry.key(), 0]),
            (Entry::Occupied(o), ENTRY_GET) => ("Found", [*o.get(), 0]),
            (Entry::Occupied(mut o), ENTRY_REPLACE) => ("Replaced", [o.insert(value), 0]),
            (Entry::Occupied(o), ENTRY_REMOVE) => ("Removed", [o.remove(), 0]),
            (Entry::Occupied(o), REMOVE_ENTRY) => {
                let (key, old) = o.remove_entry();
                ("Pair", [key, old])
            }
            (Entry::Occupied(o), OR_INSERT) => ("Found", [*Entry::Occupied(o).or_insert(value), 0]),
            (Entry::Occupied(o), INSERT_ENTRY) => {
                let old = *o.get();
                let after = Entry::Occupied(o).insert_entry(value);
                (if *after.get() == value { "Replaced" } else { WRONG }, [old, 0])
            }
            (Entry::Vacant(mut v), ENTRY_INSERT) => new(*v.insert(value) == value),
            (Entry::Vacant(v), OR_INSERT) => new(*Entry::Vacant(v).or_insert(value) == value),
            (Entry::Vacant(v), INSERT_ENTRY) => {
                let after = Entry::Vacant(v).insert_entry(value);
                new((*after.key(), *after.get()) == (key, value))
            }
            _ => (WRONG, [0, 0]),
        }
    }
}

/// Said of the Rust where it is in the other case, or did not store what was offered: it differs from any model.
const WRONG: &str = "no such request";

/// What is held beside the Rust: the cursor, where it was before the last request, and the key of the entry.
#[derive(Default)]
pub struct Held {
    position: u64,
    from: u64,
    key: u64,
    /// How many steps, settings, entries made and entries used the Rust answered.
    pub asked: [u64; 4],
}

/// The index of the cell of a key, removed or not; 2^64-1 where there is none.
fn cell_of(map: &dyn Rust, key: u64) -> u64 {
    (0..map.capacity()).find(|i| matches!(map.cell(*i), [hash, k, _] if hash != 0 && k == key)).map_or(u64::MAX, |i| i as u64)
}

/// Its iterator's pairs, each with the index of its live cell; nothing where there are not as many.
fn listed(map: &dyn Rust) -> Vec<(u64, u64, u64)> {
    let live = |i: &usize| matches!(map.cell(*i), [hash, _, value] if hash != 0 && value != NULL);
    let live: Vec<usize> = (0..map.capacity()).filter(live).collect();
    let pairs = map.pairs();
    if pairs.len() != live.len() {
        return Vec::new();
    }
    live.into_iter().zip(pairs).map(|(i, (key, value))| (i as u64, key, value)).collect()
}

impl Held {
    /// Takes note of a request, whether or not the Rust is asked.
    pub fn follow(&mut self, request: &Request, model: &Answer) {
        self.from = self.position;
        match request.kind {
            CURSOR => self.position = request.args[0],
            STEP if model.number == number("Next") => self.position = model.values[0] + 1,
            STEP => self.position = model.values[0],
            ENTRY if model.number <= 9 => (),
            ENTRY | FORGE_OCCUPIED | FORGE_VACANT => self.key = request.args[0],
            _ => (),
        }
    }

    /// Asks the Rust. None where it is not to be asked: where the model refuses, and beyond S.
    pub fn ask(&mut self, map: &mut dyn Rust, revived: &mut u64, request: &Request, model: &Answer) -> Option<(u64, [u64; 3])> {
        let told = if model.number > 9 { self.told(map, revived, request) } else { None };
        let by = [STEP, SET, ENTRY].iter().position(|kind| *kind == request.kind).unwrap_or(3);
        self.asked[by] += told.is_some() as u64;
        told
    }

    fn told(&self, map: &mut dyn Rust, revived: &mut u64, request: &Request) -> Option<(u64, [u64; 3])> {
        let [a, b, ..] = request.args;
        let size = map.capacity() as u64;
        match request.kind {
            STEP if self.from > size => None,
            STEP => match listed(map).into_iter().find(|cell| cell.0 >= self.from) {
                Some((i, key, value)) => Some((number("Next"), [i, key, value])),
                None => Some((number("End"), [size, 0, 0])),
            },
            SET => set(map, a, b),
            ENTRY if map.is_occupied(a) => Some((number("Occupied"), [map.hash(a), cell_of(map, a), 0])),
            ENTRY => Some((number("Vacant"), [map.hash(a), 0, 0])),
            ENTRY_KEY..=INSERT_ENTRY if map.hash(self.key) != 0 => self.use_entry(map, revived, request.kind, a),
            _ => None,
        }
    }

    fn use_entry(&self, map: &mut dyn Rust, revived: &mut u64, kind: u64, value: u64) -> Option<(u64, [u64; 3])> {
        let had_cell = cell_of(map, self.key) != u64::MAX;
        let (said, [first, second]) = map.use_entry(self.key, kind, value);
        if ![ENTRY_INSERT, OR_INSERT, INSERT_ENTRY].contains(&kind) {
            return Some((number(said), [first, second, 0]));
        }
        // a removed key that is inserted again is Revived, and its `len` stays short: on the list of differences
        let revives = said == "New" && had_cell;
        *revived += revives as u64;
        Some((number(if revives { "Revived" } else { said }), [first, 1, cell_of(map, self.key)]))
    }
}

/// Sets the value of a live cell: by the iterator over mutable pairs, or by the key.
fn set(map: &mut dyn Rust, index: u64, value: u64) -> Option<(u64, [u64; 3])> {
    let list = listed(map);
    let Some(n) = list.iter().position(|cell| cell.0 == index) else {
        return Some((number("Absent"), [0; 3]));
    };
    let key = list[n].1;
    let old = match index % 2 {
        0 => map.set_nth(n, value).filter(|pair| pair.0 == key).map(|pair| pair.1),
        _ => map.set_key(key, value),
    };
    Some(old.map_or((number(WRONG), [0; 3]), |old| (number("Replaced"), [old, 0, 0])))
}
