//! The model behind requests: it keeps between requests what the program `answers` keeps.
use crate::form::*;
use crate::hand::Hand;
use crate::grown::Growth;
use crate::model::{self, Bucket, Cell, Hasher, Record, Said, Table};
use crate::sound::Check;

/// Room in the arrays: for 131,072 cells, and 65,536 spare ones.
pub const WORDS: usize = 393_216;
const DELTAS: usize = 262_144;
const SPARE_WORDS: usize = 196_608;
const SPARE_DELTAS: usize = 131_072;

pub struct Served {
    pub words: Vec<u64>,
    pub deltas: Vec<u8>,
    pub spare_words: Vec<u64>,
    pub spare_deltas: Vec<u8>,
    pub lent: (usize, usize),
    pub spare: (usize, usize),
    pub record: Record,
    pub digests: bool,
    pub hand: Hand,
    /// A growing table's size and half, and what its last insert did.
    pub size: u64,
    pub half: usize,
    pub growth: Option<Growth>,
}

/// What was said by number, its values, and the count.
pub struct Line(pub u64, pub [u64; 3], pub u64);

pub fn plain(said: &str) -> Line {
    Line(number(said), [0; 3], 0)
}

pub fn carrying(said: &str, value: u64) -> Line {
    Line(number(said), [value, 0, 0], 0)
}

pub fn hasher_of(number: u64) -> Option<Hasher> {
    [None, Some(Hasher::Simple), Some(Hasher::Murmur), Some(Hasher::Fnv)].get(number as usize).copied().flatten()
}

pub fn hasher_number(hasher: Hasher) -> u64 {
    match hasher {
        Hasher::Simple => 1,
        Hasher::Murmur => 2,
        Hasher::Fnv => 3,
    }
}

/// What the model said, by number and with its value.
pub fn numbered(said: Said) -> (u64, u64) {
    match said {
        Said::New => (number("New"), 0),
        Said::Replaced(old) => (number("Replaced"), old),
        Said::Revived => (number("Revived"), 0),
        Said::Found(value) => (number("Found"), value),
        Said::Absent => (number("Absent"), 0),
        Said::Removed(old) => (number("Removed"), old),
        Said::Shape => (1, 0),
        Said::ZeroHash => (2, 0),
        Said::Null => (3, 0),
        Said::Full(position) => (4, position),
        Said::Broken => (5, 0),
        Said::Stale => (7, 0),
    }
}

pub fn checked(check: Check) -> &'static str {
    match check {
        Check::Sound => "Sound",
        Check::Shape => "refused 1 Shape",
        Check::Unsound => "refused 9 Unsound",
    }
}

pub fn told(told: model::Told) -> Line {
    let (number, value) = numbered(told.said);
    Line(number, [value, 0, 0], told.looked)
}

pub fn bucket_digest(bucket: &Bucket) -> u64 {
    let cells = bucket.cells.iter().flat_map(|c| [c.hash, c.key, c.value]);
    cells.chain(bucket.deltas.iter().map(|d| *d as u64)).fold(1, mix)
}

impl Default for Served {
    fn default() -> Served {
        Served {
            words: vec![0; WORDS],
            deltas: vec![0; DELTAS],
            spare_words: vec![0; SPARE_WORDS],
            spare_deltas: vec![0; SPARE_DELTAS],
            lent: (0, 0),
            spare: (0, 0),
            record: Record { hasher: Hasher::Simple, live: 0 },
            digests: false,
            hand: Hand::default(),
            size: 0,
            half: 0,
            growth: None,
        }
    }
}

impl Served {
    pub fn table(&mut self) -> Table<'_> {
        Table {
            words: &mut self.words[..self.lent.0],
            deltas: &mut self.deltas[..self.lent.1],
            record: &mut self.record,
        }
    }

    pub fn serve(&mut self, request: &Request) -> Answer {
        let Line(number, values, looked) = match request.kind {
            0..=15 => self.set(request),
            TABLE => self.fresh(request),
            17..=31 => self.call(request),
            32..=47 => self.bucket(request),
            48..=63 => self.halved(request),
            64..=79 => self.hand(request),
            _ => plain("no such request"),
        };
        if request.kind < CURSOR {
            self.hand.passed();
        }
        let mut values = values;
        let mut capacity = self.table().size().unwrap_or(0) as u64;
        if (HALVES..=GROW_CHECK).contains(&request.kind) {
            (values[2], capacity) = (self.half as u64, self.size);
        }
        let digest = if self.digests || request.kind == DIGEST { self.digest() } else { 0 };
        let Record { hasher, live } = self.record;
        Answer { number, values, looked, hasher: hasher_number(hasher), live, capacity, digest }
    }

    /// The cells that are lent, one line each, as the request `show` has them.
    pub fn cells(&mut self) -> String {
        let table = self.table();
        let count = (table.words.len() / 3).min(table.deltas.len() / 2);
        let value = |x: u64| if x == model::NULL { "null".to_string() } else { x.to_string() };
        let line = |i: usize| {
            let Cell { hash, key, value: v } = table.cell(i);
            let (first, second) = (table.first(i), table.second(i));
            format!("  cell {i}: hash {hash}, key {key}, value {}, deltas {first} {second}\n", value(v))
        };
        (0..count).map(line).collect()
    }

    fn digest(&self) -> u64 {
        let mut digest = Digest::new(hasher_number(self.record.hasher), self.record.live);
        digest.words(&self.words[..self.lent.0]);
        digest.bytes(&self.deltas[..self.lent.1]);
        self.spare_digest(&mut digest);
        digest.0
    }

    /// The part of the digest that the spare arrays have.
    pub fn spare_digest(&self, digest: &mut Digest) {
        digest.words(&self.spare_words[..self.spare.0]);
        digest.bytes(&self.spare_deltas[..self.spare.1]);
    }

    /// Requests that set something up.
    fn set(&mut self, request: &Request) -> Line {
        let [a, b, ..] = request.args;
        let fits = match request.kind {
            NOTHING | DIGEST | SHOW => true,
            LEND => lend(&mut self.lent, a, b, (WORDS, DELTAS)),
            SPARE => lend(&mut self.spare, a, b, (SPARE_WORDS, SPARE_DELTAS)),
            WORD => put(&mut self.words, a, Some(b)),
            DELTA => put(&mut self.deltas, a, u8::try_from(b).ok()),
            SPARE_WORD => put(&mut self.spare_words, a, Some(b)),
            SPARE_DELTA => put(&mut self.spare_deltas, a, u8::try_from(b).ok()),
            RECORD => hasher_of(a).map(|hasher| self.record = Record { hasher, live: b }).is_some(),
            DIGESTS => {
                self.digests = a != 0;
                true
            }
            _ => false,
        };
        plain(if fits { "done" } else { "no such request" })
    }

    /// Lends as much as a table of that size has, where the arrays have it, and clears what is lent.
    fn fresh(&mut self, request: &Request) -> Line {
        let [size, hasher, ..] = request.args;
        if size <= WORDS as u64 / 3 {
            self.lent = (3 * size as usize, 2 * size as usize);
        }
        self.clear(hasher)
    }

    fn clear(&mut self, hasher: u64) -> Line {
        let Some(hasher) = hasher_of(hasher) else { return plain("no such request") };
        plain(if self.table().clear(hasher) { "Cleared" } else { "refused 1 Shape" })
    }

    /// The calls at fixed size.
    fn call(&mut self, request: &Request) -> Line {
        let [a, b, ..] = request.args;
        let record = self.record;
        let mut table = self.table();
        match request.kind {
            CLEAR => self.clear(a),
            INSERT => told(table.insert(a, b)),
            FIND => told(table.find(a)),
            REMOVE => told(table.remove(a)),
            LEN => carrying("Number", record.live),
            IS_EMPTY => plain(if record.live == 0 { "yes" } else { "no" }),
            CAPACITY => table.size().map_or(plain("refused 1 Shape"), |size| carrying("Number", size as u64)),
            HASH => carrying("Number", model::hash_of(record.hasher, a)),
            CHECK => plain(checked(table.check())),
            CONTAINS_KEY => match table.find(a).said {
                Said::Found(_) => plain("yes"),
                Said::Absent => plain("no"),
                said => Line(numbered(said).0, [0; 3], 0),
            },
            GET_KEY_VALUE => match table.find(a).said {
                Said::Found(value) => Line(number("Pair"), [a, value, 0], 0),
                said => Line(numbered(said).0, [0; 3], 0),
            },
            _ => plain("no such request"),
        }
    }

    /// The cursor, setting and entries.
    fn hand(&mut self, request: &Request) -> Line {
        let mut hand = std::mem::take(&mut self.hand);
        let (number, values) = hand.serve(&mut self.table(), request);
        self.hand = hand;
        Line(number, values, 0)
    }

    /// Buckets out and in. What is refused hands an empty bucket back, and that is what goes on.
    fn bucket(&mut self, request: &Request) -> Line {
        let [b, c, key, value] = request.args;
        let hash = model::hash_of(self.record.hasher, key);
        let mut table = self.table();
        let taken = table.take(b);
        let bucket = taken.unwrap_or(model::EMPTY_BUCKET);
        let put = |fits: bool| plain(if fits { "Put" } else { "refused 1 Shape" });
        match request.kind {
            TAKE => carrying(if taken.is_some() { "Taken" } else { "refused 1 Shape" }, bucket_digest(&bucket)),
            COPY => put(table.put(c, bucket)),
            CELL => match bucket.cells.get(c as usize) {
                Some(cell) => Line(number("Cell"), [cell.hash, cell.key, cell.value], 0),
                None => plain("refused 1 Shape"),
            },
            CHANGE => {
                let mut changed = bucket;
                let Some(cell) = changed.cells.get_mut(c as usize) else {
                    return carrying("refused 1 Shape", bucket_digest(&bucket));
                };
                *cell = Cell { hash, key, value };
                put(table.put(b, changed))
            }
            _ => plain("no such request"),
        }
    }
}

/// Lends so much, where the arrays have it.
fn lend(lent: &mut (usize, usize), words: u64, deltas: u64, room: (usize, usize)) -> bool {
    let fits = words <= room.0 as u64 && deltas <= room.1 as u64;
    if fits {
        *lent = (words as usize, deltas as usize);
    }
    fits
}

/// Puts an element, where there is such a place and it is one.
fn put<T>(array: &mut [T], i: u64, x: Option<T>) -> bool {
    let place = usize::try_from(i).ok().and_then(|i| array.get_mut(i));
    place.zip(x).map(|(place, x)| *place = x).is_some()
}
