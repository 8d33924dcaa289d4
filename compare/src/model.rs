//! A model of document 01, slow and plain, written from the document and not from the code. It answers every request on any
//! memory: forged words and deltas, spoilt records, slices of any length. Positions are whole 64-bit numbers throughout.

pub const NULL: u64 = u64::MAX - 1;
const LEAST: usize = 8;
const GREATEST: usize = 65_536;
pub const WINDOW: usize = 128;

#[derive(Clone, Copy, PartialEq, Debug)]
pub enum Hasher {
    Simple,
    Murmur,
    Fnv,
}

/// The record of a table.
#[derive(Clone, Copy, PartialEq, Debug)]
pub struct Record {
    pub hasher: Hasher,
    pub live: u64,
}

/// What a call says; a refusal by its name.
#[derive(Clone, Copy, PartialEq, Debug)]
pub enum Said {
    New,
    Replaced(u64),
    Revived,
    Found(u64),
    Absent,
    Removed(u64),
    Shape,
    ZeroHash,
    Null,
    Full(u64),
    Broken,
    Stale,
}

/// What a call says and how many cells it looked at.
#[derive(Clone, Copy, PartialEq, Debug)]
pub struct Told {
    pub said: Said,
    pub looked: u64,
}

#[derive(Clone, Copy, PartialEq, Debug)]
pub struct Cell {
    pub hash: u64,
    pub key: u64,
    pub value: u64,
}

pub const EMPTY: Cell = Cell { hash: 0, key: 0, value: NULL };

impl Cell {
    pub fn taken(&self) -> bool {
        self.hash != 0
    }

    pub fn live(&self) -> bool {
        self.taken() && self.value != NULL
    }
}

// ---- hashers, over the key's 8 little-endian bytes

pub fn hash_of(hasher: Hasher, key: u64) -> u64 {
    match hasher {
        Hasher::Simple => key,
        Hasher::Murmur => fmix64(key),
        Hasher::Fnv => key.to_le_bytes().iter().fold(0xcbf2_9ce4_8422_2325, |state, byte| {
            (state ^ *byte as u64).wrapping_mul(0x0100_0000_01b3)
        }),
    }
}

fn fmix64(key: u64) -> u64 {
    let a = (key ^ (key >> 33)).wrapping_mul(0xff51_afd7_ed55_8ccd);
    let b = (a ^ (a >> 33)).wrapping_mul(0xc4ce_b9fe_1a85_ec53);
    b ^ (b >> 33)
}

// ---- memory

/// Two lent slices and the record.
pub struct Table<'a> {
    pub words: &'a mut [u64],
    pub deltas: &'a mut [u8],
    pub record: &'a mut Record,
}

impl Table<'_> {
    /// S, read off the slices, where their lengths are those of a table of an allowed size.
    pub fn size(&self) -> Option<usize> {
        let size = self.deltas.len() / 2;
        let fits = self.words.len() == 3 * size && self.deltas.len() == 2 * size;
        (fits && size.is_power_of_two() && (LEAST..=GREATEST).contains(&size)).then_some(size)
    }

    /// Check 1 of the calls that are lent a record: live is at most S too.
    pub fn shaped(&self) -> Option<usize> {
        self.size().filter(|size| self.record.live <= *size as u64)
    }

    pub fn cell(&self, i: usize) -> Cell {
        Cell { hash: self.words[3 * i], key: self.words[3 * i + 1], value: self.words[3 * i + 2] }
    }

    pub fn set_cell(&mut self, i: usize, cell: Cell) {
        self.words[3 * i..3 * i + 3].copy_from_slice(&[cell.hash, cell.key, cell.value]);
    }

    pub fn first(&self, i: usize) -> u8 {
        self.deltas[8 * (i / 4) + i % 4]
    }

    pub fn second(&self, i: usize) -> u8 {
        self.deltas[8 * (i / 4) + i % 4 + 4]
    }

    fn set_first(&mut self, i: usize, delta: u8) {
        self.deltas[8 * (i / 4) + i % 4] = delta;
    }

    fn set_second(&mut self, i: usize, delta: u8) {
        self.deltas[8 * (i / 4) + i % 4 + 4] = delta;
    }
}

/// The cell of a position: only here is a position reduced.
pub fn cell_of(position: u64, size: usize) -> usize {
    (position % size as u64) as usize
}

// ---- the walk

/// Where a walk stopped: at the key, at the end of the chain, or nowhere within S-1 links.
pub enum Stop {
    Met(u64),
    Tail(u64),
    Broken,
}

/// A walk: the positions looked at, in order, and where it stopped.
pub struct Walk {
    seen: Vec<u64>,
    pub stop: Stop,
}

impl Table<'_> {
    fn holds(&self, position: u64, size: usize, hash: u64, key: u64) -> bool {
        let cell = self.cell(cell_of(position, size));
        cell.hash == hash && cell.key == key
    }

    /// Rules 2 and 3: the home, then the home's first delta and second deltas until one is 0.
    pub fn walk(&self, size: usize, hash: u64, key: u64) -> Walk {
        let mut seen = vec![hash];
        if self.holds(hash, size, hash, key) {
            return Walk { seen, stop: Stop::Met(hash) };
        }
        let mut at = hash;
        let mut delta = self.first(cell_of(hash, size));
        while delta != 0 {
            if seen.len() == size {
                return Walk { seen, stop: Stop::Broken };
            }
            at = at.wrapping_add(delta as u64);
            seen.push(at);
            if self.holds(at, size, hash, key) {
                return Walk { seen, stop: Stop::Met(at) };
            }
            delta = self.second(cell_of(at, size));
        }
        Walk { seen, stop: Stop::Tail(at) }
    }
}

// ---- the calls at fixed size. Checks run 1, 3, 2, then the walk

fn refused(said: Said) -> Told {
    Told { said, looked: 0 }
}

impl Table<'_> {
    pub fn find(&self, key: u64) -> Told {
        let Some(size) = self.shaped() else { return refused(Said::Shape) };
        let hash = hash_of(self.record.hasher, key);
        if hash == 0 {
            return refused(Said::ZeroHash);
        }
        let walk = self.walk(size, hash, key);
        let said = match walk.stop {
            Stop::Met(at) => match self.cell(cell_of(at, size)).value {
                NULL => Said::Absent,
                value => Said::Found(value),
            },
            Stop::Tail(_) => Said::Absent,
            Stop::Broken => Said::Broken,
        };
        Told { said, looked: walk.seen.len() as u64 }
    }

    pub fn remove(&mut self, key: u64) -> Told {
        let Some(size) = self.shaped() else { return refused(Said::Shape) };
        let hash = hash_of(self.record.hasher, key);
        if hash == 0 {
            return refused(Said::ZeroHash);
        }
        let walk = self.walk(size, hash, key);
        let looked = walk.seen.len() as u64;
        let said = match walk.stop {
            Stop::Met(at) => self.remove_at(cell_of(at, size)),
            Stop::Tail(_) => Said::Absent,
            Stop::Broken => Said::Broken,
        };
        Told { said, looked }
    }

    /// The value becomes null and nothing else changes; live takes 1, and may not fall below 0.
    pub fn remove_at(&mut self, i: usize) -> Said {
        let cell = self.cell(i);
        if cell.value == NULL {
            return Said::Absent;
        }
        if self.record.live == 0 {
            return Said::Broken;
        }
        self.record.live -= 1;
        self.set_cell(i, Cell { value: NULL, ..cell });
        Said::Removed(cell.value)
    }

    pub fn insert(&mut self, key: u64, value: u64) -> Told {
        let Some(size) = self.shaped() else { return refused(Said::Shape) };
        if value == NULL {
            return refused(Said::Null);
        }
        let hash = hash_of(self.record.hasher, key);
        if hash == 0 {
            return refused(Said::ZeroHash);
        }
        self.insert_stored(size, Cell { hash, key, value })
    }

    /// An insert past its checks, by the hash that the cell holds.
    pub fn insert_stored(&mut self, size: usize, new: Cell) -> Told {
        let home = cell_of(new.hash, size);
        if !self.cell(home).taken() {
            return Told { said: self.fill(size, home, new, |_| ()), looked: 1 };
        }
        let walk = self.walk(size, new.hash, new.key);
        let links = walk.seen.len() as u64 - 1;
        match walk.stop {
            Stop::Met(at) => Told { said: self.meet(size, cell_of(at, size), new.value), looked: links + 1 },
            Stop::Tail(tail) => self.probe(size, home, tail, links, new),
            Stop::Broken => Told { said: Said::Broken, looked: links + 1 },
        }
    }

    /// The key is there: its value is replaced, or revived where it was removed.
    fn meet(&mut self, size: usize, i: usize, value: u64) -> Said {
        let cell = self.cell(i);
        if cell.value != NULL {
            self.set_cell(i, Cell { value, ..cell });
            return Said::Replaced(cell.value);
        }
        if self.record.live == size as u64 {
            return Said::Broken;
        }
        self.record.live += 1;
        self.set_cell(i, Cell { value, ..cell });
        Said::Revived
    }

    /// An empty cell becomes the new one, with its link; live adds 1, and may not pass S. The deltas of the cell itself stay.
    fn fill(&mut self, size: usize, i: usize, new: Cell, link: impl Fn(&mut Self)) -> Said {
        if self.record.live == size as u64 {
            return Said::Broken;
        }
        self.record.live += 1;
        self.set_cell(i, new);
        link(self);
        Said::New
    }

    /// Rule 4: the next P positions from the tail. The distance goes into the home's first delta where no link was
    /// followed, else into the tail's second. With none empty: Full, carrying tail + P + 1.
    fn probe(&mut self, size: usize, home: usize, tail: u64, links: u64, new: Cell) -> Told {
        let window = WINDOW.min(size - 1) as u64;
        for distance in 1..=window {
            let i = cell_of(tail.wrapping_add(distance), size);
            if self.cell(i).taken() {
                continue;
            }
            let said = self.fill(size, i, new, |table| match links {
                0 => table.set_first(home, distance as u8),
                _ => table.set_second(cell_of(tail, size), distance as u8),
            });
            return Told { said, looked: 1 + links + distance };
        }
        Told { said: Said::Full(tail.wrapping_add(window + 1)), looked: 1 + links + window }
    }

    /// Makes a fresh table; the slices alone are tested. Says whether they passed.
    pub fn clear(&mut self, hasher: Hasher) -> bool {
        let Some(size) = self.size() else { return false };
        for i in 0..size {
            self.set_cell(i, EMPTY);
        }
        self.deltas.fill(0);
        *self.record = Record { hasher, live: 0 };
        true
    }
}

// ---- buckets out and in: the slices and the index alone are tested

/// Eight deltas, first ones and second ones, and four cells.
#[derive(Clone, Copy, PartialEq, Debug)]
pub struct Bucket {
    pub deltas: [u8; 8],
    pub cells: [Cell; 4],
}

pub const EMPTY_BUCKET: Bucket = Bucket { deltas: [0; 8], cells: [EMPTY; 4] };

impl Table<'_> {
    fn has_bucket(&self, b: u64) -> bool {
        self.size().is_some_and(|size| b < size as u64 / 4)
    }

    pub fn take(&self, b: u64) -> Option<Bucket> {
        if !self.has_bucket(b) {
            return None;
        }
        let b = b as usize;
        let deltas = self.deltas[8 * b..8 * b + 8].try_into().unwrap();
        Some(Bucket { deltas, cells: [0, 1, 2, 3].map(|j| self.cell(4 * b + j)) })
    }

    /// Writes any bucket and leaves the record. Says whether there is such a place.
    pub fn put(&mut self, b: u64, bucket: Bucket) -> bool {
        if !self.has_bucket(b) {
            return false;
        }
        let b = b as usize;
        self.deltas[8 * b..8 * b + 8].copy_from_slice(&bucket.deltas);
        for (j, cell) in bucket.cells.iter().enumerate() {
            self.set_cell(4 * b + j, *cell);
        }
        true
    }
}
