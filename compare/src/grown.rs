//! The model of moves and growing tables: document 01's section 'Growth and the two halves', on any memory and any record.
use crate::model::{hash_of, Cell, Hasher, Record, Said, Table, Told, EMPTY, NULL};

/// How a move ended.
#[derive(Clone, Copy, PartialEq, Debug)]
pub enum Moved {
    Moved,
    Shape,
    Full(u64),
    Broken,
}

/// Makes every cell empty and every delta 0.
fn wipe(words: &mut [u64], deltas: &mut [u8]) {
    for cell in words.chunks_mut(3) {
        cell.copy_from_slice(&[EMPTY.hash, EMPTY.key, EMPTY.value]);
    }
    deltas.fill(0);
}

/// The live cells go over into a clear table, in index order, by the hash that each holds. What comes first decides: Full, a value
/// under hash 0, an answer but New or Full; and last the total.
fn go_over(from: &[Cell], live: u64, to: &mut Table) -> Moved {
    let size = to.size().unwrap();
    for cell in from.iter().filter(|cell| cell.value != NULL) {
        if cell.hash == 0 {
            return Moved::Broken;
        }
        match to.insert_stored(size, *cell).said {
            Said::New => (),
            Said::Full(position) => return Moved::Full(position),
            _ => return Moved::Broken,
        }
    }
    if to.record.live == live { Moved::Moved } else { Moved::Broken }
}

impl Table<'_> {
    /// A plain move. Check 1 of both comes first; then the destination is cleared, and again under 4 and 5.
    pub fn move_into(&self, words: &mut [u64], deltas: &mut [u8]) -> Moved {
        let Some(size) = self.shaped() else { return Moved::Shape };
        let mut record = Record { hasher: self.record.hasher, live: 0 };
        let from: Vec<Cell> = (0..size).map(|i| self.cell(i)).collect();
        let mut to = Table { words, deltas, record: &mut record };
        if to.size().is_none() {
            return Moved::Shape;
        }
        wipe(to.words, to.deltas);
        let moved = go_over(&from, self.record.live, &mut to);
        if moved != Moved::Moved {
            wipe(to.words, to.deltas);
        }
        moved
    }
}

/// Two lent halves and the record of a growing table: half 0 is the lower one.
pub struct Halves<'a> {
    pub words: [&'a mut [u64]; 2],
    pub deltas: [&'a mut [u8]; 2],
    pub record: &'a mut Record,
    pub size: &'a mut u64,
    pub half: &'a mut usize,
}

/// What a growing insert says.
#[derive(Clone, Copy, PartialEq, Debug)]
pub enum Grew {
    Said(Said),
    NoRoom,
}

/// What a growing insert did: its tries by their sizes, with the one that found no room, if any.
#[derive(Clone, PartialEq, Debug)]
pub struct Growth {
    pub said: Grew,
    pub looked: u64,
    /// The sizes that the table had, from before the call on.
    pub sizes: Vec<u64>,
    pub tries: Vec<u64>,
    pub no_room: Option<u64>,
}

impl Growth {
    pub fn moves(&self) -> u64 {
        self.sizes.len() as u64 - 1
    }
}

fn allowed(cells: u64) -> bool {
    cells.is_power_of_two() && (8..=65_536).contains(&cells)
}

/// S*n/32 rounded up to a power of two, at least 8.
fn first_size(size: u64, n: u64) -> u64 {
    (size * n / 32).next_power_of_two().max(8)
}

impl Halves<'_> {
    /// C, where each half has the lengths of so many cells and that is an allowed number.
    pub fn cells(&self) -> Option<u64> {
        let cells = self.deltas[0].len() as u64 / 2;
        let fits = |half: usize| self.words[half].len() as u64 == 3 * cells && self.deltas[half].len() as u64 == 2 * cells;
        (fits(0) && fits(1) && allowed(cells)).then_some(cells)
    }

    fn size_fits(size: u64, cells: u64) -> bool {
        allowed(size) && size <= cells
    }

    /// Check 1.
    fn shaped(&self) -> Option<u64> {
        self.cells().filter(|cells| Self::size_fits(*self.size, *cells) && self.record.live <= *self.size)
    }

    /// Clears both halves and makes a fresh growing table in the lower one.
    pub fn clear(&mut self, size: u64, hasher: Hasher) -> bool {
        let good = self.cells().is_some_and(|cells| Self::size_fits(size, cells));
        if good {
            (0..2).for_each(|half| wipe(self.words[half], self.deltas[half]));
            *self.record = Record { hasher, live: 0 };
            *self.size = size;
            *self.half = 0;
        }
        good
    }

    /// The table in the front of the half in use, past check 1.
    fn table(&mut self) -> Table<'_> {
        let size = *self.size as usize;
        Table {
            words: &mut self.words[*self.half][..3 * size],
            deltas: &mut self.deltas[*self.half][..2 * size],
            record: self.record,
        }
    }

    /// The first 3S words of the half in use, or none of them under 1. It sees no deltas.
    pub fn used_words(&self) -> &[u64] {
        let (lower, upper) = (self.words[0].len() as u64, self.words[1].len() as u64);
        let cells = lower / 3;
        let good = lower == 3 * cells && upper == lower && allowed(cells);
        let good = good && Self::size_fits(*self.size, cells) && self.record.live <= *self.size;
        &self.words[*self.half][..if good { 3 * *self.size as usize } else { 0 }]
    }

    /// Its first 2S deltas. It sees no words.
    pub fn used_deltas(&self) -> &[u8] {
        let (lower, upper) = (self.deltas[0].len() as u64, self.deltas[1].len() as u64);
        let cells = lower / 2;
        let good = lower == 2 * cells && upper == lower && allowed(cells);
        let good = good && Self::size_fits(*self.size, cells) && self.record.live <= *self.size;
        &self.deltas[*self.half][..if good { 2 * *self.size as usize } else { 0 }]
    }

    /// A call on the table in use, where check 1 passes.
    pub fn call(&mut self, call: impl Fn(&mut Table) -> Told) -> Told {
        match self.shaped() {
            Some(_) => call(&mut self.table()),
            None => Told { said: Said::Shape, looked: 0 },
        }
    }

    pub fn insert(&mut self, key: u64, value: u64) -> Growth {
        let hash = hash_of(self.record.hasher, key);
        let mut growth = Growth { said: Grew::NoRoom, looked: 0, sizes: vec![*self.size], tries: Vec::new(), no_room: None };
        let refusal = match self.shaped() {
            None => Some(Said::Shape),
            Some(_) if value == NULL => Some(Said::Null),
            Some(_) if hash == 0 => Some(Said::ZeroHash),
            Some(_) => None,
        };
        if let Some(said) = refusal {
            growth.said = Grew::Said(said);
            return growth;
        }
        let new = Cell { hash, key, value };
        loop {
            let size = *self.size as usize;
            let told = self.table().insert_stored(size, new);
            growth.looked = told.looked;
            growth.said = match told.said {
                Said::Full(position) => match self.grow(position, &mut growth) {
                    Moved::Moved => continue,
                    Moved::Broken => Grew::Said(Said::Broken),
                    _ => Grew::NoRoom,
                },
                said => Grew::Said(said),
            };
            return growth;
        }
    }

    /// The live cells among 64 positions from the carried number minus 64.
    fn sample(&mut self, position: u64) -> u64 {
        let size = *self.size;
        let table = self.table();
        let live = |i: &u64| table.cell((position.wrapping_sub(64).wrapping_add(*i) % size) as usize).live();
        (0..64).filter(live).count() as u64
    }

    /// After Full: tries from the first size on, each twice the one before. Full where a size above C is next.
    fn grow(&mut self, position: u64, growth: &mut Growth) -> Moved {
        let cells = self.cells().unwrap();
        let mut size = first_size(*self.size, self.sample(position));
        loop {
            if size > cells {
                growth.no_room = Some(size);
                return Moved::Full(position);
            }
            growth.tries.push(size);
            match self.attempt(size) {
                Moved::Full(_) => size *= 2,
                Moved::Moved => {
                    growth.sizes.push(size);
                    return Moved::Moved;
                }
                other => return other,
            }
        }
    }

    /// A try clears the whole spare half, and moves into its front. Where that fails it clears it again; else the old half is
    /// cleared whole, and the halves change roles.
    fn attempt(&mut self, size: u64) -> Moved {
        let (spare, live) = (1 - *self.half, self.record.live);
        let table = self.table();
        let from: Vec<Cell> = (0..table.size().unwrap()).map(|i| table.cell(i)).collect();
        wipe(self.words[spare], self.deltas[spare]);
        let mut record = Record { hasher: self.record.hasher, live: 0 };
        let words = &mut self.words[spare][..3 * size as usize];
        let moved = go_over(&from, live, &mut Table { words, deltas: &mut self.deltas[spare][..2 * size as usize], record: &mut record });
        if moved != Moved::Moved {
            wipe(self.words[spare], self.deltas[spare]);
            return moved;
        }
        wipe(self.words[*self.half], self.deltas[*self.half]);
        *self.half = spare;
        *self.size = size;
        moved
    }
}
