//! The model's checker: document 01's section 'Sound tables', rule by rule. Each of the eight rules is tested by itself, on any
//! memory, so that it can be told which of them fail.
use crate::model::{hash_of, Table, EMPTY, NULL, WINDOW};

/// What the checker says.
#[derive(Clone, Copy, PartialEq, Debug)]
pub enum Check {
    Sound,
    Shape,
    Unsound,
}

impl Table<'_> {
    pub fn check(&self) -> Check {
        match self.fails() {
            None => Check::Shape,
            Some(rules) if rules.is_empty() => Check::Sound,
            Some(_) => Check::Unsound,
        }
    }

    /// The rules that fail, by their place in document 01's list, from 1. None where check 1 refuses the table.
    pub fn fails(&self) -> Option<Vec<usize>> {
        let size = self.shaped()?;
        let holds = [
            self.empty_cells_are_clear(size),
            self.hashes_are_the_keys(size),
            self.keys_differ(size),
            self.deltas_are_near(size),
            self.chains_end_among_their_own(size),
            self.taken_cells_are_reached(size),
            self.homes_have_no_second(size),
            self.live_counts(size),
        ];
        Some((1..=8).filter(|rule| !holds[rule - 1]).collect())
    }

    /// The home of a cell that is taken.
    pub fn home(&self, size: usize, i: usize) -> usize {
        (self.cell(i).hash % size as u64) as usize
    }

    /// The chain of a home, past the home: the cells that its first delta and then second deltas reach, in order, until a delta
    /// is 0. One that does not end is left after S links; all its cells are among those.
    pub fn chain(&self, size: usize, home: usize) -> Vec<usize> {
        let mut cells = Vec::new();
        let mut at = home;
        let mut delta = self.first(home);
        while delta != 0 && cells.len() < size {
            at = (at + delta as usize) % size;
            cells.push(at);
            delta = self.second(at);
        }
        cells
    }

    pub fn taken_cells(&self, size: usize) -> Vec<usize> {
        (0..size).filter(|i| self.cell(*i).taken()).collect()
    }

    pub fn empty_cells(&self, size: usize) -> Vec<usize> {
        (0..size).filter(|i| !self.cell(*i).taken()).collect()
    }

    /// 1. Each cell that isn't taken has key 0, value null and both deltas 0.
    fn empty_cells_are_clear(&self, size: usize) -> bool {
        self.empty_cells(size).iter().all(|i| {
            let cell = self.cell(*i);
            cell.key == EMPTY.key && cell.value == NULL && self.first(*i) == 0 && self.second(*i) == 0
        })
    }

    /// 2. Every taken cell's hash is its key's.
    fn hashes_are_the_keys(&self, size: usize) -> bool {
        self.taken_cells(size).iter().all(|i| {
            let cell = self.cell(*i);
            cell.hash == hash_of(self.record.hasher, cell.key)
        })
    }

    /// 3. Keys of taken cells differ.
    fn keys_differ(&self, size: usize) -> bool {
        let mut keys: Vec<u64> = self.taken_cells(size).iter().map(|i| self.cell(*i).key).collect();
        keys.sort();
        keys.windows(2).all(|two| two[0] != two[1])
    }

    /// 4. Deltas are at most min(128, S-1).
    fn deltas_are_near(&self, size: usize) -> bool {
        self.deltas.iter().all(|delta| *delta as usize <= WINDOW.min(size - 1))
    }

    /// 5. Each home's chain ends within S-1 links and past the home holds only taken cells of that home, never the home cell
    /// again. Each of the S cells is a home, whatever it holds.
    fn chains_end_among_their_own(&self, size: usize) -> bool {
        (0..size).all(|home| {
            let chain = self.chain(size, home);
            let own = |i: &usize| self.cell(*i).taken() && self.home(size, *i) == home && *i != home;
            chain.len() <= size - 1 && chain.iter().all(own)
        })
    }

    /// 6. Each taken cell is at its home or on its home's chain.
    fn taken_cells_are_reached(&self, size: usize) -> bool {
        self.taken_cells(size).iter().all(|i| {
            let home = self.home(size, *i);
            *i == home || self.chain(size, home).contains(i)
        })
    }

    /// 7. A cell at its own home has second delta 0.
    fn homes_have_no_second(&self, size: usize) -> bool {
        self.taken_cells(size).iter().all(|i| self.home(size, *i) != *i || self.second(*i) == 0)
    }

    /// 8. Live counts taken cells that are not removed.
    fn live_counts(&self, size: usize) -> bool {
        let live = (0..size).filter(|i| self.cell(*i).live()).count();
        self.record.live == live as u64
    }
}
