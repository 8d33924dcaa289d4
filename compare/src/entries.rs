//! The model of the cursor, of setting a value and of entries, written from document 01's section on them.
use crate::model::{cell_of, hash_of, Cell, Said, Stop, Table, NULL};

/// What a step hands back.
#[derive(Clone, Copy, PartialEq, Debug)]
pub enum Step {
    Next { index: u64, key: u64, value: u64 },
    End,
    Shape,
}

#[derive(Clone, Copy, PartialEq, Debug)]
pub enum Place {
    Occupied(u64),
    Vacant,
}

#[derive(Clone, Copy, PartialEq, Debug)]
pub struct Entry {
    pub key: u64,
    pub hash: u64,
    pub place: Place,
}

/// What an entry is used for. The last two serve either case.
#[derive(Clone, Copy, PartialEq, Debug)]
pub enum Action {
    Get,
    Replace(u64),
    Remove,
    Insert(u64),
    OrInsert(u64),
    InsertEntry(u64),
}

/// Why an entry is Stale, in document 01's order; the cell of an Occupied one by what it holds now.
#[derive(Clone, Copy, PartialEq, Debug)]
pub enum Cause {
    CellEmpty,
    CellRemoved,
    CellOfAnother,
    KeyFound,
    HashNotItsKeys,
    OtherCase,
}

pub const CAUSES: [(Cause, &str); 6] = [
    (Cause::CellEmpty, "its cell is empty"),
    (Cause::CellRemoved, "its cell holds the key removed"),
    (Cause::CellOfAnother, "its cell holds another hash or key"),
    (Cause::KeyFound, "Vacant, and the key is Found"),
    (Cause::HashNotItsKeys, "the hash is not its key's"),
    (Cause::OtherCase, "used for the other case's action"),
];

impl Action {
    fn offered(&self) -> Option<u64> {
        match *self {
            Action::Get | Action::Remove => None,
            Action::Replace(value) | Action::Insert(value) | Action::OrInsert(value) | Action::InsertEntry(value) => Some(value),
        }
    }

    /// Whether it is an action for entries of that case.
    pub fn serves(&self, place: Place) -> bool {
        match self {
            Action::Get | Action::Replace(_) | Action::Remove => place != Place::Vacant,
            Action::Insert(_) => place == Place::Vacant,
            Action::OrInsert(_) | Action::InsertEntry(_) => true,
        }
    }
}

/// What using an entry gave: the entry handed back, and why it was Stale.
pub struct Used {
    pub said: Said,
    pub entry: Entry,
    pub cause: Option<Cause>,
}

impl Table<'_> {
    /// The next live cell in index order from a position on, and the position past it. From S on it is the end.
    pub fn step(&self, position: u64) -> (Step, u64) {
        let Some(size) = self.shaped() else { return (Step::Shape, position) };
        for i in position..size as u64 {
            let cell = self.cell(i as usize);
            if cell.live() {
                return (Step::Next { index: i, key: cell.key, value: cell.value }, i + 1);
            }
        }
        (Step::End, position.max(size as u64))
    }

    pub fn set_value(&mut self, index: u64, value: u64) -> Said {
        let size = self.shaped().unwrap_or(0);
        if index >= size as u64 {
            return Said::Shape;
        }
        if value == NULL {
            return Said::Null;
        }
        let cell = self.cell(index as usize);
        if !cell.live() {
            return Said::Absent;
        }
        self.set_cell(index as usize, Cell { value, ..cell });
        Said::Replaced(cell.value)
    }

    /// An entry of that key: Occupied where a find gives a value.
    pub fn entry(&self, key: u64) -> Result<Entry, Said> {
        let hash = hash_of(self.record.hasher, key);
        let said = self.find(key).said;
        match said {
            Said::Found(_) => {
                let size = self.shaped().unwrap();
                let Stop::Met(at) = self.walk(size, hash, key).stop else { unreachable!() };
                Ok(Entry { key, hash, place: Place::Occupied(cell_of(at, size) as u64) })
            }
            Said::Absent => Ok(Entry { key, hash, place: Place::Vacant }),
            refused => Err(refused),
        }
    }

    /// Why an entry that is used so is Stale.
    fn stale(&self, entry: Entry, action: Action) -> Option<Cause> {
        let outdated = match entry.place {
            Place::Occupied(i) => match self.cell(i as usize) {
                cell if !cell.taken() => Some(Cause::CellEmpty),
                cell if (cell.hash, cell.key) != (entry.hash, entry.key) => Some(Cause::CellOfAnother),
                cell => (!cell.live()).then_some(Cause::CellRemoved),
            },
            Place::Vacant => matches!(self.find(entry.key).said, Said::Found(_)).then_some(Cause::KeyFound),
        };
        let other_hash = entry.hash != hash_of(self.record.hasher, entry.key);
        let other_case = !action.serves(entry.place);
        outdated.or(other_hash.then_some(Cause::HashNotItsKeys)).or(other_case.then_some(Cause::OtherCase))
    }

    /// Uses an entry, at once or late. Checks run 1, 3, 2, 7, then what the action does.
    pub fn use_entry(&mut self, entry: Entry, action: Action) -> Used {
        let refused = |said: Said| Used { said, entry, cause: None };
        let Some(size) = self.shaped() else { return refused(Said::Shape) };
        if matches!(entry.place, Place::Occupied(i) if i >= size as u64) {
            return refused(Said::Shape);
        }
        if action.offered() == Some(NULL) {
            return refused(Said::Null);
        }
        if hash_of(self.record.hasher, entry.key) == 0 {
            return refused(Said::ZeroHash);
        }
        if let Some(cause) = self.stale(entry, action) {
            return Used { said: Said::Stale, entry, cause: Some(cause) };
        }
        match entry.place {
            Place::Occupied(i) => refused(self.use_cell(i as usize, action)),
            Place::Vacant => self.use_vacant(size, entry, action.offered().unwrap()),
        }
    }

    /// At the cell of an Occupied entry, with no walk.
    fn use_cell(&mut self, i: usize, action: Action) -> Said {
        let cell = self.cell(i);
        match action {
            Action::Get | Action::OrInsert(_) => Said::Found(cell.value),
            Action::Remove => self.remove_at(i),
            Action::Replace(value) | Action::InsertEntry(value) | Action::Insert(value) => {
                self.set_cell(i, Cell { value, ..cell });
                Said::Replaced(cell.value)
            }
        }
    }

    /// An insert at fixed size. The entry handed back has the cell that was changed.
    fn use_vacant(&mut self, size: usize, entry: Entry, value: u64) -> Used {
        let before = self.words.to_vec();
        let said = self.insert_stored(size, Cell { hash: entry.hash, key: entry.key, value }).said;
        let changed = (0..size).find(|i| self.words[3 * i..3 * i + 3] != before[3 * i..3 * i + 3]);
        let place = changed.map_or(Place::Vacant, |i| Place::Occupied(i as u64));
        Used { said, entry: Entry { place, ..entry }, cause: None }
    }
}
