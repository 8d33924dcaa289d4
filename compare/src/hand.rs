//! The cursor and the entry that are held between requests, and requests for them; and figures of how entries were used.
use crate::entries::{Action, Cause, Entry, Place, Step, CAUSES};
use crate::form::*;
use crate::model::{Said, Table};
use crate::served::numbered;

/// Where the held entry comes from: made by the last request, made before, or forged.
#[derive(Clone, Copy, PartialEq)]
enum Origin {
    AtOnce,
    Late,
    Forged,
}

pub struct Hand {
    pub position: u64,
    pub entry: Entry,
    origin: Origin,
    pub uses: Uses,
}

/// Uses of entries, by origin: how many, how many were carried out, and how many Stale by cause.
#[derive(Default)]
pub struct Uses {
    all: [u64; 3],
    done: [u64; 3],
    stale: [[u64; 6]; 3],
    /// Entries that were Stale although used at once for their own case's action: there must be none.
    pub false_stale: u64,
}

impl Default for Hand {
    fn default() -> Hand {
        let entry = Entry { key: 0, hash: 0, place: Place::Vacant };
        Hand { position: 0, entry, origin: Origin::Forged, uses: Uses::default() }
    }
}

/// What was said by number, and its values.
pub type Told = (u64, [u64; 3]);

fn plain(said: &str) -> Told {
    (number(said), [0; 3])
}

fn told(said: Said) -> Told {
    let (number, value) = numbered(said);
    (number, [value, 0, 0])
}

fn shown(entry: Entry) -> Told {
    match entry.place {
        Place::Occupied(cell) => (number("Occupied"), [entry.hash, cell, 0]),
        Place::Vacant => (number("Vacant"), [entry.hash, 0, 0]),
    }
}

/// What a kind of request does with an entry.
fn action(kind: u64, value: u64) -> Option<Action> {
    match kind {
        ENTRY_GET => Some(Action::Get),
        ENTRY_REPLACE => Some(Action::Replace(value)),
        ENTRY_REMOVE | REMOVE_ENTRY => Some(Action::Remove),
        ENTRY_INSERT => Some(Action::Insert(value)),
        OR_INSERT => Some(Action::OrInsert(value)),
        INSERT_ENTRY => Some(Action::InsertEntry(value)),
        _ => None,
    }
}

impl Hand {
    /// Any other request comes between: from now on the entry is used late.
    pub fn passed(&mut self) {
        if self.origin == Origin::AtOnce {
            self.origin = Origin::Late;
        }
    }

    pub fn serve(&mut self, table: &mut Table, request: &Request) -> Told {
        let [a, b, c, _] = request.args;
        match request.kind {
            CURSOR => {
                self.position = a;
                plain("done")
            }
            STEP => self.step(table),
            SET => {
                self.passed();
                told(table.set_value(a, b))
            }
            ENTRY => match table.entry(a) {
                Ok(entry) => self.hold(entry, Origin::AtOnce, shown(entry)),
                Err(said) => told(said),
            },
            FORGE_OCCUPIED => self.hold(Entry { key: a, hash: b, place: Place::Occupied(c) }, Origin::Forged, plain("done")),
            FORGE_VACANT => self.hold(Entry { key: a, hash: b, place: Place::Vacant }, Origin::Forged, plain("done")),
            ENTRY_KEY => (number("Number"), [self.entry.key, 0, 0]),
            kind => match action(kind, a) {
                Some(action) => self.act(table, kind, action),
                None => plain("no such request"),
            },
        }
    }

    fn hold(&mut self, entry: Entry, origin: Origin, told: Told) -> Told {
        (self.entry, self.origin) = (entry, origin);
        told
    }

    fn step(&mut self, table: &Table) -> Told {
        let (step, position) = table.step(self.position);
        self.position = position;
        match step {
            Step::Next { index, key, value } => (number("Next"), [index, key, value]),
            Step::End => (number("End"), [position, 0, 0]),
            Step::Shape => (number("refused 1 Shape"), [position, 0, 0]),
        }
    }

    fn act(&mut self, table: &mut Table, kind: u64, action: Action) -> Told {
        let used = table.use_entry(self.entry, action);
        self.uses.count(self.origin, action.serves(self.entry.place), used.said, used.cause);
        self.entry = used.entry;
        if action != Action::Get {
            self.passed();
        }
        let (said, value) = numbered(used.said);
        match kind {
            REMOVE_ENTRY => (if said == number("Removed") { number("Pair") } else { said }, [self.entry.key, value, 0]),
            ENTRY_INSERT | OR_INSERT | INSERT_ENTRY => match self.entry.place {
                Place::Occupied(cell) => (said, [value, 1, cell]),
                Place::Vacant => (said, [value, 0, 0]),
            },
            _ => (said, [value, 0, 0]),
        }
    }
}

impl Uses {
    fn count(&mut self, origin: Origin, own: bool, said: Said, cause: Option<Cause>) {
        let by = origin as usize;
        self.all[by] += 1;
        self.done[by] += (numbered(said).0 > 9) as u64;
        if let Some(cause) = cause {
            self.stale[by][CAUSES.iter().position(|c| c.0 == cause).unwrap()] += 1;
            self.false_stale += (origin == Origin::AtOnce && own) as u64;
        }
    }

    pub fn print(&self) {
        for (by, name) in ["at once", "late", "forged"].into_iter().enumerate() {
            let stale: Vec<String> = CAUSES.iter().zip(self.stale[by]).filter(|c| c.1 > 0).map(|c| format!("{} {}", c.0 .1, c.1)).collect();
            let sum: u64 = self.stale[by].iter().sum();
            println!("entries used, {name}: {}, carried out {}, Stale {sum}: {}", self.all[by], self.done[by], stale.join("; "));
        }
        println!("Stale although used at once for their own case's action: {}", self.false_stale);
    }
}
