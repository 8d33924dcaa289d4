//! The Rust's own growth behind requests: a map made with memory for tables of at most C cells, which refuses what is greater.
use crate::form::*;
use crate::memory::{Memory, Tries};
use crate::model::{Hasher, Record, EMPTY, NULL};
use crate::real::{Laid, Rust};
use crate::served::{checked, hasher_number, hasher_of, Served};
use leapfrog::hashmap::peek::Map;
use leapfrog::{FnvHasher, MurmurHasher, SimpleHasher};
use std::panic::{catch_unwind, set_hook, take_hook, AssertUnwindSafe};
use std::sync::Once;

struct Lent {
    map: Box<dyn Rust>,
    memory: Memory,
    /// C, and the half in use: it changes with every move.
    cells: usize,
    half: u64,
    /// How many inserts revived a key: the Rust's `len` is short by so many.
    revived: u64,
}

/// The Rust's growing table beside the model: none while it is forged or there is none.
#[derive(Default)]
pub struct Growing {
    lent: Option<Lent>,
    /// How often the sizes tried, the moves or the size refused were not the model's.
    pub other_tries: u64,
    pub growths: u64,
}

/// The Rust ends with a panic where it is refused memory: that one is expected, and not printed.
fn quiet() {
    static ONCE: Once = Once::new();
    ONCE.call_once(|| {
        let before = take_hook();
        set_hook(Box::new(move |info| {
            if !info.payload_as_str().is_some_and(|said| said.contains("AllocError")) {
                before(info);
            }
        }));
    });
}

fn fresh(cells: u64, size: u64, hasher: Hasher) -> Lent {
    let memory = Memory::new(cells);
    let (size, lent) = (size as usize, memory.clone());
    let map: Box<dyn Rust> = match hasher {
        Hasher::Simple => Box::new(Map::<SimpleHasher, Memory>::with_capacity_and_hasher_in(size, Default::default(), lent)),
        Hasher::Murmur => Box::new(Map::<MurmurHasher, Memory>::with_capacity_and_hasher_in(size, Default::default(), lent)),
        Hasher::Fnv => Box::new(Map::<FnvHasher, Memory>::with_capacity_and_hasher_in(size, Default::default(), lent)),
    };
    memory.tries();
    Lent { map, memory, cells: cells as usize, half: 0, revived: 0 }
}

impl Growing {
    /// The Rust's answer, or none where the request is off its domain.
    pub fn serve(&mut self, request: &Request, model: &Answer, served: &Served) -> Option<Answer> {
        match request.kind {
            HALVES | CLEAR_HALVES if model.number == number("Cleared") => {
                self.lent = Some(fresh(served.lent.0 as u64 / 3, model.capacity, hasher_of(model.hasher)?));
            }
            NOTHING | DIGESTS | DIGEST | SHOW | CLEAR_HALVES | GROW..=GROW_CHECK => (),
            _ => self.lent = None,
        }
        let lent = self.lent.as_mut()?;
        let mut answer = *model;
        let asked = lent.ask(request);
        if let Some((number, value, tries)) = &asked {
            (answer.number, answer.values[0]) = (*number, *value);
            if request.kind == GROW {
                answer.values[1] = tries.moves;
                lent.half = (lent.half + tries.moves) % 2;
                self.growths += tries.moves;
                let growth = served.growth.as_ref()?;
                self.other_tries += (tries.sizes != growth.tries || tries.refused != growth.no_room) as u64;
            }
        }
        answer.live = (lent.map.len() as u64).wrapping_add(lent.revived);
        if (HALVES..=GROW_CHECK).contains(&request.kind) {
            (answer.capacity, answer.values[2]) = (lent.map.capacity() as u64, lent.half);
        }
        let record = Record { hasher: hasher_of(model.hasher)?, live: answer.live };
        if model.digest != 0 || [PARTS, GROW_CHECK].contains(&request.kind) {
            let mut laid = Laid::of(lent.map.as_ref(), record);
            match request.kind {
                PARTS => (answer.values[0], answer.values[1]) = laid.parts(),
                GROW_CHECK => answer.number = number(checked(laid.check())),
                _ => (),
            }
            if model.digest != 0 {
                answer.digest = lent.digest(&laid, record);
            }
        }
        let told = asked.is_some() || [DIGEST, HALVES, PARTS, GROW_CHECK].contains(&request.kind);
        (told || answer != *model).then_some(answer)
    }
}

impl Lent {
    /// Asks the Rust: what it says by number, with its value and the tries. None where it is not to be asked.
    fn ask(&mut self, request: &Request) -> Option<(u64, u64, Tries)> {
        let [key, value, ..] = request.args;
        let map = &mut self.map;
        if ![GROW, GROW_FIND, GROW_REMOVE].contains(&request.kind) || map.hash(key) == 0 {
            return None;
        }
        let (said, value) = match request.kind {
            GROW if value == NULL => return None,
            GROW => {
                quiet();
                match catch_unwind(AssertUnwindSafe(|| map.insert(key, value))) {
                    Ok(None) => ("New", 0),
                    Ok(Some(NULL)) => {
                        self.revived += 1;
                        ("Revived", 0)
                    }
                    Ok(Some(old)) => ("Replaced", old),
                    Err(_) => ("refused 6 NoRoom", 0),
                }
            }
            GROW_FIND => map.get(key).map_or(("Absent", 0), |value| ("Found", value)),
            _ => map.remove(key).map_or(("Absent", 0), |value| ("Removed", value)),
        };
        Some((number(said), value, self.memory.tries()))
    }

    /// The digest of two halves: the Rust's table in the front of the one in use, all else clear.
    fn digest(&self, laid: &Laid, record: Record) -> u64 {
        let mut digest = Digest::new(hasher_number(record.hasher), record.live);
        let clear = [EMPTY.hash, EMPTY.key, EMPTY.value];
        for half in 0..2 {
            let (used, deltas): (&[u64], &[u8]) = if half == self.half { (&laid.words, &laid.deltas) } else { (&[], &[]) };
            let rest = clear.iter().cycle().take(3 * self.cells - used.len());
            digest.words(&used.iter().chain(rest).copied().collect::<Vec<u64>>());
            digest.bytes(&[deltas, &vec![0; 2 * self.cells - deltas.len()]].concat());
        }
        digest.0
    }
}
