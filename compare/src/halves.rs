//! The model behind requests on both halves: kinds 48 to 63.
use crate::form::*;
use crate::grown::{Grew, Halves, Moved};
use crate::model::Table;
use crate::served::{carrying, checked, hasher_number, hasher_of, numbered, plain, told, Line, Served};

const CELLS: u64 = 65_536;

/// A digest of words or bytes with their length.
fn part(digest: impl Fn(&mut Digest)) -> u64 {
    let mut all = Digest(1);
    digest(&mut all);
    all.0
}

impl Served {
    /// What is lent of the arrays and of the spare ones, as two halves.
    pub fn halves(&mut self) -> Halves<'_> {
        Halves {
            words: [&mut self.words[..self.lent.0], &mut self.spare_words[..self.spare.0]],
            deltas: [&mut self.deltas[..self.lent.1], &mut self.spare_deltas[..self.spare.1]],
            record: &mut self.record,
            size: &mut self.size,
            half: &mut self.half,
        }
    }

    pub fn halved(&mut self, request: &Request) -> Line {
        let [a, b, c, _] = request.args;
        match request.kind {
            MOVE => self.moved(0),
            MOVE_BACK => self.moved(1),
            HALVES => {
                if a <= CELLS {
                    self.lent = (3 * a as usize, 2 * a as usize);
                    self.spare = self.lent;
                }
                self.clear_halves(b, c)
            }
            CLEAR_HALVES => self.clear_halves(a, b),
            IN_USE => {
                (self.size, self.half) = (a, (b != 0) as usize);
                plain("done")
            }
            GROW => self.grow(a, b),
            GROW_FIND => told(self.halves().call(|table| table.find(a))),
            GROW_REMOVE => told(self.halves().call(|table| table.remove(a))),
            PARTS => self.parts(),
            GROW_CHECK => self.check_halves(),
            _ => plain("no such request"),
        }
    }

    /// A plain move out of the table's arrays, 0, or out of the spare ones, 1.
    fn moved(&mut self, from: usize) -> Line {
        let Halves { words: [w, v], deltas: [d, e], record, .. } = self.halves();
        let (source, to) = if from == 0 { ((w, d), (v, e)) } else { ((v, e), (w, d)) };
        let moved = Table { words: source.0, deltas: source.1, record }.move_into(to.0, to.1);
        match moved {
            Moved::Moved => Line(number("Moved"), [hasher_number(self.record.hasher), self.record.live, 0], 0),
            Moved::Shape => plain("refused 1 Shape"),
            Moved::Full(position) => carrying("refused 4 Full", position),
            Moved::Broken => plain("refused 5 Broken"),
        }
    }

    fn clear_halves(&mut self, size: u64, hasher: u64) -> Line {
        let Some(hasher) = hasher_of(hasher) else { return plain("no such request") };
        plain(if self.halves().clear(size, hasher) { "Cleared" } else { "refused 1 Shape" })
    }

    fn grow(&mut self, key: u64, value: u64) -> Line {
        let growth = self.halves().insert(key, value);
        let (said, old) = match growth.said {
            Grew::Said(said) => numbered(said),
            Grew::NoRoom => (number("refused 6 NoRoom"), 0),
        };
        let line = Line(said, [old, growth.moves(), 0], growth.looked);
        self.growth = Some(growth);
        line
    }

    fn parts(&mut self) -> Line {
        let halves = self.halves();
        let words = part(|digest| digest.words(halves.used_words()));
        let deltas = part(|digest| digest.bytes(halves.used_deltas()));
        Line(number("Parts"), [words, deltas, 0], 0)
    }

    fn check_halves(&mut self) -> Line {
        let halves = self.halves();
        let (mut words, mut deltas) = (halves.used_words().to_vec(), halves.used_deltas().to_vec());
        let mut record = self.record;
        plain(checked(Table { words: &mut words, deltas: &mut deltas, record: &mut record }.check()))
    }
}
