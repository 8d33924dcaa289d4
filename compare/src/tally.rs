//! Counts of what a run came upon: forged memory, moves and growth.
use crate::form::*;
use crate::grown::{Grew, Growth};
use crate::model::Said;
use crate::served::Served;

#[derive(Default)]
pub struct Tally {
    /// Memories that were written by hand, and then met a call; whether there is one now.
    forged: u64,
    written: bool,
    calls: u64,
    most: u64,
    /// Moves that lower, keep, double or more than double the size.
    lower: u64,
    keep: u64,
    double: u64,
    more: u64,
    /// Tries that were Full.
    failed: u64,
    /// NoRoom with no try since the last Full, after a try that was Full, and those that follow a move of the same call.
    no_try: u64,
    tried: u64,
    after_move: u64,
    broken: u64,
    /// Plain moves into fewer cells, as many, more; then Full and Broken.
    plain: [u64; 5],
}

impl Tally {
    pub fn count(&mut self, request: &Request, answer: &Answer, served: &Served) {
        match request.kind {
            RECORD | WORD | DELTA | SPARE_WORD | SPARE_DELTA | IN_USE => self.written = true,
            // these do not look at what is there
            TABLE | CLEAR | HALVES | CLEAR_HALVES => self.written = false,
            LEN | IS_EMPTY | HASH | CURSOR | FORGE_OCCUPIED | FORGE_VACANT | ENTRY_KEY => (),
            INSERT.. => self.forged += std::mem::take(&mut self.written) as u64,
            _ => (),
        }
        match request.kind {
            GROW => self.grew(served.growth.as_ref().unwrap()),
            MOVE | MOVE_BACK => self.moved(request.kind, answer, served),
            _ => (),
        }
    }

    fn grew(&mut self, growth: &Growth) {
        self.calls += (growth.moves() > 0) as u64;
        self.most = self.most.max(growth.moves());
        for two in growth.sizes.windows(2) {
            match (two[0], two[1]) {
                (a, b) if b < a => self.lower += 1,
                (a, b) if b == a => self.keep += 1,
                (a, b) if b == 2 * a => self.double += 1,
                _ => self.more += 1,
            }
        }
        let broken = growth.said == Grew::Said(Said::Broken) && !growth.tries.is_empty();
        self.broken += broken as u64;
        self.failed += growth.tries.len() as u64 - growth.moves() - broken as u64;
        if let Some(size) = growth.no_room {
            let tried = growth.tries.last() == Some(&(size / 2)) && growth.sizes.last() != Some(&(size / 2));
            self.tried += tried as u64;
            self.no_try += !tried as u64;
            self.after_move += (growth.moves() > 0) as u64;
        }
    }

    fn moved(&mut self, kind: u64, answer: &Answer, served: &Served) {
        let (from, to) = if kind == MOVE { (served.lent, served.spare) } else { (served.spare, served.lent) };
        let place = match said(answer.number) {
            "Moved" if to < from => 0,
            "Moved" if to == from => 1,
            "Moved" => 2,
            "refused 4 Full" => 3,
            "refused 5 Broken" => 4,
            _ => return,
        };
        self.plain[place] += 1;
    }

    pub fn print(&self) {
        println!("memories written by hand that met a call: {}", self.forged);
        let Tally { calls, most, lower, keep, double, more, failed, no_try, tried, after_move, broken, plain, .. } = self;
        println!("inserts that grew: {calls}, with up to {most} moves; tries that were Full: {failed}");
        println!("  moves that lower the size: {lower}, keep it: {keep}, double it: {double}, more than double it: {more}");
        println!("  NoRoom with no try: {no_try}, after a try: {tried}; after a move of the same call: {after_move}");
        println!("  Broken in a try: {broken}");
        let [below, alike, above, full, broken] = plain;
        println!("plain moves into fewer cells: {below}, as many: {alike}, more: {above}; Full: {full}, Broken: {broken}");
    }
}
