//! Ways to spoil a sound table that was made by calls, each with an aim at one of document 01's rules, and what a check must
//! then give.
use crate::checks::Expect;
use crate::form::*;
use crate::keys::*;
use crate::model::{hash_of, Cell, Record, Table, EMPTY, NULL, WINDOW};
use crate::scenes::ask;
use crate::served::hasher_number;

/// A spoiling, and what the scene says of it.
pub type Spoiling = Option<(Vec<Request>, Expect)>;
pub type Aim = fn(&mut Random, &Table, usize) -> Spoiling;

/// Each aims at one of document 01's eight rules, in their order.
pub const AIMS: &[Aim] = &[
    key_of_empty,
    value_of_empty,
    second_of_empty,
    first_of_empty,
    hash_of_same_home,
    key_of_other_hash,
    key_twice,
    key_twice_by_one_word,
    delta_too_great,
    cell_too_far,
    chain_into_stranger,
    chain_into_empty,
    chain_home_again,
    chain_in_cycle,
    chain_cut,
    chain_past_a_cell,
    second_at_home,
    live_off_by_one,
    value_makes_removed,
    value_makes_live,
    value_is_another,
    hasher_is_another,
];

fn pick(random: &mut Random, from: &[usize]) -> Option<usize> {
    (!from.is_empty()).then(|| random.pick(from))
}

fn word(i: usize, x: u64) -> Request {
    ask(WORD, &[i as u64, x])
}

fn first_at(i: usize) -> usize {
    8 * (i / 4) + i % 4
}

fn second_at(i: usize) -> usize {
    first_at(i) + 4
}

fn delta(at: usize, x: usize) -> Request {
    ask(DELTA, &[at as u64, x as u64])
}

fn window(size: usize) -> usize {
    WINDOW.min(size - 1)
}

/// How far it is from one cell to another.
fn distance(size: usize, from: usize, to: usize) -> usize {
    (to + size - from) % size
}

/// A delta other than 0 that is not too great.
fn some_delta(random: &mut Random, size: usize) -> usize {
    1 + random.below(window(size) as u64) as usize
}

/// A home with its whole chain: the home cell first.
fn homed(random: &mut Random, table: &Table, size: usize, least: usize) -> Option<Vec<usize>> {
    let whole = |home: usize| [vec![home], table.chain(size, home)].concat();
    let homes: Vec<usize> = table.taken_cells(size).into_iter().filter(|i| table.chain(size, *i).len() >= least).collect();
    pick(random, &homes).map(whole)
}

/// The place of the delta that leads on from a chain's cell number n, the home being number 0.
fn link_at(chain: &[usize], n: usize) -> usize {
    if n == 0 { first_at(chain[0]) } else { second_at(chain[n]) }
}

/// The chain's last delta leads to that cell, where it can.
fn last_to(random: &mut Random, size: usize, chain: &[usize], targets: impl Iterator<Item = usize>) -> Option<Request> {
    let tail = chain[chain.len() - 1];
    let near: Vec<usize> = targets.filter(|to| (1..=window(size)).contains(&distance(size, tail, *to))).collect();
    let to = pick(random, &near)?;
    Some(delta(link_at(chain, chain.len() - 1), distance(size, tail, to)))
}

// ---- rule 1

fn key_of_empty(random: &mut Random, table: &Table, size: usize) -> Spoiling {
    let i = pick(random, &table.empty_cells(size))?;
    Some((vec![word(3 * i + 1, random.next().max(1))], Expect::Alone(1)))
}

fn value_of_empty(random: &mut Random, table: &Table, size: usize) -> Spoiling {
    let i = pick(random, &table.empty_cells(size))?;
    Some((vec![word(3 * i + 2, random.value())], Expect::Alone(1)))
}

fn second_of_empty(random: &mut Random, table: &Table, size: usize) -> Spoiling {
    let i = pick(random, &table.empty_cells(size))?;
    Some((vec![delta(second_at(i), some_delta(random, size))], Expect::Alone(1)))
}

/// Its chain then holds a cell that is not of that home: rule 5 fails too.
fn first_of_empty(random: &mut Random, table: &Table, size: usize) -> Spoiling {
    let i = pick(random, &table.empty_cells(size))?;
    Some((vec![delta(first_at(i), some_delta(random, size))], Expect::Among(1)))
}

// ---- rule 2

fn hash_of_same_home(random: &mut Random, table: &Table, size: usize) -> Spoiling {
    let i = pick(random, &table.taken_cells(size))?;
    let old = table.cell(i).hash;
    let turns = 1 + random.below(u64::MAX / size as u64);
    let hash = old.wrapping_add(turns.wrapping_mul(size as u64));
    (hash != 0 && hash != old).then(|| (vec![word(3 * i, hash)], Expect::Alone(2)))
}

fn key_of_other_hash(random: &mut Random, table: &Table, size: usize) -> Spoiling {
    let taken = table.taken_cells(size);
    let i = pick(random, &taken)?;
    let key = random.next();
    let differs = hash_of(table.record.hasher, key) != table.cell(i).hash;
    let new = taken.iter().all(|j| table.cell(*j).key != key);
    (differs && new).then(|| (vec![word(3 * i + 1, key)], Expect::Alone(2)))
}

// ---- rule 3

fn key_twice(random: &mut Random, table: &Table, size: usize) -> Spoiling {
    let (i, j) = two_of_one_home(random, table, size)?;
    let Cell { hash, key, .. } = table.cell(i);
    Some((vec![word(3 * j, hash), word(3 * j + 1, key)], Expect::Alone(3)))
}

/// Its hash is then another key's: rule 2 fails too.
fn key_twice_by_one_word(random: &mut Random, table: &Table, size: usize) -> Spoiling {
    let (i, j) = two_of_one_home(random, table, size)?;
    Some((vec![word(3 * j + 1, table.cell(i).key)], Expect::Among(3)))
}

fn two_of_one_home(random: &mut Random, table: &Table, size: usize) -> Option<(usize, usize)> {
    let chain = homed(random, table, size, 2)?;
    let i = 1 + random.below(chain.len() as u64 - 1) as usize;
    let j = 1 + random.below(chain.len() as u64 - 1) as usize;
    (i != j).then(|| (chain[i], chain[j]))
}

// ---- rule 4

/// Whole turns more lead to the same cell; up to 128 cells a byte has room for them.
fn delta_too_great(random: &mut Random, table: &Table, size: usize) -> Spoiling {
    let chain = homed(random, table, size, 1)?;
    let n = random.below(chain.len() as u64 - 1) as usize;
    let near = distance(size, chain[n], chain[n + 1]);
    let turns = (255 - near) / size;
    (turns > 0).then(|| {
        let turns = 1 + random.below(turns as u64) as usize;
        (vec![delta(link_at(&chain, n), near + turns * size)], Expect::Alone(4))
    })
}

/// Above 128 cells: a chain's last cell is put where its link is too long.
fn cell_too_far(random: &mut Random, table: &Table, size: usize) -> Spoiling {
    let chain = homed(random, table, size, 1)?;
    let last = chain.len() - 1;
    let (before, tail) = (chain[last - 1], chain[last]);
    let far = |to: &usize| (WINDOW + 1..=255).contains(&distance(size, before, *to));
    let to = pick(random, &table.empty_cells(size).into_iter().filter(far).collect::<Vec<_>>())?;
    // the cell may be the home of another chain, which then stays where it is
    if table.first(tail) != 0 {
        return None;
    }
    let put = |i: usize, cell: Cell| [word(3 * i, cell.hash), word(3 * i + 1, cell.key), word(3 * i + 2, cell.value)];
    let link = delta(link_at(&chain, last - 1), distance(size, before, to));
    Some(([&put(to, table.cell(tail))[..], &put(tail, EMPTY), &[link]].concat(), Expect::Alone(4)))
}

// ---- rule 5

fn chain_into_stranger(random: &mut Random, table: &Table, size: usize) -> Spoiling {
    let chain = homed(random, table, size, 0)?;
    let strangers = table.taken_cells(size).into_iter().filter(|i| table.home(size, *i) != chain[0]);
    last_to(random, size, &chain, strangers).map(|link| (vec![link], Expect::Alone(5)))
}

fn chain_into_empty(random: &mut Random, table: &Table, size: usize) -> Spoiling {
    let chain = homed(random, table, size, 0)?;
    let empty = table.empty_cells(size).into_iter();
    last_to(random, size, &chain, empty).map(|link| (vec![link], Expect::Alone(5)))
}

fn chain_home_again(random: &mut Random, table: &Table, size: usize) -> Spoiling {
    let chain = homed(random, table, size, 1)?;
    last_to(random, size, &chain, [chain[0]].into_iter()).map(|link| (vec![link], Expect::Alone(5)))
}

fn chain_in_cycle(random: &mut Random, table: &Table, size: usize) -> Spoiling {
    let chain = homed(random, table, size, 2)?;
    let earlier = chain[1..chain.len() - 1].iter().copied();
    last_to(random, size, &chain, earlier).map(|link| (vec![link], Expect::Alone(5)))
}

// ---- rule 6

fn chain_cut(random: &mut Random, table: &Table, size: usize) -> Spoiling {
    let chain = homed(random, table, size, 1)?;
    let n = random.below(chain.len() as u64 - 1) as usize;
    Some((vec![delta(link_at(&chain, n), 0)], Expect::Alone(6)))
}

fn chain_past_a_cell(random: &mut Random, table: &Table, size: usize) -> Spoiling {
    let chain = homed(random, table, size, 2)?;
    let n = random.below(chain.len() as u64 - 2) as usize;
    let far = distance(size, chain[n], chain[n + 2]);
    (1..=window(size)).contains(&far).then(|| (vec![delta(link_at(&chain, n), far)], Expect::Alone(6)))
}

// ---- rule 7

fn second_at_home(random: &mut Random, table: &Table, size: usize) -> Spoiling {
    let at_home: Vec<usize> = table.taken_cells(size).into_iter().filter(|i| table.home(size, *i) == *i).collect();
    let i = pick(random, &at_home)?;
    Some((vec![delta(second_at(i), some_delta(random, size))], Expect::Alone(7)))
}

// ---- rule 8

fn live_off_by_one(random: &mut Random, table: &Table, size: usize) -> Spoiling {
    let Record { hasher, live } = *table.record;
    let live = if live > 0 && random.one_in(2) { live - 1 } else { live + 1 };
    let expect = if live > size as u64 { Expect::Shape } else { Expect::Alone(8) };
    Some((vec![ask(RECORD, &[hasher_number(hasher), live])], expect))
}

fn value_makes_removed(random: &mut Random, table: &Table, size: usize) -> Spoiling {
    let live: Vec<usize> = (0..size).filter(|i| table.cell(*i).live()).collect();
    let i = pick(random, &live)?;
    Some((vec![word(3 * i + 2, NULL)], Expect::Alone(8)))
}

fn value_makes_live(random: &mut Random, table: &Table, size: usize) -> Spoiling {
    let removed: Vec<usize> = table.taken_cells(size).into_iter().filter(|i| !table.cell(*i).live()).collect();
    let i = pick(random, &removed)?;
    Some((vec![word(3 * i + 2, random.value())], Expect::Alone(8)))
}

// ---- no rule

fn value_is_another(random: &mut Random, table: &Table, size: usize) -> Spoiling {
    let live: Vec<usize> = (0..size).filter(|i| table.cell(*i).live()).collect();
    let i = pick(random, &live)?;
    Some((vec![word(3 * i + 2, random.value())], Expect::Sound))
}

fn hasher_is_another(random: &mut Random, table: &Table, _: usize) -> Spoiling {
    let hasher = hasher_number(random.pick(&HASHERS));
    Some((vec![ask(RECORD, &[hasher, table.record.live])], Expect::Model))
}

/// Any word, any delta or any field of the record becomes something else.
pub fn anything(random: &mut Random, table: &Table, size: u64) -> Request {
    let Record { hasher, live } = *table.record;
    let about = table.words[random.below(3 * size) as usize];
    let x = random.pick(&[0, NULL, u64::MAX, about, about.wrapping_add(1), about.wrapping_add(size)]);
    match random.below(9) {
        0 => ask(RECORD, &[hasher_number(hasher), random.pick(&[0, live / 2, live + 2, size, size + 1, u64::MAX])]),
        1..=4 => ask(WORD, &[random.below(3 * size), x]),
        5 => ask(DELTA, &[random.below(2 * size), random.below(256)]),
        _ => ask(DELTA, &[random.below(2 * size), random.below(window(size as usize) as u64 + 2)]),
    }
}
