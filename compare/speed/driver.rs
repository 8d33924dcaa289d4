//! Times the table and the Rust side by side in one process. `bench time` prints medians and ratios; `bench count WHO WHAT KEYS`
//! does one thing once, for a counter of instructions.
use fixed::Map;
use std::hint::black_box;
use std::time::Instant;

extern "C" {
    fn ours_clear(words: *mut u64, n: usize, deltas: *mut u8, m: usize) -> u64;
    fn ours_find(words: *const u64, n: usize, deltas: *const u8, m: usize, live: usize, keys: *const u64, k: usize) -> u64;
    fn ours_insert(words: *mut u64, n: usize, deltas: *mut u8, m: usize, live: usize, keys: *const u64, k: usize) -> u64;
    fn ours_remove(words: *mut u64, n: usize, deltas: *const u8, m: usize, live: usize, keys: *const u64, k: usize) -> u64;
    #[allow(improper_ctypes)]
    fn ours_clear_halves(a: *mut u64, al: usize, b: *mut u8, bl: usize, c: *mut u64, cl: usize, d: *mut u8, dl: usize) -> u64;
    fn ours_grow(a: *mut u64, al: usize, b: *mut u8, bl: usize, c: *mut u64, cl: usize, d: *mut u8, dl: usize, keys: *const u64, k: usize) -> u64;
}

/// What is timed, and the order in which a run does it.
#[derive(Clone, Copy, PartialEq)]
enum What {
    New,
    Replace,
    Hit,
    Miss,
    Remove,
}
const ALL: [(What, &str); 5] =
    [(What::New, "insert, new"), (What::Replace, "insert, replaced"), (What::Hit, "find, hit"), (What::Miss, "find, miss"), (What::Remove, "remove")];

fn mix(state: &mut u64) -> u64 {
    *state = state.wrapping_add(0x9e3779b97f4a7c15);
    let z = (*state ^ (*state >> 30)).wrapping_mul(0xbf58476d1ce4e5b9);
    let z = (z ^ (z >> 27)).wrapping_mul(0x94d049bb133111eb);
    z ^ (z >> 31)
}

/// Keys that fit 65,536 cells under Murmur at 50,000.
fn keys(n: usize) -> Vec<u64> {
    (1..=n as u64).map(|k| k.wrapping_mul(0x9e3779b97f4a7c15)).collect()
}

fn shuffled(n: usize, seed: u64) -> Vec<u64> {
    let (mut all, mut state) = (keys(n), seed);
    for i in (1..n).rev() {
        all.swap(i, (mix(&mut state) % (i as u64 + 1)) as usize);
    }
    all
}

fn size_for(n: usize) -> usize {
    if n <= 1000 { 2048 } else { 65_536 }
}

/// The keys of one run: in a fresh order for each call, since a processor learns an order that repeats.
struct Orders {
    put: Vec<u64>,
    look: Vec<u64>,
    miss: Vec<u64>,
}

impl Orders {
    fn new(n: usize, seed: u64) -> Orders {
        let (put, look, mut state) = (keys(n), shuffled(n, seed), seed ^ 0x5555);
        let put = if n <= 1000 { shuffled(n, seed + 1) } else { put };
        let held: std::collections::HashSet<u64> = put.iter().copied().collect();
        let miss = std::iter::repeat_with(|| mix(&mut state) | 1).filter(|k| !held.contains(k)).take(n).collect();
        Orders { put, look, miss }
    }

    fn of(&self, what: What) -> &[u64] {
        match what {
            What::New => &self.put,
            What::Miss => &self.miss,
            _ => &self.look,
        }
    }
}

trait Side {
    fn new(n: usize) -> Self;
    fn call(&mut self, what: What, live: usize, keys: &[u64]) -> u64;
}

struct Ours {
    words: Vec<u64>,
    deltas: Vec<u8>,
}

impl Side for Ours {
    fn new(n: usize) -> Ours {
        let s = size_for(n);
        let (mut words, mut deltas) = (vec![1u64; 3 * s], vec![1u8; 2 * s]);
        let cleared = unsafe { ours_clear(words.as_mut_ptr(), 3 * s, deltas.as_mut_ptr(), 2 * s) };
        assert!(cleared == 1);
        Ours { words, deltas }
    }

    fn call(&mut self, what: What, live: usize, keys: &[u64]) -> u64 {
        let (w, n, d, m) = (self.words.as_mut_ptr(), self.words.len(), self.deltas.as_mut_ptr(), self.deltas.len());
        let (k, l) = (keys.as_ptr(), keys.len());
        unsafe {
            match what {
                What::New | What::Replace => ours_insert(w, n, d, m, live, k, l),
                What::Hit | What::Miss => ours_find(w, n, d, m, live, k, l),
                What::Remove => ours_remove(w, n, d, m, live, k, l),
            }
        }
    }
}

struct Rust {
    map: Map,
    cells: usize,
}

impl Side for Rust {
    fn new(n: usize) -> Rust {
        Rust { map: Map::with_capacity_and_hasher(size_for(n), Default::default()), cells: size_for(n) }
    }

    fn call(&mut self, what: What, _live: usize, keys: &[u64]) -> u64 {
        let sum = match what {
            What::New | What::Replace => fixed::insert(&mut self.map, keys),
            What::Hit | What::Miss => fixed::find(&self.map, keys),
            What::Remove => fixed::remove(&mut self.map, keys),
        };
        assert!(self.map.capacity() == self.cells);
        sum
    }
}

/// Both halves of a growing table.
struct Halves {
    words: [Vec<u64>; 2],
    deltas: [Vec<u8>; 2],
}

impl Halves {
    fn new(cells: usize) -> Halves {
        let (w, d) = (vec![1u64; 3 * cells], vec![1u8; 2 * cells]);
        Halves { words: [w.clone(), w], deltas: [d.clone(), d] }
    }

    fn clear(&mut self) {
        let ([a, c], [b, d]) = (&mut self.words, &mut self.deltas);
        let said = unsafe { ours_clear_halves(a.as_mut_ptr(), a.len(), b.as_mut_ptr(), b.len(), c.as_mut_ptr(), c.len(), d.as_mut_ptr(), d.len()) };
        assert!(said == 1);
    }

    fn grow(&mut self, keys: &[u64]) -> u64 {
        let ([a, c], [b, d]) = (&mut self.words, &mut self.deltas);
        unsafe {
            ours_grow(a.as_mut_ptr(), a.len(), b.as_mut_ptr(), b.len(), c.as_mut_ptr(), c.len(), d.as_mut_ptr(), d.len(), keys.as_ptr(), keys.len())
        }
    }
}

fn timed(n: usize, work: impl FnOnce() -> u64) -> (f64, u64) {
    let start = Instant::now();
    let sum = black_box(work());
    (start.elapsed().as_nanos() as f64 / n as f64, sum)
}

fn median(of: &[f64]) -> f64 {
    let mut of = of.to_vec();
    of.sort_by(|a, b| a.total_cmp(b));
    of[of.len() / 2]
}

fn row(name: &str, n: usize, cells: usize, rust: &[f64], ours: &[f64]) {
    let ratios: Vec<f64> = ours.iter().zip(rust).map(|(a, b)| a / b).collect();
    println!("| {name} | {n} | {cells} | {:.1} | {:.1} | {:.2} |", median(rust), median(ours), median(&ratios));
}

fn run<S: Side>(n: usize, orders: &Orders) -> Vec<(f64, u64)> {
    let mut side = S::new(n);
    ALL.iter().map(|(what, _)| timed(n, || side.call(*what, if *what == What::New { 0 } else { n }, orders.of(*what)))).collect()
}

fn time(n: usize, runs: usize) {
    let (mut rust, mut ours) = (vec![vec![]; ALL.len()], vec![vec![]; ALL.len()]);
    for i in 0..runs {
        let orders = Orders::new(n, 7 + 3 * i as u64);
        // who goes first changes from run to run
        let (r, o) = if i % 2 == 0 {
            let r = run::<Rust>(n, &orders);
            (r, run::<Ours>(n, &orders))
        } else {
            let o = run::<Ours>(n, &orders);
            (run::<Rust>(n, &orders), o)
        };
        for j in 0..ALL.len() {
            assert!(r[j].1 == o[j].1, "the answers part: {}", ALL[j].1);
            rust[j].push(r[j].0);
            ours[j].push(o[j].0);
        }
    }
    for j in 0..ALL.len() {
        row(ALL[j].1, n, size_for(n), &rust[j], &ours[j]);
    }
}

fn time_growth(n: usize, cells: usize, runs: usize) {
    let (mut rust, mut ours) = (vec![], vec![]);
    let mut halves = Halves::new(cells);
    for i in 0..runs {
        let keys = Orders::new(n, 7 + 3 * i as u64).put;
        halves.clear();
        let (r, o) = (timed(n, || grown::grow(&keys)), timed(n, || halves.grow(&keys)));
        assert!(r.1 == o.1, "the answers part: growth");
        rust.push(r.0);
        ours.push(o.0);
    }
    row("growth from 8 cells", n, cells, &rust, &ours);
}

fn count(who: &str, what: &str, n: usize) {
    let orders = Orders::new(n, 7);
    let all = |side: &mut dyn FnMut(What, usize, &[u64]) -> u64| {
        if what != "nothing" {
            side(What::New, 0, &orders.put);
        }
        for (op, name) in ALL {
            if name == what && op != What::New {
                side(op, n, orders.of(op));
            }
        }
    };
    match (who, what) {
        ("rust", "growth") => drop(black_box(grown::grow(&orders.put))),
        ("ours", "growth" | "growth, nothing") => {
            let mut halves = Halves::new(size_for(n));
            halves.clear();
            if what == "growth" {
                black_box(halves.grow(&orders.put));
            }
        }
        ("rust", "growth, nothing") => (),
        ("rust", _) => {
            let mut side = Rust::new(n);
            all(&mut |a, b, c| black_box(side.call(a, b, c)));
        }
        _ => {
            let mut side = Ours::new(n);
            all(&mut |a, b, c| black_box(side.call(a, b, c)));
        }
    }
}

fn main() {
    let words: Vec<String> = std::env::args().skip(1).collect();
    match words.iter().map(String::as_str).collect::<Vec<_>>()[..] {
        ["count", who, what, n] => count(who, what, n.parse().unwrap()),
        ["time"] => {
            println!("| call | keys | cells | the Rust, ns | ours, ns | ratio |\n|---|---|---|---|---|---|");
            time(1000, 2001);
            time(50_000, 101);
            time_growth(1000, size_for(1000), 501);
            time_growth(1000, 65_536, 101);
            time_growth(50_000, 65_536, 51);
        }
        _ => panic!("bench time, or bench count WHO WHAT KEYS"),
    }
}
