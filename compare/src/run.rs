//! The run: every scene goes to the model, to the Rust where it lies on its domain, and to the program.
use crate::checks::{self, Checked};
use crate::form::*;
use crate::growths;
use crate::keys::*;
use crate::orders::{self, Held, Pair};
use crate::program::{report, Batch, Figures, Program};
use crate::real::Real;
use crate::scenes::{self, Scene};
use crate::served::Served;
use crate::walks;
use crate::tally::Tally;

struct Judge {
    served: Served,
    real: Real,
    program: Program,
    figures: Figures,
    tally: Tally,
    /// The pairs of runs, by the model's answers and by the Rust's.
    orders: [Held; 2],
    /// How often the model did not say of a table what its scene says.
    unexpected: u64,
    differences: u64,
}

/// What a scene was answered: by the model, and by the Rust with the model's answer where it was not asked. For each check the
/// rules that fail, none where check 1 refuses.
#[derive(Default)]
struct Played {
    answers: Vec<Answer>,
    of_rust: Vec<Answer>,
    checks: Vec<Option<Vec<usize>>>,
}

impl Judge {
    /// The model answers, and the Rust is held to it.
    fn play(&mut self, scene: &Scene) -> Played {
        let mut played = Played::default();
        for (i, request) in scene.iter().enumerate() {
            let answer = self.served.serve(request);
            let of_rust = self.real.serve(request, &answer, &self.served);
            if let Some(given) = of_rust.filter(|given| *given != answer) {
                self.differences += 1;
                if self.differences <= 3 {
                    println!("\nthe Rust differs from the model:");
                    report(scene.iter().copied(), i, answer, given);
                }
            }
            if request.kind == CHECK {
                let fails = self.served.table().fails();
                self.figures.fails(fails.as_deref().unwrap_or_default());
                played.checks.push(fails);
            }
            self.figures.count(request, &answer, of_rust.is_some());
            self.tally.count(request, &answer, &self.served);
            played.answers.push(answer);
            played.of_rust.push(of_rust.unwrap_or(answer));
        }
        played
    }

    /// The program is handed the requests, with what it is to answer.
    fn send(&mut self, scene: Scene, answers: Vec<Answer>, pair: Option<Pair>) {
        self.program.send(Batch { wanted: scene.into_iter().zip(answers).collect(), pair });
    }

    /// A digest reads what is lent of the spare arrays too: what a scene left large there would slow every later one down.
    fn lend_no_spare(&mut self) {
        if self.served.spare.0 > 200 {
            let scene = vec![scenes::ask(SPARE, &[0, 0])];
            let played = self.play(&scene);
            self.send(scene, played.answers, None);
        }
    }

    fn scenes(&mut self, name: &'static str, scenes: impl IntoIterator<Item = Scene>) {
        let before = self.figures.requests;
        for scene in scenes {
            self.lend_no_spare();
            let played = self.play(&scene);
            self.send(scene, played.answers, None);
        }
        self.figures.scenes(name, before);
    }

    /// Scenes that say themselves what their checks must give.
    fn checked(&mut self, name: &'static str, scenes: impl IntoIterator<Item = Checked>) {
        let before = self.figures.requests;
        for Checked { scene, expected } in scenes {
            self.lend_no_spare();
            let played = self.play(&scene);
            assert_eq!(played.checks.len(), expected.len());
            for (expect, fails) in expected.iter().zip(&played.checks) {
                if !expect.meets(fails) {
                    self.unexpected += 1;
                    println!("\na scene says {expect:?} of a table, and the model that these rules fail: {fails:?}");
                }
            }
            self.send(scene, played.answers, None);
        }
        self.figures.scenes(name, before);
    }

    /// Pairs of runs: the claim on them is held to the answers of all three.
    fn pairs(&mut self, name: &'static str, pairs: impl IntoIterator<Item = Pair>) {
        let before = self.figures.requests;
        for pair in pairs {
            self.lend_no_spare();
            let scene = pair.scene();
            let played = self.play(&scene);
            self.orders[0].hold(&pair, &played.answers);
            self.orders[1].hold(&pair, &played.of_rust);
            self.send(scene, played.answers, Some(pair));
        }
        self.figures.scenes(name, before);
    }
}

/// Sizes at which every cell is compared after each request, and those at which it is at the end of a scene.
const SMALL: [u64; 8] = [8, 16, 32, 64, 128, 256, 512, 1024];
const LARGE: [u64; 6] = [2048, 4096, 8192, 16_384, 32_768, 65_536];

pub fn run(long: bool, seed: u64, command: &[String]) -> bool {
    let mut judge = Judge {
        served: Served::default(),
        real: Real::default(),
        program: Program::start(command),
        figures: Figures::default(),
        tally: Tally::default(),
        orders: Default::default(),
        unexpected: 0,
        differences: 0,
    };
    let mut random = Random(seed);
    let times = if long { 12 } else { 1 };
    fixed(&mut judge, long);
    for _ in 0..times {
        made(&mut judge, &mut random);
        off(&mut judge, &mut random);
        sound(&mut judge, &mut random);
        any_order(&mut judge, &mut random);
        held(&mut judge, &mut random);
        growing(&mut judge, &mut random, long);
    }
    finish(judge)
}

/// What does not depend on the seed.
fn fixed(judge: &mut Judge, long: bool) {
    judge.scenes("worked examples", scenes::worked());
    judge.scenes("bad lengths and records", scenes::all_lengths());
    judge.scenes("growth, worked examples", growths::worked());
    let (step, wrapped) = if long { (1, &[256, 512, 1024, 16_384, 65_536][..]) } else { (23, &[256, 512][..]) };
    judge.scenes("growth, bad lengths and records", growths::all_lengths().into_iter().step_by(step));
    judge.scenes("growth, wrapped", wrapped.iter().flat_map(|cells| growths::wrapped(*cells)));
    let more = long as u32;
    judge.scenes("short sequences, fresh", scenes::short(4 + more, &[], &[1, 9, 17, 2]));
    judge.scenes("short sequences, wrapping", scenes::short(3 + more, &[], &[u64::MAX, u64::MAX - 8, 7, 8, 15]));
    judge.scenes("short sequences, nearly full", scenes::short(3 + more, &[2, 3, 4, 5, 6, 7], &[1, 9, 17, 8]));
    judge.scenes("short sequences, full", scenes::short(3 + more, &[1, 9, 2, 10, 3, 11, 4, 12], &[1, 9, 17, 12]));
    judge.pairs("any order", [orders::one_full()]);
    judge.scenes("cursor and entries, worked", walks::worked());
    judge.scenes("entries, lengths and records", walks::shapes());
    judge.scenes("entries, short sequences", walks::short(4 + more));
    for size in [8, 16, 64, 256] {
        let links = [1, 2, size - 2, size - 1, size];
        judge.scenes("chains", links.iter().flat_map(|l| [2 * size, size + 1 + l % size].map(|key| scenes::chain(size, *l, key))));
    }
}

/// Tables made by calls: on the Rust's domain.
fn made(judge: &mut Judge, random: &mut Random) {
    for hasher in HASHERS {
        for size in SMALL {
            let times = 2048 / size;
            judge.scenes("life", (0..times).map(|_| scenes::life(random, size, hasher, 6 * size + 40, true)).collect::<Vec<_>>());
            judge.scenes("crowd", (0..times.min(40)).map(|_| scenes::crowd(random, size, hasher, 2 * size + 40)).collect::<Vec<_>>());
        }
        for size in [64, 128, 256, 512] {
            judge.scenes("window", (0..10).map(|_| scenes::window(random, size, hasher)).collect::<Vec<_>>());
        }
        for size in LARGE {
            judge.scenes("large", [scenes::life(random, size, hasher, 2 * size, false)]);
        }
    }
}

/// Forged memory: off the Rust's domain, held to the model alone.
fn off(judge: &mut Judge, random: &mut Random) {
    for hasher in HASHERS {
        for size in [8, 16, 32, 64, 128, 256] {
            judge.scenes("spoilt", (0..800 / size).map(|_| scenes::spoilt(random, size, hasher, 80)).collect::<Vec<_>>());
            judge.scenes("forged", (0..2000 / size).map(|_| scenes::forged(random, size, hasher, 60)).collect::<Vec<_>>());
        }
    }
}

/// Sound tables, made by calls, and the same spoilt.
fn sound(judge: &mut Judge, random: &mut Random) {
    for hasher in HASHERS {
        for size in SMALL {
            let times = (256 / size).max(1);
            judge.checked("sound", (0..times).flat_map(|_| checks::made(random, size, hasher)).collect::<Vec<_>>());
            judge.checked("sound, then spoilt", (0..8 * times).map(|_| checks::spoilt(random, size, hasher, 3)).collect::<Vec<_>>());
        }
    }
    for size in LARGE {
        let hasher = random.pick(&HASHERS);
        judge.checked("sound, large", checks::made(random, size, hasher));
        judge.checked("sound, then spoilt, large", [checks::spoilt(random, size, hasher, 1)]);
    }
}

/// Lists and reorderings of them.
fn any_order(judge: &mut Judge, random: &mut Random) {
    for hasher in HASHERS {
        for size in SMALL {
            judge.pairs("any order", (0..(8192 / size).max(40)).map(|_| orders::pair(random, size, hasher)).collect::<Vec<_>>());
        }
    }
}

/// The cursor, setting and entries.
fn held(judge: &mut Judge, random: &mut Random) {
    let mut served = Served::default();
    for hasher in HASHERS {
        for size in SMALL {
            let times = (256 / size).max(2);
            judge.scenes("walks", (0..2 * times.max(6)).map(|_| walks::walk(&mut served, random, size, hasher)).collect::<Vec<_>>());
            judge.scenes("setting", (0..2 * times).map(|_| walks::setting(&mut served, random, size, hasher)).collect::<Vec<_>>());
            judge.scenes("entries at once", (0..8 * times).map(|_| walks::at_once(&mut served, random, size, hasher)).collect::<Vec<_>>());
            judge.scenes("entries late", (0..8 * times).map(|_| walks::late(&mut served, random, size, hasher, false)).collect::<Vec<_>>());
            judge.scenes("entries, spoilt", (0..8 * times).map(|_| walks::late(&mut served, random, size, hasher, true)).collect::<Vec<_>>());
        }
    }
}

/// Growing tables with room for C cells in each half, and plain moves.
fn growing(judge: &mut Judge, random: &mut Random, long: bool) {
    // growing tables in large halves take long: each try clears a half, and each digest reads both
    let (small, large, share) = if long { (&SMALL[..], &LARGE[..], 512) } else { (&SMALL[..6], &LARGE[..1], 64) };
    for hasher in HASHERS {
        for &cells in small {
            let times = (share / cells).max(2);
            judge.scenes("growth", (0..times).map(|_| growths::life(random, cells, hasher, true)).collect::<Vec<_>>());
            judge.scenes("growth, keys that pass", (0..times / 2).map(|_| growths::passing(random, cells, hasher, true)).collect::<Vec<_>>());
            judge.scenes("growth, collisions", (0..times.min(8)).map(|_| growths::collisions(random, cells, hasher, true)).collect::<Vec<_>>());
            judge.scenes("growth, spoilt", (0..times.min(24)).map(|_| growths::spoilt(random, cells, hasher, 80)).collect::<Vec<_>>());
            judge.scenes("growth, broken moves", (0..times.min(20)).map(|_| growths::broken(random, cells, hasher)).collect::<Vec<_>>());
        }
        for &cells in large {
            judge.scenes("growth, large", [growths::life(random, cells, hasher, false), growths::passing(random, cells, hasher, false)]);
            judge.scenes("growth, large", [growths::collisions(random, cells, hasher, false)]);
        }
        judge.scenes("plain moves", (0..share / 8).map(|_| growths::moves(random, hasher, 6, false)).collect::<Vec<_>>());
        judge.scenes("plain moves, spoilt", (0..share / 8).map(|_| growths::moves(random, hasher, 6, true)).collect::<Vec<_>>());
    }
    for size in [512, 1024] {
        for (cells, apart) in [(size, false), (2 * size, true), (4 * size, true), (2 * size, false)] {
            judge.scenes("growth, Full tries", [growths::full_again(random, size, cells, apart), growths::full_below(random, size, 2 * cells.max(2 * size))]);
        }
    }
    for cells in [256, 512] {
        judge.scenes("growth, runs", [growths::runs(random, cells, true)]);
    }
    for &cells in large {
        judge.scenes("growth, runs", [growths::runs(random, cells, false)]);
    }
}

fn finish(judge: Judge) -> bool {
    let Judge { program, figures, tally, differences, real, orders, unexpected, served } = judge;
    let uses = &served.hand.uses;
    let given = program.end();
    println!();
    figures.print();
    tally.print();
    let growing = &real.growing;
    println!("moves of the Rust's own growth: {}; inserts whose tries are not the model's: {}", growing.growths, growing.other_tries);
    println!("tables of the Rust's held to the eight rules: {}, unsound: {}", real.checked, real.unsound);
    println!("tables of which the model does not say what their scene says: {unexpected}");
    uses.print();
    let [steps, settings, made, used] = real.held.asked;
    println!("answered by the Rust too: steps {steps}, settings {settings}, entries made {made}, entries used {used}");
    given.orders.print();
    let failures = [&given.orders, &orders[0], &orders[1]].map(|held| held.failures);
    println!("  the claim fails on the program's answers: {}, the model's: {}, the Rust's: {}", failures[0], failures[1], failures[2]);
    println!();
    println!("{:>14} {:>9}", "requests", figures.requests);
    println!("answered by the Rust too, on its domain: {}", figures.of_rust);
    println!("differences of the Rust from the model: {differences}");
    println!("differences of the program from the model: {}", given.differences);
    differences + given.differences + real.unsound + real.growing.other_tries + unexpected + uses.false_stale + failures.iter().sum::<u64>() == 0
}
