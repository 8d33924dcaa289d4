//! Writes the list that the program `replay` replays, and the answers to the sample that the program `answers` is run on.
use crate::checks;
use crate::form::*;
use crate::growths;
use crate::keys::*;
use crate::model::Hasher;
use crate::orders;
use crate::real::Real;
use crate::scenes::{self, Scene};
use crate::served::Served;
use crate::walks;
use std::collections::BTreeSet;
use std::fs;

const HEAD: &str = "\
# Requests with recorded answers, written by compare/record; compare/README.md says how the list is made.
# An answer and the table after it, by its digest, are the Rust's own, and the count of cells looked at is the model's.
# Where a line ends in '# model' the request lies off the Rust's domain, and all is the model's.
";

/// Answers a request by the model and, on its domain, by the Rust, which must agree. The line that is recorded.
fn line(served: &mut Served, real: &mut Real, request: &Request) -> String {
    let answer = served.serve(request);
    let of_rust = real.serve(request, &answer, served);
    if let Some(given) = of_rust {
        assert_eq!(given, answer, "the Rust and the model differ at {}", request.text());
    }
    let origin = if of_rust.is_some() { "" } else { " # model" };
    format!("{}: {}{origin}\n", request.text(), answer.text(request.kind))
}

/// The scenes of the list: a few of each kind.
fn list(random: &mut Random) -> Vec<(&'static str, Vec<Scene>)> {
    let all_short = [
        scenes::short(4, &[], &[1, 9, 17, 2]),
        scenes::short(3, &[], &[u64::MAX, u64::MAX - 8, 7, 8, 15]),
        scenes::short(3, &[2, 3, 4, 5, 6, 7], &[1, 9, 17, 8]),
    ]
    .concat();
    let short = (0..40).map(|_| all_short[random.below(all_short.len() as u64) as usize].clone()).collect();
    let mut life = Vec::new();
    let mut crowd = Vec::new();
    for hasher in HASHERS {
        for size in [8, 16, 32] {
            life.push(scenes::life(random, size, hasher, 3 * size, true));
            crowd.push(scenes::crowd(random, size, hasher, 30));
        }
        life.push(scenes::life(random, 128, hasher, 90, true));
    }
    let window = vec![scenes::window(random, 128, Hasher::Murmur), scenes::window(random, 256, Hasher::Simple)];
    let spoilt = (0..10).map(|i| scenes::spoilt(random, 8 << (i % 2), HASHERS[i % 3], 30)).collect();
    let forged = (0..4).map(|i| scenes::forged(random, 8, HASHERS[i % 3], 20)).collect();
    let chains = vec![scenes::chain(8, 7, 16), scenes::chain(8, 8, 16), scenes::chain(8, 7, 8)];
    let lengths = [(23, 16, 0), (24, 17, 0), (24, 16, 9), (36, 24, 0), (24, 16, 8), (24, 16, 0), (12, 8, 0), (393_216, 262_144, 0)];
    let lengths = lengths.iter().map(|l| scenes::lengths(l.0, l.1, l.2, Hasher::Simple)).collect();
    let sound = HASHERS.iter().flat_map(|hasher| checks::made(random, 8, *hasher)).step_by(4).map(|checked| checked.scene).collect();
    let unsound = (0..6).map(|i| checks::spoilt(random, 8 << (i % 2), HASHERS[i % 3], 1).scene).collect();
    let mut pairs: Vec<Scene> = (0..6).map(|i| orders::pair(random, 8 << (i % 2), HASHERS[i % 3]).scene()).collect();
    pairs.push(orders::one_full().scene());
    let all = vec![
        ("the worked examples 1 to 7, 9 and 10 of document 01", scenes::worked()),
        ("short sequences", short),
        ("tables in everyday use", life),
        ("keys of few homes", crowd),
        ("a full window", window),
        ("spoilt tables", spoilt),
        ("forged memory", forged),
        ("chains at the limit", chains),
        ("lengths and records that no table has", lengths),
        ("tables made by calls, checked", sound),
        ("the same spoilt in one place and another, checked", unsound),
        ("lists, each followed by a reordering", pairs),
    ];
    [all, growth(random), held(random), for_faults(random)].concat()
}

/// Scenes of the cursor, of setting and of entries.
fn held(random: &mut Random) -> Vec<(&'static str, Vec<Scene>)> {
    let served = &mut Served::default();
    let short = walks::short(4);
    let walked = HASHERS.iter().flat_map(|hasher| [walks::walk(served, random, 8, *hasher), walks::setting(served, random, 8, *hasher)]).collect();
    let mut entered = walks::worked();
    entered.extend((0..12).map(|_| short[random.below(short.len() as u64) as usize].clone()));
    entered.extend(HASHERS.iter().map(|hasher| walks::at_once(served, random, 8, *hasher)));
    let late = HASHERS.iter().map(|hasher| walks::late(served, random, 8, *hasher, false)).collect();
    let spoilt = HASHERS.iter().map(|hasher| walks::late(served, random, 8, *hasher, true)).collect();
    vec![
        ("tables walked, and values set", walked),
        ("entries, mostly used at once", entered),
        ("entries used late, and forged ones", late),
        ("the same on spoilt tables", spoilt),
    ]
}

/// The scenes of moves and growing tables.
fn growth(random: &mut Random) -> Vec<(&'static str, Vec<Scene>)> {
    let mut life = Vec::new();
    for (i, cells) in [8, 16, 64].into_iter().enumerate() {
        life.push(growths::life(random, cells, HASHERS[i], true));
        life.push(growths::passing(random, 16, HASHERS[i], true));
    }
    let few = (0..3).map(|i| growths::collisions(random, 8 << i, HASHERS[i], true)).collect();
    let spoilt = (0..6).map(|i| growths::spoilt(random, 8 << (i % 3), HASHERS[i % 3], 20)).collect();
    let broken = (0..9).map(|i| growths::broken(random, 8 << (i % 2), HASHERS[i % 3])).collect();
    let moves = (0..9).map(|i| growths::moves(random, HASHERS[i % 3], 2, i % 2 == 1)).collect();
    let lengths = growths::all_lengths().into_iter().step_by(61).collect();
    vec![
        ("the worked examples 8, second sentence, and 11", growths::worked()),
        ("a move that is Full in more cells", growths::wrapped(512)),
        ("growing tables", life),
        ("growing tables, keys of few homes", few),
        ("growing tables, spoilt", spoilt),
        ("full tables that a move finds broken", broken),
        ("lengths and records that no growing table has", lengths),
        ("plain moves, of spoilt tables too", moves),
    ]
}

/// Scenes that compare/mutate asked for: they see faults in moves and growth that those above do not.
fn for_faults(random: &mut Random) -> Vec<(&'static str, Vec<Scene>)> {
    let tried = vec![growths::sampled(random), growths::full_below(random, 512, 2048), growths::full_again(random, 512, 1024, true)];
    vec![("growing tables, tries that are Full", tried), ("moves of forged tables", growths::forged())]
}

/// Writes crates/replay/stdin and stdout, and crates/answers/stdout.
pub fn record() -> bool {
    let (mut served, mut real) = (Served::default(), Real::default());
    let mut text = HEAD.to_string();
    let mut requests = 0;
    let mut of_model = 0;
    let mut alone = BTreeSet::new();
    for (name, scenes) in list(&mut Random(20_240_115)) {
        text += &format!("# {name}\n");
        for request in scenes.concat() {
            if request == Request::new(DIGESTS, &[served.digests as u64]) {
                continue;
            }
            let line = line(&mut served, &mut real, &request);
            requests += 1;
            if request.kind == CHECK {
                alone.extend(served.table().fails().filter(|rules| rules.len() == 1).unwrap_or_default());
            }
            of_model += line.ends_with("# model\n") as u64;
            text += &line;
        }
    }
    assert_eq!(alone.len(), 8, "each of the eight rules fails alone somewhere in the list");
    fs::write("crates/replay/stdin", &text).unwrap();
    fs::write("crates/replay/stdout", format!("{requests} requests, 0 differences\n")).unwrap();
    let sample = fs::read_to_string("crates/answers/stdin").unwrap();
    fs::write("crates/answers/stdout", answers(&sample)).unwrap();
    println!("{requests} requests, {} of them with the Rust's own answer, {} bytes", requests - of_model, text.len());
    true
}

/// What the program `answers` is to write for requests as text.
fn answers(requests: &str) -> String {
    let mut served = Served::default();
    let mut text = String::new();
    for line in requests.lines() {
        text += line;
        if line.is_empty() || line.starts_with('#') {
            text += "\n";
            continue;
        }
        let request = Request::from_text(line).expect(line);
        text += &format!(": {}\n", served.serve(&request).text(request.kind));
        if request.kind == SHOW {
            text += &served.cells();
        }
    }
    text
}
