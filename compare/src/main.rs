//! Runs against the Rust. compare/README.md says what each word does.
#![feature(allocator_api)]
mod aims;
mod checks;
mod entered;
mod entries;
mod form;
mod hand;
mod grown;
mod growing;
mod growths;
mod halves;
mod keys;
mod memory;
mod model;
mod orders;
mod program;
mod real;
mod record;
mod replay;
mod run;
mod scenes;
mod served;
mod sound;
mod walks;
mod tally;

fn main() {
    let words: Vec<String> = std::env::args().skip(1).collect();
    let good = match words.first().map(String::as_str) {
        Some("run") => run::run(words[1] == "long", words[2].parse().expect("a seed"), &words[3..]),
        Some("record") => record::record(),
        Some("replay") => replay::replay(),
        _ => panic!("use compare/run, compare/record, compare/mutate or compare/differences"),
    };
    std::process::exit(!good as i32);
}
