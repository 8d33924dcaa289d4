//! Shows the differences of docs/DIFFERENCES.md one by one: what the Rust does, in a release build and where it differs in a
//! debug build, and what the program here does, on a small input. compare/differences builds and starts it.
#![feature(allocator_api)]
mod asks;
mod grow;
mod here;
mod list;
mod memory;
mod round;

use here::Programs;
use list::{Difference, Here, Rust, LIST};
use std::panic::{set_hook, PanicHookInfo};
use std::process::Command;
use std::sync::Mutex;

/// Where the last panic was and what it said.
pub static PANIC: Mutex<String> = Mutex::new(String::new());

fn keep(info: &PanicHookInfo) {
    let place = info.location().map_or(String::new(), |at| format!("{}:{}", at.file().rsplit('/').next().unwrap(), at.line()));
    let said = info.payload_as_str().unwrap_or("").lines().next().unwrap_or("");
    *PANIC.lock().unwrap() = format!("panics at {place}: {said}");
}

/// What the Rust of this build does, a line for each request or fact.
fn by_rust(difference: &Difference) -> Vec<String> {
    match difference.rust {
        Rust::Asked(asks) => asks::answers(asks),
        Rust::Shown(show) => show(),
        Rust::Source(_) => Vec::new(),
    }
}

/// What the Rust's debug build does: the same, asked of this program's other build.
fn by_debug(name: &str, debug: &str) -> Vec<String> {
    let output = Command::new(debug).args(["rust", name]).output().expect("the debug build starts");
    String::from_utf8(output.stdout).unwrap().lines().map(str::to_string).collect()
}

/// Prints what both builds say, with `here` beside it where the program was asked the same.
fn print_rust(difference: &Difference, debug: &[String], here: &[String]) {
    let said = by_rust(difference);
    let asked: &[&str] = if let Rust::Asked(asks) = difference.rust { asks } else { &[] };
    for (i, line) in said.iter().enumerate() {
        let beside = here.get(i).map_or(String::new(), |here| format!("here: {here}"));
        match asked.get(i) {
            Some(ask) => println!("{}", format!("  {ask:<30} Rust: {line:<22} {beside}").trim_end()),
            None => println!("  Rust: {line}"),
        }
        if let Some(other) = debug.get(i).filter(|other| *other != line) {
            println!("    in a debug build: {other}");
        }
    }
}

fn show(number: usize, difference: &Difference, debug: &str, programs: &Programs) {
    println!("{number} {}: {}", difference.name, difference.title);
    let same = match (&difference.rust, &difference.here) {
        (Rust::Asked(asks), Here::Same) => programs.answers(asks),
        _ => Vec::new(),
    };
    if let Rust::Source(text) = difference.rust {
        println!("  Rust, not run: {text}");
    }
    print_rust(difference, &by_debug(difference.name, debug), &same);
    match difference.here {
        Here::Same => (),
        Here::Asked(asks) => asks.iter().zip(programs.answers(asks)).for_each(|(ask, said)| println!("  {ask:<30} here: {said}")),
        Here::Vectors(words) => programs.vectors(words).iter().for_each(|line| println!("  here: {line}")),
        Here::Rule(text) => println!("  here, by document 01: {text}"),
    }
    println!();
}

/// `rust NAME` prints what the Rust of this build does. `all|NAME DEBUG PROGRAM..` prints the differences, given the debug
/// build of this program and the words that run a program of this project up to its folder.
fn main() {
    set_hook(Box::new(keep));
    let words: Vec<String> = std::env::args().skip(1).collect();
    let wanted = |number: usize, name: &str| words[0] == "all" || words[0] == name || words[0] == number.to_string();
    if words[0] == "rust" {
        let difference = LIST.iter().find(|d| d.name == words[1]).expect("a name");
        by_rust(difference).iter().for_each(|line| println!("{line}"));
        return;
    }
    let programs = Programs(words[2..].to_vec());
    let mut shown = 0;
    for (i, difference) in LIST.iter().enumerate().filter(|(i, d)| wanted(i + 1, d.name)) {
        show(i + 1, difference, &words[1], &programs);
        shown += 1;
    }
    if shown == 0 {
        println!("no such difference. There are:");
        LIST.iter().enumerate().for_each(|(i, d)| println!("{:>3} {}: {}", i + 1, d.name, d.title));
        std::process::exit(1);
    }
}
