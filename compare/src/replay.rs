//! The model replays the recorded list, as the program `replay` does. compare/mutate runs this with a fault in the model.
use crate::form::Request;
use crate::served::Served;
use std::panic::{catch_unwind, set_hook, AssertUnwindSafe};

/// A recorded line without its note, and the request that it starts with.
fn parts(line: &str) -> (&str, Request) {
    let recorded = line.split(" #").next().unwrap();
    let asked = recorded.split(": ").next().unwrap();
    (recorded, Request::from_text(asked).unwrap_or_else(|| panic!("no request: {line}")))
}

/// Compares each recorded line with the model's. Prints the first that differs, with its place in the list, and how many do.
pub fn replay() -> bool {
    let list = std::fs::read_to_string("crates/replay/stdin").unwrap();
    let lines: Vec<_> = list.lines().filter(|line| !line.is_empty() && !line.starts_with('#')).map(parts).collect();
    let mut served = Served::default();
    let mut differences = 0;
    // a model with a fault may panic: that is an answer that differs, too
    set_hook(Box::new(|_| ()));
    for (i, (recorded, request)) in lines.iter().enumerate() {
        let answer = catch_unwind(AssertUnwindSafe(|| served.serve(request).text(request.kind)));
        let given = format!("{}: {}", request.text(), answer.unwrap_or("panics".to_string()));
        if given != *recorded {
            differences += 1;
            if differences == 1 {
                println!("recorded {recorded} # {}\nhere     {given}", i + 1);
            }
        }
    }
    println!("{} requests, {differences} differences", lines.len());
    differences == 0
}
