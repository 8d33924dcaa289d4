//! The programs of this project: `answers`, asked by lines, and `vectors`, which writes what the helpers give.
use std::io::Write;
use std::process::{Command, Stdio};

/// The words that run a program, up to the folder that it is in.
pub struct Programs(pub Vec<String>);

impl Programs {
    fn run(&self, name: &str, input: &str) -> Vec<String> {
        let (folder, start) = self.0.split_last().unwrap();
        let path = format!("{folder}/{name}");
        let mut words = start.iter().chain([&path]);
        let mut child = Command::new(words.next().unwrap())
            .args(words)
            .stdin(Stdio::piped())
            .stdout(Stdio::piped())
            .spawn()
            .expect("the program starts");
        // written beside the reading: a program that answers at once would wait for a reader of its answers
        let (mut to, input) = (child.stdin.take().unwrap(), input.to_string());
        let writer = std::thread::spawn(move || to.write_all(input.as_bytes()).unwrap());
        let output = child.wait_with_output().unwrap();
        writer.join().unwrap();
        assert!(output.status.success(), "the program {name} ended badly");
        String::from_utf8(output.stdout).unwrap().lines().map(str::to_string).collect()
    }

    /// What the program `answers` answers to each line. Of many inserts or removes it is the last one, of many growing inserts
    /// how often each answer was given, and the last one.
    pub fn answers(&self, asks: &[&str]) -> Vec<String> {
        let lines: Vec<Vec<String>> = asks.iter().map(|ask| lines_of(ask)).collect();
        let input: String = lines.iter().flatten().map(|line| format!("{line}\n")).collect();
        let mut said = self.run("answers", &input).into_iter();
        let mut answer = |ask: &str, count: usize| {
            let all: Vec<String> = said.by_ref().take(count).map(|line| answer_of(&line)).collect();
            let last = all.last().unwrap().clone();
            if !ask.starts_with("grows") {
                return last;
            }
            let mut counts: Vec<(String, u64)> = Vec::new();
            for said in all.iter().map(|answer| answer.split(',').next().unwrap()) {
                match counts.iter_mut().find(|(name, _)| name == said) {
                    Some((_, n)) => *n += 1,
                    None => counts.push((said.to_string(), 1)),
                }
            }
            let counts: Vec<String> = counts.iter().map(|(name, n)| format!("{n} {name}")).collect();
            format!("{}; the last: {last}", counts.join(", "))
        };
        asks.iter().zip(&lines).map(|(ask, lines)| answer(ask, lines.len())).collect()
    }

    /// The lines of the program `vectors` that start so.
    pub fn vectors(&self, starts: &[&str]) -> Vec<String> {
        let all = self.run("vectors", "");
        starts.iter().map(|start| all.iter().find(|line| line.starts_with(start)).expect(start).clone()).collect()
    }
}

/// A line, or the many that `inserts A B` and its like stand for.
fn lines_of(ask: &str) -> Vec<String> {
    let range = |from: &str, to: &str| from.parse::<u64>().unwrap()..=to.parse().unwrap();
    match ask.split(' ').collect::<Vec<_>>()[..] {
        ["inserts", from, to] => range(from, to).map(|key| format!("insert {key} {key}")).collect(),
        ["removes", from, to] => range(from, to).map(|key| format!("remove {key}")).collect(),
        ["grow_removes", from, to] => range(from, to).map(|key| format!("grow_remove {key}")).collect(),
        ["grows", from, to] => range(from, to).map(|key| format!("grow {key} {key}")).collect(),
        ["grows_spread", from, to] => {
            range(from, to).map(|k| format!("grow {} {k}", k.wrapping_mul(0x9e37_79b9_7f4a_7c15))).collect()
        }
        _ => vec![ask.to_string()],
    }
}

fn answer_of(line: &str) -> String {
    line.split(": ").nth(1).unwrap().to_string()
}
