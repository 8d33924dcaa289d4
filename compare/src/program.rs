//! Runs the program `answers`, hands it requests and compares its answers with those that are wanted.
use crate::form::*;
use crate::orders::{Held, Pair};
use std::collections::BTreeMap;
use std::io::{BufReader, BufWriter, Read, Write};
use std::process::{Child, ChildStdin, Command, Stdio};
use std::sync::mpsc::{channel, Sender};
use std::thread::JoinHandle;

/// Requests with the answers that are wanted, and the pair of runs that they are, if any.
pub struct Batch {
    pub wanted: Vec<(Request, Answer)>,
    pub pair: Option<Pair>,
}

/// What came of the program's answers: how many differ from those wanted, and the pairs of runs.
#[derive(Default)]
pub struct Given {
    pub differences: u64,
    pub orders: Held,
}

/// The running program: requests go in here, and a thread reads and compares.
pub struct Program {
    child: Child,
    input: BufWriter<ChildStdin>,
    batches: Sender<Batch>,
    reader: JoinHandle<Given>,
}

impl Program {
    /// Starts it by the words of its command.
    pub fn start(command: &[String]) -> Program {
        let mut child = Command::new(&command[0])
            .args(&command[1..])
            .stdin(Stdio::piped())
            .stdout(Stdio::piped())
            .spawn()
            .expect("the program starts");
        let mut output = BufReader::with_capacity(1 << 20, child.stdout.take().unwrap());
        let mut input = BufWriter::with_capacity(1 << 20, child.stdin.take().unwrap());
        let (batches, queue) = channel::<Batch>();
        input.write_all(&Request::new(NOTHING, &[]).bytes()).unwrap();
        let reader = std::thread::spawn(move || {
            read_answer(&mut output);
            let mut given = Given::default();
            queue.iter().for_each(|batch| given.compare(&mut output, &batch));
            given
        });
        Program { child, input, batches, reader }
    }

    pub fn send(&mut self, batch: Batch) {
        let bytes: Vec<u8> = batch.wanted.iter().flat_map(|b| b.0.bytes()).collect();
        // first to the reader: it must empty one pipe while the other is filled
        self.batches.send(batch).unwrap();
        self.input.write_all(&bytes).unwrap();
    }

    pub fn end(self) -> Given {
        let Program { mut child, input, batches, reader } = self;
        drop(input.into_inner().unwrap());
        drop(batches);
        let given = reader.join().unwrap();
        assert!(child.wait().unwrap().success(), "the program ended badly");
        given
    }
}

fn read_answer(output: &mut impl Read) -> Answer {
    let mut bytes = [0; 72];
    output.read_exact(&mut bytes).expect("the program answers");
    Answer::from_bytes(&bytes)
}

impl Given {
    fn compare(&mut self, output: &mut impl Read, batch: &Batch) {
        let answers: Vec<Answer> = batch.wanted.iter().map(|_| read_answer(output)).collect();
        let differing = |i: &usize| answers[*i] != batch.wanted[*i].1;
        let differing: Vec<usize> = (0..answers.len()).filter(differing).collect();
        if let Some(i) = differing.first().filter(|_| self.differences < 3) {
            println!("\nthe program differs from the model:");
            report(batch.wanted.iter().map(|b| b.0), *i, batch.wanted[*i].1, answers[*i]);
        }
        self.differences += differing.len() as u64;
        if let Some(pair) = &batch.pair {
            self.orders.hold(pair, &answers);
        }
    }
}

/// Prints the requests since the last fresh table, as lines that ./run takes, and both answers.
pub fn report(requests: impl Iterator<Item = Request>, i: usize, wanted: Answer, given: Answer) {
    let upto: Vec<Request> = requests.take(i + 1).collect();
    let start = upto.iter().rposition(|r| [TABLE, HALVES].contains(&r.kind)).unwrap_or(0);
    for request in &upto[start..] {
        println!("    {}", request.text());
    }
    println!("  wanted {}", wanted.text(upto[i].kind));
    println!("  given  {}", given.text(upto[i].kind));
    println!("  wanted {wanted:?}");
    println!("  given  {given:?}");
}

/// Requests by kind and by what was said.
#[derive(Default)]
pub struct Figures {
    pub said: BTreeMap<(u64, u64), u64>,
    pub of_rust: u64,
    pub requests: u64,
    /// Checked tables that fail one rule alone, by the rule, and those that fail several.
    alone: [u64; 8],
    several: u64,
    scenes: Vec<(&'static str, u64)>,
}

impl Figures {
    pub fn count(&mut self, request: &Request, answer: &Answer, of_rust: bool) {
        *self.said.entry((request.kind, answer.number)).or_default() += 1;
        self.requests += 1;
        self.of_rust += of_rust as u64;
    }

    /// A table was checked that fails these rules.
    pub fn fails(&mut self, rules: &[usize]) {
        match rules {
            [] => (),
            [rule] => self.alone[rule - 1] += 1,
            _ => self.several += 1,
        }
    }

    /// The requests since `before` were of that kind of scene.
    pub fn scenes(&mut self, name: &'static str, before: u64) {
        let count = self.requests - before;
        match self.scenes.iter_mut().find(|s| s.0 == name) {
            Some(scenes) => scenes.1 += count,
            None => self.scenes.push((name, count)),
        }
    }

    pub fn print(&self) {
        for (name, count) in &self.scenes {
            println!("{count:>9} {name}");
        }
        println!();
        for (kind, name, _) in KINDS {
            let row: Vec<_> = self.said.iter().filter(|(k, _)| k.0 == *kind).collect();
            if row.is_empty() {
                continue;
            }
            let all: u64 = row.iter().map(|r| *r.1).sum();
            let each: Vec<String> = row.iter().map(|(k, n)| format!("{} {n}", said(k.1))).collect();
            println!("{name:>14} {all:>9}: {}", each.join(", "));
        }
        println!();
        let alone: Vec<String> = (1..=8).map(|rule| format!("{rule}: {}", self.alone[rule - 1])).collect();
        println!("unsound by one of the eight rules alone: {}; by several: {}", alone.join(", "), self.several);
    }
}
