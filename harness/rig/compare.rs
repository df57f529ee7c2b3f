//! Compares the port with the Rust and with a plain model of the numbers. Arguments: seed, number of random inputs.
#![allow(dead_code)]
mod gateway;
mod make;
mod model;
mod oracle;
mod reader;

use gateway::{Caller, Entry, Lengths, Outcome};
use make::Random;
use model::LEAST;
use std::collections::BTreeMap;
use std::time::Instant;

/// How long the report's buffer is: a number, or the report's own length and a bit.
#[derive(Clone, Copy, Debug)]
enum Report {
    Of(usize),
    Fitting(isize),
}

#[derive(Clone, Debug)]
struct Case {
    entry: Entry,
    output: usize,
    scratch: usize,
    report: Report,
    seed: u64,
}

fn lengths(r: &mut Random) -> (usize, usize, Report) {
    let one = |r: &mut Random| match r.below(40) {
        0 => LEAST - 1,
        1 => r.below(LEAST),
        2..=12 => LEAST,
        _ => LEAST + r.below(300),
    };
    let report = match r.below(10) {
        0 => Report::Of(0),
        1 => Report::Of(r.below(200)),
        2 => Report::Fitting(0),
        3 => Report::Fitting(-1),
        4 => Report::Fitting(1),
        5 => Report::Of(65_536),
        _ => Report::Of(r.from(1000, 9000)),
    };
    (one(r), one(r), report)
}

struct Rig {
    caller: Caller,
    numbers: [u64; 16],
    calls: u64,
    smallest: Option<(Case, String)>,
    differing: u64,
    /// How many cases have reached what a change brought.
    reached: BTreeMap<&'static str, u64>,
}

fn size(e: &Entry) -> usize {
    match e {
        Entry::Redact { message, policy, .. } => message.len() + policy.len(),
        Entry::Print { policy } => policy.len(),
        Entry::Append { first, second } => first.len() + second.len(),
        Entry::Builtin { .. } => 0,
        Entry::Payload { payload, policy, .. } => payload.len() + policy.len(),
    }
}

impl Rig {
    /// What differs in a case, and its number.
    fn differs(&mut self, case: &Case) -> (u32, Option<String>) {
        let mut lengths = Lengths { output: case.output, report: 0, scratch: case.scratch };
        if let Report::Of(n) = case.report {
            lengths.report = n;
        }
        let expected = if case.output < LEAST || case.scratch < LEAST {
            Outcome::refused(1, 0)
        } else {
            match oracle::expected(&case.entry) {
                Err(what) => return (0, Some(what)),
                Ok(o) => {
                    if let Report::Fitting(more) = case.report {
                        lengths.report = o.report.len().saturating_add_signed(more).min(100_000);
                    }
                    if o.report.len() > lengths.report { Outcome::refused(12, 0) } else { o }
                }
            }
        };
        (expected.number, self.caller.differs(&case.entry, lengths, case.seed, &expected))
    }

    fn run(&mut self, case: Case) {
        let (number, what) = self.differs(&case);
        for what in model::reached() {
            *self.reached.entry(what).or_default() += 1;
        }
        self.calls += 1;
        self.numbers[number as usize] += 1;
        if let Some(what) = what {
            self.differing += 1;
            let (case, what) = if self.differing <= 8 { self.shrunk(case, what) } else { (case, what) };
            if self.smallest.as_ref().is_none_or(|(c, _)| size(&case.entry) < size(&c.entry)) {
                self.smallest = Some((case, what));
            }
        }
    }

    /// A smaller case that still differs, found within five seconds.
    fn shrunk(&mut self, mut case: Case, mut what: String) -> (Case, String) {
        let start = Instant::now();
        let mut chunk = size(&case.entry) / 2 + 1;
        while chunk > 0 {
            let mut again = false;
            for text in 0..2 {
                let mut at = 0;
                loop {
                    let mut smaller = case.clone();
                    let t = match (&mut smaller.entry, text) {
                        (Entry::Redact { message, .. }, 0) => message,
                        (Entry::Redact { policy, .. } | Entry::Payload { policy, .. }, 1) | (Entry::Print { policy }, 0) => policy,
                        (Entry::Append { first, .. }, 0) => first,
                        (Entry::Append { second, .. }, 1) => second,
                        (Entry::Payload { payload, .. }, 0) => payload,
                        _ => break,
                    };
                    if at >= t.len() || start.elapsed().as_secs() >= 5 {
                        break;
                    }
                    let end = (at + chunk).min(t.len());
                    t.drain(at..end);
                    match self.differs(&smaller).1 {
                        Some(w) => (case, what, again) = (smaller, w, true),
                        None => at += chunk,
                    }
                }
            }
            if !again {
                chunk /= 2;
            }
        }
        (case, what)
    }
}

fn show(e: &Entry) {
    let text = |name: &str, t: &[u8]| println!("  {name}: \"{}\"", t.escape_ascii());
    match e {
        Entry::Redact { message, policy, key } => {
            println!("  redact, key {key}");
            text("message", message);
            text("policy", policy);
        }
        Entry::Print { policy } => {
            println!("  print");
            text("policy", policy);
        }
        Entry::Append { first, second } => {
            println!("  append");
            text("first", first);
            text("second", second);
        }
        Entry::Builtin { number } => println!("  built-in {number}"),
        Entry::Payload { payload, policy, key } => {
            println!("  payload, key {key}");
            text("payload", payload);
            text("policy", policy);
        }
    }
}

fn main() {
    let mut arguments = std::env::args().skip(1).map(|a| a.parse::<u64>().expect("a number"));
    let seed = arguments.next().unwrap_or(1);
    let count = arguments.next().unwrap_or(200_000);
    let mut rig = Rig { caller: Caller::new(), numbers: [0; 16], calls: 0, smallest: None, differing: 0, reached: BTreeMap::new() };
    let mut r = Random(seed);
    make::short_inputs(|entry| {
        let (output, scratch, report) = lengths(&mut r);
        // Short buffers only now and then: every short input is to be judged.
        let (output, scratch) = (output.max(LEAST), scratch.max(LEAST));
        let report = if let Report::Of(n) = report { Report::Of(n.max(400)) } else { report };
        rig.run(Case { entry, output, scratch, report, seed: r.next() });
    });
    let short = rig.calls;
    let reached_short = rig.reached.clone();
    for i in 0..count {
        let mut r = Random(seed.wrapping_mul(0x9e3779b97f4a7c15) ^ i.wrapping_mul(0xd1342543de82ef95));
        let entry = make::random_input(&mut r);
        let (output, scratch, report) = lengths(&mut r);
        rig.run(Case { entry, output, scratch, report, seed: r.next() });
    }
    let numbers: Vec<String> = rig.numbers.iter().enumerate().map(|(n, k)| format!("{n}: {k}")).collect();
    println!("numbers: {}", numbers.join(", "));
    for (what, cases) in &rig.reached {
        let short = reached_short.get(what).unwrap_or(&0);
        println!("reached {what}: by {short} short inputs and {} random ones", cases - short);
    }
    if let Some((case, what)) = &rig.smallest {
        println!("smallest differing input: {what}");
        show(&case.entry);
        println!("  output {}, scratch {}, report {:?}, seed {}", case.output, case.scratch, case.report, case.seed);
    }
    println!("compared: {short} short inputs and {count} random ones of seed {seed}, {} differ", rig.differing);
    std::process::exit(i32::from(rig.differing > 0));
}
