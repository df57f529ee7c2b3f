//! Chooses inputs of the five entries and writes them with the oracle's answers: the file crates/vectors/data/sample.txt. The port is not
//! called. What was chosen is counted on standard error.
#![allow(dead_code)]
mod gateway;
mod make;
mod model;
mod oracle;
mod reader;

use er7_redact::{Policy, Posture};
use gateway::{Entry, Lengths, Outcome};
use make::Random;
use model::{LEAST, Message, Path, Run};
use std::collections::{BTreeMap, BTreeSet};

const SEED: u64 = 1;
/// One of so many short inputs is taken, and so many random ones are looked at.
const SHORT: usize = 1_811;
const RANDOM: usize = 30_000;
/// A random input is taken if it shows something that fewer cases than this show, or gets a number that fewer than these get.
const SHOW: usize = 3;
const GET: usize = 8;
/// Inputs and answers of a case stay below this many bytes.
const MOST: usize = 2_000;
/// The longest buffer that the replay lends.
const LONGEST: usize = 65_536;

fn head() -> String {
    format!(
        "\
# The oracle's answers to a fixed choice of inputs, written by harness/sample.sh. Made again, the file is the same.
#
# Chosen are: one of {SHORT} of the comparison's short inputs; of {RANDOM} random ones of seed {SEED}, damaged ones among them, each below a drawn
# size that gets a number that fewer than {GET} cases before it get, or shows something that fewer than {SHOW} show (a posture, an action that the
# posture, the sweep or a rule of some depth writes, a null among them, which collapses a node, or what a change brought); and inputs at
# each limit that a short input reaches. Inputs and answers of a case have fewer than {MOST} bytes: the number 2 and the limit of leaves,
# which need more, are left to the comparison.
# Texts, reports, rows and the numbers 7, 8, 9, 13 and 15 are what the Rust says, the other refusals are the plain model's. The port
# was not asked.
#
# A case to a line, its fields parted by tabs: group; number, line, rows, text, report; the lengths of output, report and scratch; the first
# text, the second, and the key or the built-in's number. What an entry lacks is empty or 0.
# \\t \\n \\r \\\\ stand for those bytes, \\xNN for the byte NN.
"
    )
}

struct Case {
    entry: Entry,
    lengths: Lengths,
    outcome: Outcome,
    /// What a change brought that the case reaches.
    reached: BTreeSet<&'static str>,
}

/// The outcome in buffers of these lengths.
fn outcome(entry: &Entry, lengths: Lengths) -> Outcome {
    if lengths.output < LEAST || lengths.scratch < LEAST {
        return Outcome::refused(1, 0);
    }
    let o = oracle::expected(entry).unwrap_or_else(|what| panic!("{what}: {entry:?}"));
    if o.report.len() > lengths.report { Outcome::refused(12, 0) } else { o }
}

fn name(entry: &Entry) -> &'static str {
    match entry {
        Entry::Redact { .. } => "redact",
        Entry::Print { .. } => "print",
        Entry::Append { .. } => "append",
        Entry::Builtin { .. } => "builtin",
        Entry::Payload { .. } => "payload",
    }
}

/// Two texts and a number: what an entry reads.
fn inputs(entry: &Entry) -> (&[u8], &[u8], u64) {
    match entry {
        Entry::Redact { message, policy, key } => (message, policy, *key),
        Entry::Print { policy } => (policy, b"", 0),
        Entry::Append { first, second } => (first, second, 0),
        Entry::Builtin { number } => (b"", b"", *number),
        Entry::Payload { payload, policy, key } => (payload, policy, *key),
    }
}

fn escaped(text: &[u8]) -> String {
    text.iter()
        .map(|b| match b {
            b'\t' => "\\t".into(),
            b'\n' => "\\n".into(),
            b'\r' => "\\r".into(),
            b'\\' => "\\\\".into(),
            0x20..=0x7e => char::from(*b).to_string(),
            _ => format!("\\x{b:02x}"),
        })
        .collect()
}

impl Case {
    fn new(entry: Entry, lengths: Lengths) -> Case {
        model::reached();
        let outcome = outcome(&entry, lengths);
        Case { entry, lengths, outcome, reached: model::reached() }
    }

    fn size(&self) -> usize {
        let (first, second, _) = inputs(&self.entry);
        first.len() + second.len() + self.outcome.text.len() + self.outcome.report.len()
    }

    fn line(&self) -> String {
        let (o, l, (first, second, number)) = (&self.outcome, self.lengths, inputs(&self.entry));
        format!(
            "entry-{}\t{}\t{}\t{}\t{}\t{}\t{}\t{}\t{}\t{}\t{}\t{number}\n",
            name(&self.entry),
            o.number,
            o.line,
            o.rows,
            escaped(&o.text),
            escaped(&o.report),
            l.output,
            l.report,
            l.scratch,
            escaped(first),
            escaped(second),
        )
    }
}

// ---- what a case shows

fn word(text: impl ToString) -> String {
    text.to_string().split(' ').next().unwrap_or("").into()
}

/// What a policy says of leaves that no rule names.
fn posture(p: &Policy) -> [String; 2] {
    let posture = match &p.posture {
        Posture::Accept => "accept".into(),
        Posture::Reject(a) => format!("reject {}", word(a)),
    };
    [posture, format!("known-values {}", p.search_known_values)]
}

fn unrecognised(p: &Policy) -> String {
    format!("unrecognised {}", word(&p.unrecognised))
}

fn depth(p: &Path) -> &'static str {
    match (p.field, p.repetition, p.component, p.subcomponent) {
        (0, ..) => "segment",
        (_, 0, 0, 0) => "field",
        (_, _, 0, 0) => "repetition",
        (_, _, _, 0) => "component",
        _ => "leaf",
    }
}

/// Who writes what, by a report's rows.
fn writes(who: &str, report: &[u8]) -> Vec<String> {
    String::from_utf8_lossy(report).lines().filter_map(|row| Some(format!("{who} writes {}", row.split(' ').nth(1)?))).collect()
}

/// What the turns of a run write: the rules', the posture's and the sweep's.
fn turns(m: &mut Message, p: &model::Policy, key: u64) -> Result<Vec<String>, u32> {
    let mut shown = vec![format!("usual delimiters {}", m.delimiters == *b"|^~\\&"), format!("last CR {}", m.last_cr)];
    let mut run = Run::new(m, key, p.sweep);
    let mut from = 0;
    for rule in &p.rules {
        run.rule(rule)?;
        shown.extend(writes(&format!("rule for a {}", depth(&rule.path)), &run.report[from..]));
        from = run.report.len();
    }
    if let Some(a) = &p.reject {
        run.posture(a)?;
        shown.extend(writes("posture", &run.report[from..]));
        from = run.report.len();
    }
    run.swept()?;
    shown.extend(writes("sweep", &run.report[from..]));
    Ok(shown)
}

/// What a case shows that is not refused.
fn accepted(case: &Case) -> Vec<String> {
    let policy = |text: &[u8]| Policy::parse(std::str::from_utf8(text).expect("text")).expect("a policy");
    let directives = |p: &Policy| posture(p).into_iter().chain([unrecognised(p)]).collect::<Vec<_>>();
    match &case.entry {
        Entry::Redact { message, policy: text, key } => {
            let mut m = model::read_message(message).expect("a message");
            let mut shown = turns(&mut m, &model::read_policy(text).expect("a policy"), *key).expect("a run");
            shown.extend(posture(&policy(text)));
            shown.push(format!("report fills its buffer {}", case.outcome.report.len() == case.lengths.report));
            shown
        }
        Entry::Print { policy: text } => {
            let p = policy(text);
            directives(&p).into_iter().chain(p.rules.iter().map(|r| format!("rule {}", word(&r.action)))).collect()
        }
        Entry::Append { first, second } => {
            let both = [("first", first), ("second", second)];
            both.iter().flat_map(|(which, text)| directives(&policy(text)).into_iter().map(move |d| format!("{which} {d}"))).collect()
        }
        Entry::Builtin { .. } => Vec::new(),
        Entry::Payload { policy: text, .. } => vec![unrecognised(&policy(text))],
    }
}

fn shown(case: &Case) -> BTreeSet<String> {
    let o = &case.outcome;
    let mut shown = vec![format!("line {}", o.line.min(3))];
    if o.number == 0 {
        shown.extend(accepted(case));
        shown.extend(case.reached.iter().map(ToString::to_string));
    }
    shown.into_iter().map(|s| format!("{}: {s}", name(&case.entry))).collect()
}

// ---- the choice

#[derive(Default)]
struct Sample {
    cases: Vec<Case>,
    got: BTreeMap<(&'static str, u32), usize>,
    seen: BTreeMap<String, usize>,
}

impl Sample {
    fn take(&mut self, case: Case) {
        assert!(case.size() < MOST, "{:?}", case.entry);
        *self.got.entry((name(&case.entry), case.outcome.number)).or_default() += 1;
        for what in shown(&case) {
            *self.seen.entry(what).or_default() += 1;
        }
        self.cases.push(case);
    }

    /// Takes a case of fewer than `most` bytes that is unlike most before it.
    fn offer(&mut self, case: Case, most: usize) {
        let rare = self.got.get(&(name(&case.entry), case.outcome.number)).is_none_or(|n| *n < GET);
        let news = || shown(&case).iter().any(|what| self.seen.get(what).is_none_or(|n| *n < SHOW));
        if case.size() < most && (rare || news()) {
            self.take(case);
        }
    }

    /// Takes the last input that gets another number, and the first that gets this one.
    fn edge(&mut self, number: u32, report: usize, input: impl Fn(usize) -> Entry) {
        let first = (1..MOST).find(|k| outcome(&input(*k), lent(report)).number == number).expect("an edge");
        self.take(Case::new(input(first - 1), lent(report)));
        self.take(Case::new(input(first), lent(report)));
    }
}

fn lent(report: usize) -> Lengths {
    Lengths { output: LEAST, report, scratch: LEAST }
}

/// Lengths that suffice but for one case in some fifteen; the report's is sometimes its own length, or one less.
fn lengths(r: &mut Random, entry: &Entry) -> Lengths {
    let one = |r: &mut Random| match r.below(60) {
        0 => LEAST - 1,
        1 => r.below(LEAST),
        2..=40 => LEAST,
        _ => LEAST + r.below(LONGEST - LEAST + 1),
    };
    let mut lengths = Lengths { output: one(r), report: LONGEST, scratch: one(r) };
    let kind = r.below(12);
    if !matches!(entry, Entry::Redact { .. }) {
        lengths.report = 0;
    } else if kind < 3 {
        let own = outcome(entry, Lengths { output: LEAST, ..lengths }).report.len();
        lengths.report = [own, own + 1, own.saturating_sub(1)][kind];
    }
    lengths
}

/// Inputs at each limit that a short input reaches. Where the texts would be long the report's buffer is short, and what passes gets 12.
fn limits(sample: &mut Sample) {
    let redact = |message: String, policy: String| Entry::Redact { message: message.into(), policy: policy.into(), key: 7 };
    let print = |policy: String| Entry::Print { policy: policy.into() };
    let many = |n: usize, f: &dyn Fn(usize) -> String| (0..n).map(f).collect::<Vec<_>>();
    // a line, its first word, its rest
    sample.edge(6, 0, |k| print(format!("PID clear\n#{}", "c".repeat(k))));
    sample.edge(6, 0, |k| print(format!("{} mask", "P".repeat(k))));
    sample.edge(6, 0, |k| print(format!("PID replace {}", "r".repeat(k))));
    // rules, read and merged; segments
    sample.edge(6, LONGEST, |k| redact("MSH|^~\\&|A\rPID|1|22".into(), "PID-2 clear\n".repeat(k)));
    sample.take(Case::new(Entry::Append { first: "A-1 keep\n".repeat(64).into(), second: "B null\n".repeat(65).into() }, lent(0)));
    sample.edge(6, 0, |k| redact(format!("MSH|^~\\&|A{}", "\rOBX".repeat(k)), "MSH-3 clear".into()));
    // learnt values: their number, their bytes
    let (leaves, rules) = (many(25, &|i| format!("v{i:02}")).join("|"), "PID pseudonym\n".repeat(20));
    sample.edge(10, 90, |k| {
        let more = many(k, &|i| format!("w{i:02}")).join("^");
        redact(format!("MSH|^~\\&|A\rPID|{leaves}\rOBX|{more}"), format!("{rules}OBX clear"))
    });
    let (leaves, rules) = (many(10, &|i| i.to_string().repeat(60)).join("~"), many(40, &|i| format!("PID first {}", 59 - i)).join("\n"));
    sample.edge(10, 90, |k| redact(format!("MSH|^~\\&|A\rPID|{leaves}\rOBX|{}", "x".repeat(k)), format!("{rules}\nOBX mask")));
    // the size after a change by a rule, by the posture, by the sweep
    let text = "|".repeat(72);
    let too_long = [
        ("a", format!("OBX replace {text}\nOBX clear")),
        ("a", format!("PID keep\nreject replace {text}")),
        ("abc", format!("PID-1 replace {text}\nPID keep")),
    ];
    for (leaf, policy) in too_long {
        let leaves = vec![leaf; 225].join("&");
        sample.edge(11, 90, |k| redact(format!("MSH|^~\\&\rPID|abc|{}\rOBX|{leaves}", "x".repeat(k)), policy.clone()));
    }
}

fn main() {
    let mut sample = Sample::default();
    let mut r = Random(SEED);
    let mut at = 0;
    make::short_inputs(|entry| {
        at += 1;
        if at % SHORT == 0 {
            let lengths = lengths(&mut r, &entry);
            sample.take(Case::new(entry, lengths));
        }
    });
    limits(&mut sample);
    for number in (0..=4).chain([u64::MAX]) {
        sample.take(Case::new(Entry::Builtin { number }, lent(0)));
    }
    for _ in 0..RANDOM {
        let entry = make::random_input(&mut r);
        let lengths = lengths(&mut r, &entry);
        let most = [150, 250, 350, MOST][r.below(4)];
        sample.offer(Case::new(entry, lengths), most);
    }
    print!("{}", head());
    for entry in ["redact", "print", "append", "builtin", "payload"] {
        println!();
        sample.cases.iter().filter(|case| name(&case.entry) == entry).for_each(|case| print!("{}", case.line()));
    }
    for ((entry, number), n) in &sample.got {
        eprintln!("{n:4} {entry}: number {number}");
    }
    for (what, n) in &sample.seen {
        eprintln!("{n:4} {what}");
    }
    eprintln!("{} cases", sample.cases.len());
}
