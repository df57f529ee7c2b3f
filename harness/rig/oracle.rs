//! What a call must come to: numbers from the plain model, and text, report and rows from the running Rust. Where both judge they are
//! compared with each other first.
use crate::gateway::{Entry, Outcome};
use crate::{model, reader};
use er7::RenderOptions;
use er7_redact::{Policy, Redactor};

/// The number and line that the Rust's own error stands for: its words say which.
fn number_of(error: &er7_redact::Error) -> Option<(u32, u64)> {
    let text = error.to_string();
    let rest = text.strip_prefix("policy line ")?;
    let (line, rest) = rest.split_once(": \"")?;
    let mut end = 0;
    let bytes = rest.as_bytes();
    while bytes[end] != b'"' {
        end += if bytes[end] == b'\\' { 2 } else { 1 };
    }
    let detail = rest[end + 1..].strip_prefix(": ")?;
    let nine = ["\"accept\" takes", "\"unrecognised\" wants", "\"known-values\" wants", "the default line is now"];
    let number = if detail.starts_with("bad path: ") {
        8
    } else if nine.iter().any(|w| detail.starts_with(w)) {
        9
    } else if detail.starts_with("action \"shift\" wants") {
        15
    } else {
        7
    };
    Some((number, line.parse().ok()?))
}

/// The Rust's policy and the model's, or the refusal; `Err(Err(..))` where model and Rust disagree.
fn policy(text: &[u8]) -> Result<(Policy, model::Policy), Result<Outcome, String>> {
    let plain = model::read_policy(text);
    if let Err((number @ (2 | 3 | 6), line)) = plain {
        return Err(Ok(Outcome::refused(number, line)));
    }
    let rust = Policy::parse(std::str::from_utf8(text).map_err(|e| Err(e.to_string()))?);
    match (rust, plain) {
        (Ok(rust), Ok(plain)) => Ok((rust, plain)),
        (Err(rust), Err((number, line))) => {
            if number_of(&rust) == Some((number, line)) {
                Err(Ok(Outcome::refused(number, line)))
            } else {
                Err(Err(format!("the model refuses with {number} in line {line}, the Rust with: {rust}")))
            }
        }
        (Ok(_), Err((number, line))) => Err(Err(format!("the model refuses with {number} in line {line}, the Rust reads the policy"))),
        (Err(rust), Ok(_)) => Err(Err(format!("the model reads the policy, the Rust says: {rust}"))),
    }
}

fn printed(policy: &Policy) -> Outcome {
    Outcome { text: policy.to_string().into_bytes(), ..Outcome::default() }
}

/// Text, report and rows by the Rust.
pub fn rust_redact(message: &[u8], policy: &Policy, key: u64) -> Result<Outcome, u32> {
    let (mut tree, trailing_terminator) = reader::read(message)?;
    let report = Redactor::new(policy.clone()).with_key(key).redact(&mut tree);
    let options = RenderOptions { trailing_terminator, ..RenderOptions::default() };
    Ok(Outcome {
        text: tree.to_er7_with(options).into_bytes(),
        report: report.to_string().into_bytes(),
        rows: report.len() as u64,
        ..Outcome::default()
    })
}

/// The outcome in buffers that are long enough, the report's among them; or where model and Rust disagree.
pub fn expected(entry: &Entry) -> Result<Outcome, String> {
    judged(entry).unwrap_or_else(|refused| refused)
}

fn judged(entry: &Entry) -> Result<Result<Outcome, String>, Result<Outcome, String>> {
    Ok(Ok(match entry {
        Entry::Print { policy: p } => printed(&policy(p)?.0),
        Entry::Append { first, second } => {
            let (mut one, _) = policy(first)?;
            let (two, _) = policy(second)?;
            if one.rules.len() + two.rules.len() > 128 {
                return Err(Ok(Outcome::refused(6, 0)));
            }
            one.append(two);
            printed(&one)
        }
        Entry::Builtin { number } => match number {
            0 => printed(&Policy::accept_all()),
            1 => printed(&Policy::reject_all()),
            2 => printed(&Policy::patient_identifiers()),
            3 => printed(&Policy::all_but_the_header()),
            _ => Outcome::refused(14, 0),
        },
        Entry::Payload { payload, policy: p, key } => {
            let (rust, plain) = policy(p)?;
            if payload.len() > model::LONGEST {
                return Err(Ok(Outcome::refused(2, 0)));
            }
            if payload.iter().any(|b| !matches!(b, 0x09 | 0x0a | 0x0d | 0x20..=0x7e)) {
                return Err(Ok(Outcome::refused(3, 0)));
            }
            let answer = Redactor::new(rust).with_key(*key).unrecognised(std::str::from_utf8(payload).unwrap()).map(String::into_bytes);
            let plain = match plain.unrecognised {
                model::Unrecognised::Refuse => None,
                model::Unrecognised::Pass => Some(payload.clone()),
                model::Unrecognised::Apply(a) => model::applied(&a, *key, payload),
            };
            if answer != plain {
                return Err(Err("model and Rust disagree about a payload".to_string()));
            }
            answer.map_or(Outcome::refused(13, 0), |text| Outcome { text, ..Outcome::default() })
        }
        Entry::Redact { message, policy: p, key } => {
            let (rust, plain) = policy(p)?;
            let m = match (model::read_message(message), reader::read(message)) {
                (Ok(m), Ok(_)) => m,
                (Err(a), Err(b)) if a == b => return Err(Ok(Outcome::refused(a, 0))),
                (a, b) => return Err(Err(format!("two readers disagree: {:?} and {:?}", a.err(), b.err()))),
            };
            let (text, report, rows) = match model::redact(&m, &plain, *key) {
                Ok(done) => done,
                Err(number) => return Err(Ok(Outcome::refused(number, 0))),
            };
            let o = rust_redact(message, &rust, *key).map_err(|n| Err(format!("{n}")))?;
            if (&o.text, &o.report, o.rows) != (&text, &report, rows) {
                return Err(Err(format!(
                    "model and Rust disagree: \"{}\", \"{}\" against \"{}\", \"{}\"",
                    text.escape_ascii(),
                    report.escape_ascii(),
                    o.text.escape_ascii(),
                    o.report.escape_ascii()
                )));
            }
            o
        }
    }))
}
