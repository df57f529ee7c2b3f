//! Demand 3 by trial: random pairs of messages alike in all but covered leaves. Where its premises hold, computed by the plain model, two
//! calls of the port must hand back the same text, report and rows. Arguments: seed, number of pairs.
#![allow(dead_code)]
mod gateway;
mod make;
mod model;

use gateway::Caller;
use make::Random;
use model::{Action, Message, Path, Place, Policy, Rule, Run};

fn text_at(m: &Message, (s, f, r, c, l): Place) -> Option<&Vec<u8>> {
    m.segments[s].fields.get(f - 1)?.get(r - 1)?.get(c - 1)?.get(l - 1)
}

fn places(m: &Message) -> Vec<Place> {
    let mut all = Vec::new();
    for (s, segment) in m.segments.iter().enumerate() {
        for (f, field) in segment.fields.iter().enumerate() {
            for (r, repetition) in field.iter().enumerate() {
                for (c, component) in repetition.iter().enumerate() {
                    all.extend((0..component.len()).map(|l| (s, f + 1, r + 1, c + 1, l + 1)));
                }
            }
        }
    }
    all
}

/// Whether a path reaches a place, MSH-1 and MSH-2 excepted.
fn covers(m: &Message, p: &Path, (s, f, r, c, l): Place) -> bool {
    let is = |index: u64, n: usize| index == 0 || index == n as u64;
    let segment = &m.segments[s];
    (s > 0 || f > 2)
        && segment.name == p.name
        && is(p.occurrence, segment.occurrence)
        && is(p.field, f)
        && is(p.repetition, r)
        && is(p.component, c)
        && is(p.subcomponent, l)
}

/// Whether a rule that covers a leaf there collapses its node in m.
fn collapses(m: &Message, rule: &Rule, at: Place) -> bool {
    let (s, f, r, c, _) = at;
    let p = &rule.path;
    if rule.action != Action::Null || p.subcomponent != 0 || text_at(m, at).is_none() {
        return false;
    }
    let field = &m.segments[s].fields[f - 1];
    let leaves: Vec<&Vec<u8>> = if p.component != 0 {
        field[r - 1][c - 1].iter().collect()
    } else if p.repetition != 0 {
        field[r - 1].iter().flatten().collect()
    } else {
        field.iter().flatten().flatten().collect()
    };
    leaves != [&b"\"\"".to_vec()]
}

/// "At every position where the two differ, the first covering action other than keep changed the leaf in both and left the same text."
fn settled(a: &Message, b: &Message, policy: &Policy, key: u64) -> bool {
    let (mut a, mut b) = (a.clone(), b.clone());
    let mut open: Vec<Place> = places(&a).into_iter().filter(|at| text_at(&a, *at) != text_at(&b, *at)).collect();
    for rule in &policy.rules {
        let (a_before, b_before) = (a.clone(), b.clone());
        for m in [&mut a, &mut b] {
            if Run::new(m, key, false).rule(rule).is_err() {
                return false;
            }
        }
        let mut still = Vec::new();
        for at in open {
            if rule.action == Action::Keep || !covers(&a, &rule.path, at) {
                still.push(at);
                continue;
            }
            let changed = |before: &Message, after: &Message| text_at(before, at) != text_at(after, at) || collapses(before, rule, at);
            if !changed(&a_before, &a) || !changed(&b_before, &b) || text_at(&a, at) != text_at(&b, at) {
                return false;
            }
        }
        open = still;
    }
    open.is_empty()
}

/// "no value learnt from a message is a whole word of an unnamed leaf of that message", when the sweep starts
fn unswept(m: &Message, policy: &Policy, key: u64) -> bool {
    let mut m = m.clone();
    let mut run = Run::new(&mut m, key, true);
    for rule in &policy.rules {
        if run.rule(rule).is_err() {
            return false;
        }
    }
    if let Some(action) = &policy.reject
        && run.posture(action).is_err()
    {
        return false;
    }
    run.unnamed().iter().all(|at| text_at(run.message, *at).is_none_or(|t| run.found(t).is_none()))
}

fn policy_text(r: &mut Random) -> String {
    let mut text = String::new();
    for _ in 0..r.from(1, 4) {
        let action = match r.below(10) {
            0 | 1 => make::action(r),
            _ => r.pick(&["clear", "null", "replace", "replace x", "mask", "mask", "first 0", "last 1", "shift -400", "keep"]).to_string(),
        };
        text += &format!("{} {action}\n", make::path(r));
    }
    if r.chance(40) {
        text += &format!("reject {}\n", make::action(r));
    }
    text + r.pick(&["known-values off\n", "known-values on\n"])
}

/// Another text for a leaf: any, or one of the same length, for a date also one of the same year.
fn other(r: &mut Random, d: &[u8; 5], text: &[u8]) -> Vec<u8> {
    if r.chance(50) || text.is_empty() {
        return make::leaf(r, d);
    }
    if text.len() >= 8 && text[..8].iter().all(u8::is_ascii_digit) && r.chance(50) {
        return [&text[..4], format!("{:02}{:02}", r.from(1, 12), r.from(1, 28)).as_bytes(), &text[8..]].concat();
    }
    text.iter().map(|b| if b.is_ascii_alphanumeric() { r.from(b'a' as usize, b'z' as usize) as u8 } else { *b }).collect()
}

fn main() {
    let mut arguments = std::env::args().skip(1).map(|a| a.parse::<u64>().expect("a number"));
    let seed = arguments.next().unwrap_or(1);
    let count = arguments.next().unwrap_or(100_000);
    let mut caller = Caller::new();
    let (mut pairs, mut held, mut with_sweep, mut apart, mut failures) = (0_u64, 0_u64, 0_u64, 0_u64, 0_u64);
    let mut smallest: Option<(usize, String)> = None;
    let mut r = Random(seed);
    while pairs < count {
        let (first, text, key) = (make::message(&mut r, 4, 4), policy_text(&mut r), r.next());
        let (Ok(a), Ok(policy)) = (model::read_message(&first), model::read_policy(text.as_bytes())) else { continue };
        let mut b = a.clone();
        let mut differ = false;
        for at in places(&a) {
            if !policy.rules.iter().any(|rule| covers(&a, &rule.path, at)) || r.chance(40) {
                continue;
            }
            let (s, f, re, c, l) = at;
            let leaf = &mut b.segments[s].fields[f - 1][re - 1][c - 1][l - 1];
            let new = other(&mut r, &a.delimiters, leaf);
            differ |= *leaf != new;
            *leaf = new;
        }
        if !differ {
            continue;
        }
        pairs += 1;
        let second = model::print_message(&b);
        let accepted = |m: &Message| model::redact(m, &policy, key).is_ok_and(|(_, report, _)| report.len() <= 65_536);
        let premises = model::read_message(&second).as_ref() == Ok(&b)
            && accepted(&a)
            && accepted(&b)
            && settled(&a, &b, &policy, key)
            && (!policy.sweep || (unswept(&a, &policy, key) && unswept(&b, &policy, key)));
        let (one, two) = (caller.redacted(&first, text.as_bytes(), key, r.next()), caller.redacted(&second, text.as_bytes(), key, r.next()));
        let same = (&one.text, &one.report, one.rows) == (&two.text, &two.report, two.rows);
        if !premises {
            apart += u64::from(!same);
            continue;
        }
        held += 1;
        with_sweep += u64::from(policy.sweep);
        if !same || one.number != 0 || two.number != 0 {
            failures += 1;
            let size = first.len() + second.len() + text.len();
            if smallest.as_ref().is_none_or(|(n, _)| size < *n) {
                let shown = |t: &[u8]| t.escape_ascii().to_string();
                smallest = Some((size, format!("{}\n{}\n{}\nkey {key}", shown(&first), shown(&second), shown(text.as_bytes()))));
            }
        }
    }
    if let Some((_, shown)) = &smallest {
        println!("smallest pair that came out apart:\n{shown}");
    }
    println!(
        "demand 3: {pairs} pairs of seed {seed}, premises hold for {held} ({with_sweep} with the sweep on), {failures} of these come out \
         apart; of the others {apart} do"
    );
    std::process::exit(i32::from(failures > 0));
}
