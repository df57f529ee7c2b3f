//! A plain model of the entries, written from the specification: the numbers and lines of refusals, and the run. It shares nothing with
//! the Rust nor with the port.
use std::cell::RefCell;
use std::collections::{BTreeSet, HashSet};

thread_local! {
    static REACHED: RefCell<BTreeSet<&'static str>> = const { RefCell::new(BTreeSet::new()) };
}

/// Notes that a case has reached behaviour that a change brought.
fn reach(what: &'static str) {
    REACHED.with_borrow_mut(|all| all.insert(what));
}

/// What the cases since the last call have reached.
pub fn reached() -> BTreeSet<&'static str> {
    REACHED.take()
}

pub const LEAST: usize = 49_152;
pub const LONGEST: usize = 32_768;

// ---- policies

#[derive(Clone, Debug, PartialEq)]
pub enum Action {
    Keep,
    Clear,
    Null,
    Replace(Vec<u8>),
    Mask(u8),
    First(u64),
    Last(u64),
    Pseudonym,
    Shift(i64),
}

/// 0 stands for an index that is absent.
#[derive(Clone, Debug, Default)]
pub struct Path {
    pub name: Vec<u8>,
    pub occurrence: u64,
    pub field: u64,
    pub repetition: u64,
    pub component: u64,
    pub subcomponent: u64,
}

#[derive(Clone, Debug)]
pub struct Rule {
    pub path: Path,
    pub action: Action,
}

#[derive(Clone, Debug)]
pub enum Unrecognised {
    Refuse,
    Pass,
    Apply(Action),
}

#[derive(Clone, Debug)]
pub struct Policy {
    pub rules: Vec<Rule>,
    /// the action of a rejecting posture
    pub reject: Option<Action>,
    pub unrecognised: Unrecognised,
    pub sweep: bool,
}

fn is_blank(b: &u8) -> bool {
    *b == b' ' || *b == b'\t'
}

fn trim(t: &[u8]) -> &[u8] {
    let start = t.iter().position(|b| !is_blank(b)).unwrap_or(t.len());
    let end = t.iter().rposition(|b| !is_blank(b)).map_or(start, |i| i + 1);
    &t[start..end]
}

/// The first word and the rest, both without outer blanks.
fn words(t: &[u8]) -> (&[u8], &[u8]) {
    let t = trim(t);
    let end = t.iter().position(is_blank).unwrap_or(t.len());
    (&t[..end], trim(&t[end..]))
}

fn number(digits: &[u8]) -> Option<u64> {
    if digits.is_empty() {
        return None;
    }
    let mut n: u128 = 0;
    for d in digits {
        if !d.is_ascii_digit() {
            return None;
        }
        n = n * 10 + u128::from(d - b'0');
        if n > u128::from(u64::MAX) {
            return None;
        }
    }
    Some(n as u64)
}

/// A day count: one sign or none, then digits.
fn day_count(t: &[u8]) -> Option<i64> {
    let (sign, digits) = match t {
        [b'-', digits @ ..] => (-1, digits),
        [b'+', digits @ ..] => (1, digits),
        digits => (1, digits),
    };
    number(digits).filter(|n| *n <= 3_650).map(|n| sign * n as i64)
}

/// An action, or its number.
pub fn read_action(t: &[u8]) -> Result<Action, u32> {
    let (name, argument) = words(t);
    let bare = |a: Action| argument.is_empty().then_some(a);
    let count = || number(argument.strip_prefix(b"+").unwrap_or(argument));
    match name.to_ascii_lowercase().as_slice() {
        b"keep" => bare(Action::Keep),
        b"clear" => bare(Action::Clear),
        b"null" => bare(Action::Null),
        b"pseudonym" => bare(Action::Pseudonym),
        b"replace" if argument.is_empty() => Some(Action::Replace(b"REDACTED".to_vec())),
        b"replace" => Some(Action::Replace(argument.to_vec())),
        b"mask" => match argument {
            [] => Some(Action::Mask(b'*')),
            [mask] => Some(Action::Mask(*mask)),
            _ => None,
        },
        b"first" => count().map(Action::First),
        b"last" => count().map(Action::Last),
        b"shift" => {
            let Some(days) = day_count(argument) else {
                reach("a day count refused");
                return Err(15);
            };
            Some(Action::Shift(days))
        }
        _ => None,
    }
    .ok_or(7)
}

/// An index: digits, 1 to 18446744073709551615; and what follows it.
fn index(t: &[u8]) -> Option<(u64, &[u8])> {
    let end = t.iter().position(|b| !b.is_ascii_digit()).unwrap_or(t.len());
    number(&t[..end]).filter(|n| *n > 0).map(|n| (n, &t[end..]))
}

/// `[n]`, if there is one.
fn bracket(t: &[u8]) -> Option<(u64, &[u8])> {
    let Some(inner) = t.strip_prefix(b"[") else { return Some((0, t)) };
    let (n, rest) = index(inner)?;
    Some((n, rest.strip_prefix(b"]")?))
}

/// `.n`, if there is one.
fn step(t: &[u8]) -> Option<(u64, &[u8])> {
    match t.strip_prefix(b".") {
        Some(rest) => index(rest),
        None => Some((0, t)),
    }
}

pub fn read_path(t: &[u8]) -> Option<Path> {
    let end = t.iter().position(|b| !b.is_ascii_alphanumeric()).unwrap_or(t.len());
    let mut p = Path { name: t[..end].to_vec(), ..Path::default() };
    if end == 0 {
        return None;
    }
    let mut rest;
    (p.occurrence, rest) = bracket(&t[end..])?;
    if rest.is_empty() {
        return Some(p);
    }
    if rest[0] != b'-' && rest[0] != b'.' {
        return None;
    }
    (p.field, rest) = index(&rest[1..])?;
    (p.repetition, rest) = bracket(rest)?;
    (p.component, rest) = step(rest)?;
    if p.component > 0 {
        (p.subcomponent, rest) = step(rest)?;
    }
    rest.is_empty().then_some(p)
}

/// A policy, or its number and line.
pub fn read_policy(t: &[u8]) -> Result<Policy, (u32, u64)> {
    if t.len() > LONGEST {
        return Err((2, 0));
    }
    for (i, b) in t.iter().enumerate() {
        let fine = matches!(b, 0x09 | 0x0a | 0x20..=0x7e) || (*b == b'\r' && t.get(i + 1) == Some(&b'\n'));
        if !fine {
            return Err((3, 0));
        }
    }
    let mut p = Policy { rules: Vec::new(), reject: None, unrecognised: Unrecognised::Refuse, sweep: true };
    let mut lines: Vec<&[u8]> = t.split(|b| *b == b'\n').collect();
    if lines.last() == Some(&&b""[..]) {
        lines.pop();
    }
    for (i, line) in lines.iter().enumerate() {
        let refuse = |n: u32| Err((n, i as u64 + 1));
        let line = line.strip_suffix(b"\r").unwrap_or(line);
        if line.len() > 255 {
            return refuse(6);
        }
        let end = line.iter().position(|b| *b == b'#').unwrap_or(line.len());
        let (word, rest) = words(&line[..end]);
        if word.len() > 64 || rest.len() > 80 {
            return refuse(6);
        }
        match word.to_ascii_lowercase().as_slice() {
            b"" => {}
            b"accept" => {
                if !rest.is_empty() {
                    return refuse(9);
                }
                p.reject = None;
            }
            b"reject" => {
                let action = if rest.is_empty() { Ok(Action::Replace(b"REDACTED".to_vec())) } else { read_action(rest) };
                match action {
                    Err(n) => return refuse(n),
                    Ok(Action::Keep) => p.reject = None,
                    Ok(a) => p.reject = Some(a),
                }
            }
            b"unrecognised" | b"unrecognized" => match rest.to_ascii_lowercase().as_slice() {
                b"" => return refuse(9),
                b"refuse" => p.unrecognised = Unrecognised::Refuse,
                b"pass" => p.unrecognised = Unrecognised::Pass,
                _ => match read_action(rest) {
                    Err(n) => return refuse(n),
                    Ok(Action::Keep | Action::Null) => p.unrecognised = Unrecognised::Pass,
                    Ok(a) => p.unrecognised = Unrecognised::Apply(a),
                },
            },
            b"known-values" => match rest.to_ascii_lowercase().as_slice() {
                b"on" => p.sweep = true,
                b"off" => p.sweep = false,
                _ => return refuse(9),
            },
            b"*" => return refuse(9),
            _ => {
                let action = match read_action(rest) {
                    Err(n) => return refuse(n),
                    Ok(a) => a,
                };
                let Some(path) = read_path(word) else { return refuse(8) };
                if p.rules.len() == 128 {
                    return refuse(6);
                }
                p.rules.push(Rule { path, action });
            }
        }
    }
    Ok(p)
}

// ---- messages

pub type Component = Vec<Vec<u8>>;
pub type Repetition = Vec<Component>;
pub type Field = Vec<Repetition>;

#[derive(Clone, Debug, PartialEq)]
pub struct Segment {
    pub name: Vec<u8>,
    pub occurrence: usize,
    pub fields: Vec<Field>,
}

#[derive(Clone, Debug, PartialEq)]
pub struct Message {
    /// field, component, repetition, escape, subcomponent
    pub delimiters: [u8; 5],
    pub segments: Vec<Segment>,
    pub last_cr: bool,
}

pub fn read_message(t: &[u8]) -> Result<Message, u32> {
    if t.len() > LONGEST {
        return Err(2);
    }
    if !t.iter().all(|b| matches!(b, 0x09 | 0x0d | 0x20..=0x7e)) {
        return Err(3);
    }
    if t.is_empty() {
        reach("a message of no bytes");
        return Ok(Message { delimiters: [0; 5], segments: Vec::new(), last_cr: false });
    }
    if t.len() < 8 || &t[..3] != b"MSH" {
        return Err(4);
    }
    let d: [u8; 5] = [t[3], t[4], t[5], t[6], t[7]];
    for (i, x) in d.iter().enumerate() {
        if x.is_ascii_alphanumeric() || b" \t\r\"".contains(x) || d[..i].contains(x) {
            return Err(4);
        }
    }
    if t.len() > 8 && t[8] != d[0] && t[8] != b'\r' {
        return Err(4);
    }
    let last_cr = t.ends_with(b"\r");
    let body = if last_cr { &t[..t.len() - 1] } else { t };
    let mut m = Message { delimiters: d, segments: Vec::new(), last_cr };
    let mut leaves = 0;
    for (i, text) in body.split(|b| *b == b'\r').enumerate() {
        let mut fields: Vec<Field> = Vec::new();
        let behind;
        if i == 0 {
            fields.push(vec![vec![vec![vec![d[0]]]]]);
            fields.push(vec![vec![vec![d[1..].to_vec()]]]);
            behind = &text[8..];
        } else {
            let named = text.len() >= 3 && text[..3].iter().all(|b| b.is_ascii_uppercase() || b.is_ascii_digit());
            if !named || (text.len() > 3 && text[3] != d[0]) || [&b"MSH"[..], b"FHS", b"BHS"].contains(&&text[..3]) {
                return Err(5);
            }
            behind = &text[3..];
        }
        if !behind.is_empty() {
            for field in behind[1..].split(|b| *b == d[0]) {
                let cut = |t: &[u8], by: u8| t.split(|b| *b == by).map(<[u8]>::to_vec).collect::<Vec<_>>();
                fields.push(
                    cut(field, d[2]).iter().map(|r| cut(r, d[1]).iter().map(|c| cut(c, d[4])).collect()).collect(),
                );
            }
        }
        leaves += fields.iter().flatten().flatten().map(Vec::len).sum::<usize>();
        if i >= 256 || leaves > 4096 {
            return Err(6);
        }
        let name = text[..3].to_vec();
        let occurrence = 1 + m.segments.iter().filter(|s| s.name == name).count();
        m.segments.push(Segment { name, occurrence, fields });
    }
    Ok(m)
}

fn join(pieces: Vec<Vec<u8>>, by: u8) -> Vec<u8> {
    pieces.join(&by)
}

fn component_text(d: &[u8; 5], c: &Component) -> Vec<u8> {
    join(c.clone(), d[4])
}

fn repetition_text(d: &[u8; 5], r: &Repetition) -> Vec<u8> {
    join(r.iter().map(|c| component_text(d, c)).collect(), d[1])
}

fn field_text(d: &[u8; 5], f: &Field) -> Vec<u8> {
    join(f.iter().map(|r| repetition_text(d, r)).collect(), d[2])
}

pub fn print_message(m: &Message) -> Vec<u8> {
    let d = &m.delimiters;
    let mut out = Vec::new();
    for (i, s) in m.segments.iter().enumerate() {
        if i > 0 {
            out.push(b'\r');
        }
        out.extend(&s.name);
        for (j, f) in s.fields.iter().enumerate() {
            if i > 0 || j > 1 {
                out.push(d[0]);
            }
            out.extend(field_text(d, f));
        }
    }
    if m.last_cr {
        out.push(b'\r');
    }
    out
}

// ---- values

const NULL: &[u8] = b"\"\"";

pub fn value(d: &[u8; 5], text: &[u8]) -> Vec<u8> {
    if text == NULL {
        return Vec::new();
    }
    let escape = d[3];
    let mut out = Vec::new();
    let mut i = 0;
    while i < text.len() {
        if text[i] != escape {
            out.push(text[i]);
            i += 1;
            continue;
        }
        let Some(len) = text[i + 1..].iter().position(|b| *b == escape) else {
            out.extend(&text[i..]);
            break;
        };
        match &text[i + 1..i + 1 + len] {
            b"F" => out.push(d[0]),
            b"S" => out.push(d[1]),
            b"R" => out.push(d[2]),
            b"E" => out.push(d[3]),
            b"T" => out.push(d[4]),
            _ => out.extend(&text[i..i + len + 2]),
        }
        i += len + 2;
    }
    out
}

fn written(d: &[u8; 5], value: &[u8]) -> Vec<u8> {
    let mut out = Vec::new();
    for b in value {
        match d.iter().position(|x| x == b) {
            Some(i) => out.extend([d[3], b"FSRET"[i], d[3]]),
            None => out.push(*b),
        }
    }
    out
}

fn pseudonym(key: u64, value: &[u8]) -> Vec<u8> {
    let mut hash: u64 = 0xcbf29ce484222325;
    for b in key.to_be_bytes().iter().chain(value) {
        hash ^= u64::from(*b);
        hash = ((u128::from(hash) * 0x100000001b3) & u128::from(u64::MAX)) as u64;
    }
    format!("{hash:016x}").into_bytes()
}

/// How many days a month has, of the years from 1.
fn days_in(year: u64, month: u64) -> u64 {
    match month {
        2 if year % 4 == 0 && (year % 100 != 0 || year % 400 == 0) => 29,
        2 => 28,
        4 | 6 | 9 | 11 => 30,
        _ => 31,
    }
}

/// A date and what follows it, moved from day to day; nothing for another value, nor where the years end.
fn shifted(days: i64, value: &[u8]) -> Vec<u8> {
    if ![8, 12, 14].contains(&value.len()) || !value.iter().all(u8::is_ascii_digit) {
        reach("a value of another form cleared");
        return Vec::new();
    }
    let part = |from: usize, to: usize| number(&value[from..to]).unwrap();
    let (mut year, mut month, mut day) = (part(0, 4), part(4, 6), part(6, 8));
    if year == 0 || month == 0 || month > 12 || day == 0 || day > days_in(year, month) {
        reach("digits that are no date cleared");
        return Vec::new();
    }
    for _ in 0..days.abs() {
        if days > 0 {
            day += 1;
            if day > days_in(year, month) {
                (month, day) = (month + 1, 1);
            }
            if month > 12 {
                (year, month) = (year + 1, 1);
            }
        } else {
            day -= 1;
            if day == 0 {
                month -= 1;
            }
            if month == 0 {
                (year, month) = (year - 1, 12);
            }
            if day == 0 {
                day = days_in(year, month);
            }
        }
        if year == 0 || year == 10_000 {
            reach("a result outside the years cleared");
            return Vec::new();
        }
    }
    reach(match (days, value.len()) {
        (0, _) => "a date that shift 0 leaves",
        (_, 8) => "a date moved",
        _ => "a date with digits behind it moved",
    });
    [format!("{year:04}{month:02}{day:02}").as_bytes(), &value[8..]].concat()
}

/// What an action makes of a value; nothing for keep and null.
pub fn applied(a: &Action, key: u64, value: &[u8]) -> Option<Vec<u8>> {
    let within = |n: u64| usize::try_from(n).unwrap().min(value.len());
    match a {
        Action::Keep | Action::Null => None,
        Action::Clear => Some(Vec::new()),
        Action::Replace(t) => Some(t.clone()),
        Action::Mask(m) => Some(vec![*m; value.len()]),
        Action::First(n) => Some(value[..within(*n)].to_vec()),
        Action::Last(n) => Some(value[value.len() - within(*n)..].to_vec()),
        Action::Pseudonym => Some(pseudonym(key, value)),
        Action::Shift(days) => Some(shifted(*days, value)),
    }
}

fn action_text(a: &Action) -> Vec<u8> {
    match a {
        Action::Keep => b"keep".to_vec(),
        Action::Clear => b"clear".to_vec(),
        Action::Null => b"null".to_vec(),
        Action::Replace(t) => [b"replace ", t.as_slice()].concat(),
        Action::Mask(m) => vec![b'm', b'a', b's', b'k', b' ', *m],
        Action::First(n) => format!("first {n}").into_bytes(),
        Action::Last(n) => format!("last {n}").into_bytes(),
        Action::Pseudonym => b"pseudonym".to_vec(),
        Action::Shift(days) => format!("shift {days}").into_bytes(),
    }
}

/// At some place, with no letter or digit directly before or behind.
pub fn is_whole_word(word: &[u8], text: &[u8]) -> bool {
    // behind the last hit that overlaps no earlier one
    let mut apart = 0;
    for i in 0..=text.len().saturating_sub(word.len()) {
        if !text[i..].starts_with(word) {
            continue;
        }
        let end = i + word.len();
        if (i == 0 || !text[i - 1].is_ascii_alphanumeric()) && (end == text.len() || !text[end].is_ascii_alphanumeric()) {
            if i < apart {
                reach("a hit that begins inside another hit");
            }
            return true;
        }
        if i >= apart {
            apart = end;
        }
    }
    false
}

// ---- the run

/// A leaf's place: segment, field, repetition, component, subcomponent; all but the segment from 1.
pub type Place = (usize, usize, usize, usize, usize);

pub struct Run<'a> {
    key: u64,
    sweep: bool,
    pub message: &'a mut Message,
    size: usize,
    pub named: HashSet<Place>,
    pub learnt: Vec<(Vec<u8>, Action)>,
    learnt_bytes: usize,
    pub report: Vec<u8>,
    pub rows: u64,
}

/// The indices that a path's index stands for: itself or, absent, all.
fn span(index: u64, n: usize) -> Vec<usize> {
    match index {
        0 => (1..=n).collect(),
        i if i <= n as u64 => vec![i as usize],
        _ => Vec::new(),
    }
}

impl Run<'_> {
    pub fn new(message: &mut Message, key: u64, sweep: bool) -> Run<'_> {
        let size = print_message(message).len();
        Run {
            key,
            sweep,
            message,
            size,
            named: HashSet::new(),
            learnt: Vec::new(),
            learnt_bytes: 0,
            report: Vec::new(),
            rows: 0,
        }
    }

    fn leaf(&mut self, (s, f, r, c, l): Place) -> &mut Vec<u8> {
        &mut self.message.segments[s].fields[f - 1][r - 1][c - 1][l - 1]
    }

    fn learn(&mut self, text: &[u8], action: &Action) -> Result<(), u32> {
        if !self.sweep || *action == Action::Keep || text.is_empty() || text == NULL {
            return Ok(());
        }
        let v = value(&self.message.delimiters, text).to_ascii_lowercase();
        if v.len() < 3 || self.learnt.iter().any(|(w, _)| *w == v) {
            return Ok(());
        }
        self.learnt_bytes += v.len();
        self.learnt.push((v, action.clone()));
        if self.learnt.len() > 512 || self.learnt_bytes > 16_384 { Err(10) } else { Ok(()) }
    }

    fn grown(&mut self, before: usize, after: usize) -> Result<(), u32> {
        self.size = self.size + after - before;
        if self.size > LEAST { Err(11) } else { Ok(()) }
    }

    fn row(&mut self, (s, f, r, c, l): Place, action: &Action) {
        let segment = &self.message.segments[s];
        self.report.extend(&segment.name);
        self.report.extend(format!("[{}]-{f}[{r}].{c}.{l} ", segment.occurrence).into_bytes());
        self.report.extend(action_text(action));
        self.report.push(b'\n');
        self.rows += 1;
    }

    fn act(&mut self, at: Place, action: &Action) -> Result<(), u32> {
        let d = self.message.delimiters;
        let key = self.key;
        let text = self.leaf(at).clone();
        let new = if *action == Action::Null {
            if text == NULL {
                return Ok(());
            }
            NULL.to_vec()
        } else {
            if text.is_empty() || text == NULL {
                return Ok(());
            }
            let v = value(&d, &text);
            match applied(action, key, &v) {
                Some(new) if new != v => written(&d, &new),
                _ => return Ok(()),
            }
        };
        let lengths = (text.len(), new.len());
        *self.leaf(at) = new;
        self.row(at, action);
        self.grown(lengths.0, lengths.1)
    }

    /// The leaves of a segment that may be touched.
    fn leaves(&self, s: usize) -> Vec<Place> {
        let mut all = Vec::new();
        for (f, field) in self.message.segments[s].fields.iter().enumerate() {
            if s == 0 && f < 2 {
                continue;
            }
            for (r, repetition) in field.iter().enumerate() {
                for (c, component) in repetition.iter().enumerate() {
                    all.extend((0..component.len()).map(|l| (s, f + 1, r + 1, c + 1, l + 1)));
                }
            }
        }
        all
    }

    pub fn reaches(&self, p: &Path, s: usize) -> bool {
        let segment = &self.message.segments[s];
        segment.name == p.name && (p.occurrence == 0 || p.occurrence == segment.occurrence as u64)
    }

    fn collapse(&mut self, at: Place, action: &Action, leaves: Vec<Vec<u8>>, len: usize) -> Result<(), u32> {
        for t in &leaves {
            self.learn(t, action)?;
        }
        let (s, f, r, c, _) = at;
        let null = vec![NULL.to_vec()];
        let field = &mut self.message.segments[s].fields[f - 1];
        match (r, c) {
            (0, _) => *field = vec![vec![null]],
            (_, 0) => field[r - 1] = vec![null],
            _ => field[r - 1][c - 1] = null,
        }
        self.row((s, f, r.max(1), c.max(1), 1), action);
        self.grown(len, 2)
    }

    pub fn rule(&mut self, rule: &Rule) -> Result<(), u32> {
        let (p, a) = (&rule.path, &rule.action);
        let d = self.message.delimiters;
        for s in 0..self.message.segments.len() {
            if !self.reaches(p, s) {
                continue;
            }
            for f in span(p.field, self.message.segments[s].fields.len()) {
                if s == 0 && f <= 2 {
                    continue;
                }
                let field = self.message.segments[s].fields[f - 1].clone();
                let node = *a == Action::Null && p.subcomponent == 0;
                if node && p.repetition == 0 && p.component == 0 {
                    let leaves = field.iter().flatten().flatten().cloned().collect::<Vec<_>>();
                    if leaves != [NULL] {
                        self.collapse((s, f, 0, 0, 0), a, leaves, field_text(&d, &field).len())?;
                    }
                    continue;
                }
                for r in span(p.repetition, field.len()) {
                    let repetition = &field[r - 1];
                    if node && p.component == 0 {
                        let leaves = repetition.iter().flatten().cloned().collect::<Vec<_>>();
                        if leaves != [NULL] {
                            self.collapse((s, f, r, 0, 0), a, leaves, repetition_text(&d, repetition).len())?;
                        }
                        continue;
                    }
                    for c in span(p.component, repetition.len()) {
                        let component = &repetition[c - 1];
                        if node {
                            if *component != [NULL] {
                                self.collapse((s, f, r, c, 0), a, component.clone(), component_text(&d, component).len())?;
                            }
                            continue;
                        }
                        for l in span(p.subcomponent, component.len()) {
                            self.named.insert((s, f, r, c, l));
                            self.learn(&component[l - 1], a)?;
                            self.act((s, f, r, c, l), a)?;
                        }
                    }
                }
            }
        }
        Ok(())
    }

    pub fn unnamed(&self) -> Vec<Place> {
        (0..self.message.segments.len()).flat_map(|s| self.leaves(s)).filter(|at| !self.named.contains(at)).collect()
    }

    pub fn posture(&mut self, action: &Action) -> Result<(), u32> {
        for at in self.unnamed() {
            self.act(at, action)?;
        }
        Ok(())
    }

    /// The action of the longest learnt value that is a whole word of a text's value, of equally long ones that of the last learnt.
    pub fn found(&self, text: &[u8]) -> Option<Action> {
        if text.is_empty() || text == NULL {
            return None;
        }
        let v = value(&self.message.delimiters, text).to_ascii_lowercase();
        let found: Vec<_> = self.learnt.iter().filter(|(w, _)| is_whole_word(w, &v)).collect();
        let mut best = *found.first()?;
        for k in &found[1..] {
            if k.0.len() > best.0.len() {
                reach("a longer value than one learnt before it");
            } else if k.0.len() == best.0.len() {
                reach("a value as long as one learnt before it");
            } else {
                reach("a shorter value than one learnt before it");
                continue;
            }
            best = k;
        }
        Some(best.1.clone())
    }

    pub fn swept(&mut self) -> Result<(), u32> {
        for at in self.unnamed() {
            let text = self.leaf(at).clone();
            if let Some(a) = self.found(&text) {
                self.act(at, &a)?;
            }
        }
        Ok(())
    }
}

/// Text, report and rows of a message that was read, or 10 or 11.
pub fn redact(message: &Message, policy: &Policy, key: u64) -> Result<(Vec<u8>, Vec<u8>, u64), u32> {
    let mut m = message.clone();
    let mut run = Run::new(&mut m, key, policy.sweep);
    for rule in &policy.rules {
        run.rule(rule)?;
    }
    if let Some(a) = &policy.reject {
        run.posture(a)?;
    }
    run.swept()?;
    let (report, rows) = (std::mem::take(&mut run.report), run.rows);
    Ok((print_message(&m), report, rows))
}
