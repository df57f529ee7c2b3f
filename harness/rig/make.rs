//! Inputs: all short ones around delimiters, escapes and nulls, and seeded random ones.
use crate::gateway::Entry;
use er7_redact::Policy;

/// splitmix64
pub struct Random(pub u64);

impl Random {
    pub fn next(&mut self) -> u64 {
        self.0 = self.0.wrapping_add(0x9e3779b97f4a7c15);
        let mut z = self.0;
        z = (z ^ (z >> 30)).wrapping_mul(0xbf58476d1ce4e5b9);
        z = (z ^ (z >> 27)).wrapping_mul(0x94d049bb133111eb);
        z ^ (z >> 31)
    }

    /// From 0 to n - 1.
    pub fn below(&mut self, n: usize) -> usize {
        (self.next() % n as u64) as usize
    }

    pub fn from(&mut self, low: usize, high: usize) -> usize {
        low + self.below(high - low + 1)
    }

    pub fn chance(&mut self, percent: usize) -> bool {
        self.below(100) < percent
    }

    pub fn pick<'a, T: ?Sized>(&mut self, all: &[&'a T]) -> &'a T {
        all[self.below(all.len())]
    }
}

// ---- all short inputs

/// All texts of up to n tokens.
pub fn all_of(tokens: &[&str], n: usize) -> Vec<String> {
    let mut all = vec![String::new()];
    let mut from = 0;
    for _ in 0..n {
        let end = all.len();
        for i in from..end {
            for t in tokens {
                all.push(format!("{}{t}", all[i]));
            }
        }
        from = end;
    }
    all
}

fn redact(message: &str, policy: &str) -> Entry {
    Entry::Redact { message: message.into(), policy: policy.into(), key: 7 }
}

pub fn short_inputs(mut call: impl FnMut(Entry)) {
    let policies = [
        "PID mask",
        "PID-1 null\nreject clear",
        "PID-1.1 null\nPID-2 keep\nreject null",
        "PID-1[1] null\nPID keep",
        "PID-1.1.1 null\nreject null",
        "reject pseudonym",
        "PID-1 first 1\nPID-2 last 1\nPID-1.2 clear",
        "PID replace |a\\",
        "PID-1 clear\nPID-2 null\nreject mask \"",
        "PID-1[2].1 null\nPID-1.2 mask &",
    ];
    for body in all_of(&["|", "^", "~", "\\", "&", "\"", "F", "a"], 4) {
        for p in policies {
            call(redact(&format!("MSH|^~\\&|A\rPID|{body}"), p));
        }
    }
    for (i, leaf) in all_of(&["\\", "F", "E", "\"", "a"], 6).iter().enumerate() {
        let p = ["PID-1 mask", "PID-1 first 1\nreject mask", "PID-1 replace \\E\\\nOBX-1 last 2", "PID null"][i % 4];
        call(redact(&format!("MSH|^~\\&\rPID|{leaf}\rOBX|{leaf}|x {leaf}"), p));
    }
    for (i, word) in all_of(&["a-a", "A", "-", "b", " "], 5).iter().enumerate() {
        let p = ["PID-1 mask", "PID clear", "PID-1 null", "PID-1.1.1 null\nPID-1 keep"][i % 4];
        call(redact(&format!("MSH|^~\\&|{word}\rPID|a-a\rOBX|1||{word}"), p));
    }
    for frame in all_of(&["\r", "|", "PID", "PI", "MSH", "FHS", "x", "\n", "\t", "BTS", "^"], 4) {
        call(redact(&format!("MSH|^~\\&{frame}"), "PID mask\nreject clear"));
    }
    let good = b"MSH|^~\\&|A|b c\rPID|1||4412^x&\"\"~\\F\\\rOBX|1|NM|KCAL||4412 kcal\r";
    for end in 0..=good.len() {
        call(Entry::Redact { message: good[..end].to_vec(), policy: b"PID-3 mask".to_vec(), key: 0 });
    }
    for at in 0..good.len() {
        for byte in 0..=255 {
            let mut message = good.to_vec();
            message[at] = byte;
            call(Entry::Redact { message, policy: b"PID-3 mask\nreject first 1".to_vec(), key: 0 });
        }
    }
    for path in all_of(&["PID", "-", "5", ".", "0", "[", "]", "1", " ", "*", "\t", "#"], 4) {
        call(Entry::Print { policy: format!("{path} clear").into() });
    }
    let actions = [
        "mask", "first", "last", "replace", "keep", "null", "clear", "pseudonym", "MASK", " ", "+", "4", "0", "-", "|", "*", "#", "\t",
        "18446744073709551615", "6", "refuse", "pass",
    ];
    for action in all_of(&actions, 3) {
        call(Entry::Print { policy: format!("PID-1 {action}").into() });
        call(Entry::Print { policy: format!("\nreject {action}\n").into() });
        call(Entry::Payload { payload: b"4412 kcal".to_vec(), policy: format!("unrecognised {action}").into(), key: 1 });
    }
    let directives = [
        "accept", "reject", "unrecognised", "unrecognized", "known-values", "on", "off", "refuse", "pass", " ", "keep", "null", "*", "\n",
        "\r\n", "\r", "#", "Accept", "PID clear",
    ];
    for policy in all_of(&directives, 3) {
        call(Entry::Append { first: policy.clone().into(), second: b"reject clear\nunrecognised pass".to_vec() });
        call(Entry::Append { first: b"reject clear\nOBX-5[2] mask\nknown-values off".to_vec(), second: policy.into() });
    }
    for number in (0..=20).chain([255, 256, 1 << 32, (1 << 32) + 2, u64::MAX, u64::MAX - 1]) {
        call(Entry::Builtin { number });
    }
    let good = b"unrecognised mask\r\nPID[2]-3[1].4.1 replace a  b # c\nreject first +4\nknown-values off";
    for at in 0..good.len() {
        for byte in 0..=255 {
            let mut policy = good.to_vec();
            policy[at] = byte;
            call(Entry::Print { policy: policy.clone() });
            call(Entry::Payload { payload: vec![b'a', byte, b'b'], policy, key: 2 });
        }
    }
    let learning = [
        "PID-1 mask\nPID-2 clear\nPID-3 first 2\nPID-4 last 9",
        "PID-4 mask\nPID-3 clear\nPID-2 first 2\nPID-1 last 9",
        "PID-3 first 9\nPID-1 clear\nPID-2 null\nPID mask",
        "PID-2 mask\nPID-4 replace ann\nPID-1 clear\nPID-3 null",
    ];
    for (i, leaf) in all_of(&["ann", "lee", " ", "-", "x"], 5).iter().enumerate() {
        call(redact(&format!("MSH|^~\\&\rPID|Ann|Lee|ann lee|lee-ann\rOBX|{leaf}"), learning[i % 4]));
    }
    for policy in all_of(&directives, 2) {
        call(redact("", &policy));
    }
    let counts = ["shift", "SHIFT", " ", "\t", "+", "-", "0", "1", "3650", "3651", "x", "00000000000000000000000000000"];
    for count in all_of(&counts, 3) {
        call(Entry::Print { policy: format!("PID-1 shift {count}").into() });
        call(Entry::Print { policy: format!("PID-0 SHIFT{count}").into() });
        call(Entry::Print { policy: format!("\nreject shift {count}\n").into() });
        call(Entry::Payload { payload: b"20240229".to_vec(), policy: format!("unrecognised Shift {count}").into(), key: 1 });
    }
    let shifts = [
        "PID shift 1\nreject shift -1",
        "PID-1 shift -366\nPID-2 shift 3650\nPID-3 shift -3650",
        "PID shift 0\nOBX-1 shift 400\nOBX-1 shift -400\nknown-values off",
    ];
    let parts = ["2024", "1900", "0001", "9999", "0000", "01", "02", "04", "12", "13", "28", "29", "30", "31", "00", "x", "1200"];
    for (i, date) in all_of(&parts, 3).iter().enumerate() {
        for p in shifts {
            call(redact(&format!("MSH|^~\\&\rPID|{date}|{date}1200|{date}235960\rOBX|{date}|{date} x"), p));
        }
        let policy = ["unrecognised shift 1", "unrecognised shift -1", "unrecognised shift 0"][i % 3].into();
        call(Entry::Payload { payload: date.clone().into(), policy, key: 1 });
    }
}

// ---- random inputs

const WORDS: [&str; 40] = [
    "Smith", "SMITH", "smith", "Jones", "4412", "kcal", "a-a", "xa-a-a", "ab", "abc", "", "\"\"", "\\F\\", "a\\T\\b", "\\.br\\F\\", "\\",
    "\\E\\", "x\\S", "0", "Z\tq", "  ", "\"", "REDACTED", "***", "****", "redacted", "\\\\", "\\R\\\\S\\", "Mc\\E\\F", "19610615", "x", "\"\"\"",
    "a\"\"b", "-", "1961", "#", "'", "Smith Jones", "kcal/min", "\\f\\",
];

const NAMES: [&str; 8] = ["PID", "OBX", "OBX", "NK1", "PV1", "Z01", "IN1", "GT1"];

/// A date, often with digits behind it, at the ends of the years, or what is nearly a date.
pub fn date(r: &mut Random) -> String {
    let text = match r.below(10) {
        0 | 1 => r.pick(&["00010101", "99991231", "19610615", "19610615", "20000229", "20240229", "19000228"]).into(),
        2 => r.pick(&["00000101", "19000229", "20230229", "20240431", "2024010", "202401011", "2024-1-1", "20240101+"]).into(),
        3 => format!("{:04}{:02}{:02}", r.below(10_000), r.below(14), r.below(33)),
        4 | 5 => format!("{}{:02}{:02}", r.pick(&["0001", "0005", "9995", "9999"]), r.from(1, 12), r.from(1, 28)),
        _ => format!("{:04}{:02}{:02}", r.from(1890, 2110), r.from(1, 12), r.from(1, 28)),
    };
    match r.below(8) {
        0 | 1 => format!("{text}{:04}", r.below(10_000)),
        2 | 3 => format!("{text}{:06}", r.below(1_000_000)),
        4 if r.chance(50) => text + r.pick(&["1", "12", "120", "12000", "1200000", "120x", " 1200", "1200+0100"]),
        _ => text,
    }
}

/// Text that stands in a leaf, its escapes those of the delimiters d.
pub fn leaf(r: &mut Random, d: &[u8; 5]) -> Vec<u8> {
    let mut text = Vec::new();
    match r.below(12) {
        0 | 1 => {}
        2 => {
            for _ in 0..r.from(1, 12) {
                text.push(r.from(0x20, 0x7e) as u8);
            }
        }
        3 | 4 => {
            let between = r.pick(&[" ", "-", "", ",", "a", "\t"]);
            let n = r.from(2, 4);
            text = (0..n).map(|_| r.pick(&WORDS)).collect::<Vec<_>>().join(between).into_bytes();
        }
        5 | 6 => text = date(r).into_bytes(),
        _ => text = r.pick(&WORDS).as_bytes().to_vec(),
    }
    if r.chance(15) {
        for b in &mut text {
            if r.chance(50) {
                *b = if b.is_ascii_lowercase() { b.to_ascii_uppercase() } else { b.to_ascii_lowercase() };
            }
        }
    }
    for b in &mut text {
        if *b == b'\\' {
            *b = d[3];
        } else if d.contains(b) && *b != d[3] {
            *b = b'q';
        }
    }
    text
}

fn delimiters(r: &mut Random) -> [u8; 5] {
    let mut d = *b"|^~\\&";
    if r.chance(20) {
        let all: Vec<u8> = (0x21..0x7f).filter(|b: &u8| !b.is_ascii_alphanumeric() && *b != b'"').collect();
        let mut i = 0;
        while i < 5 {
            d[i] = all[r.below(all.len())];
            if !d[..i].contains(&d[i]) {
                i += 1;
            }
        }
    }
    d
}

fn pieces(r: &mut Random, most: usize) -> usize {
    if r.chance(75) { 1 } else { r.from(1, most) }
}

fn field(r: &mut Random, d: &[u8; 5]) -> Vec<u8> {
    let mut text = Vec::new();
    for i in 0..pieces(r, 3) {
        if i > 0 {
            text.push(d[2]);
        }
        for j in 0..pieces(r, 4) {
            if j > 0 {
                text.push(d[1]);
            }
            for k in 0..pieces(r, 3) {
                if k > 0 {
                    text.push(d[4]);
                }
                text.extend(leaf(r, d));
            }
        }
    }
    text
}

pub fn message(r: &mut Random, segments: usize, fields: usize) -> Vec<u8> {
    let d = delimiters(r);
    let mut text = b"MSH".to_vec();
    text.extend(d);
    for _ in 0..r.below(fields + 1) {
        text.push(d[0]);
        text.extend(field(r, &d));
    }
    for _ in 0..r.below(segments + 1) {
        text.push(b'\r');
        text.extend(r.pick(&NAMES).as_bytes());
        for _ in 0..r.below(fields + 1) {
            text.push(d[0]);
            text.extend(field(r, &d));
        }
    }
    if r.chance(60) {
        text.push(b'\r');
    }
    text
}

fn small(r: &mut Random) -> String {
    match r.below(12) {
        0 => format!("0{}", r.from(1, 4)),
        1 if r.chance(10) => r.pick(&["0", "18446744073709551616", "00"]).to_string(),
        1 => r.pick(&["18446744073709551615", "9", "10"]).to_string(),
        _ => r.from(1, 3).to_string(),
    }
}

pub fn path(r: &mut Random) -> String {
    let mut p = if r.chance(90) { r.pick(&NAMES) } else { r.pick(&["MSH", "MSH", "pid", "X", "OBX1", "FHS"]) }.to_string();
    if r.chance(20) {
        p += &format!("[{}]", small(r));
    }
    if r.chance(15) {
        return p;
    }
    p += r.pick(&["-", "-", "-", "."]);
    p += &small(r);
    if r.chance(20) {
        p += &format!("[{}]", small(r));
    }
    if r.chance(35) {
        p += &format!(".{}", small(r));
        if r.chance(50) {
            p += &format!(".{}", small(r));
        }
    }
    p
}

fn argument(r: &mut Random) -> String {
    let word = r.pick(&WORDS);
    match r.below(4) {
        0 => format!("{word} {}", r.pick(&WORDS)),
        1 => r.pick(&["|", "a|b^c", "&&", "~", "\\E\\", "\"\"", "12345678901234567890", "x"]).to_string(),
        _ => word.to_string(),
    }
}

/// A day count, now and then a bad one.
fn days(r: &mut Random) -> String {
    let sign = r.pick(&["", "", "-", "-", "+"]);
    match r.below(24) {
        0 => r.pick(&["", "+", "-", "--1", "- 1", "+-1", "1 2", "1x", "0x1", "3651", "-3651", "4294967297", "18446744073709551617"]).into(),
        1..=3 => format!("{sign}{}", r.pick(&["0", "00"])),
        4 | 5 => format!("{sign}{}", r.pick(&["3650", "003650", "3649"])),
        6..=9 => format!("{sign}{:05}", r.from(1, 3_650)),
        10..=15 => format!("{sign}{}", r.from(1, 40)),
        _ => format!("{sign}{}", r.from(1, 3_650)),
    }
}

pub fn action(r: &mut Random) -> String {
    let text = match r.below(18) {
        0 => "keep".into(),
        1 | 2 => "clear".into(),
        3 | 4 => "null".into(),
        5 => "replace".into(),
        6 | 7 => format!("replace {}", argument(r)),
        8 => "mask".into(),
        9 => format!("mask {}", r.pick(&["x", "\"", "|", "^", "\\", "&", "*", "~", "1"])),
        10 | 11 => format!("first {}", r.pick(&["0", "1", "2", "3", "4", "+4", "007", "18446744073709551615"])),
        12 | 13 => format!("last {}", r.pick(&["0", "1", "2", "3", "4", "+4", "007", "18446744073709551615"])),
        14 | 15 => format!("shift{}{}", r.pick(&[" ", " ", " ", "\t", "  "]), days(r)),
        _ => "pseudonym".into(),
    };
    if r.chance(5) { text.to_ascii_uppercase() } else { text }
}

fn line(r: &mut Random) -> String {
    let blank = r.pick(&[" ", " ", " ", "\t", "  ", " \t "]);
    let mut text = match r.below(14) {
        0 => format!("reject{blank}{}", action(r)),
        1 => r.pick(&["accept", "reject", "Reject", "ACCEPT", ""]).to_string(),
        2 => {
            let shift = format!("shift {}", days(r));
            let what = r.pick(&["pass", "refuse", "mask", "pseudonym", "first 3", &shift]);
            format!("{}{blank}{what}", r.pick(&["unrecognised", "unrecognized"]))
        }
        3 => format!("known-values{blank}{}", r.pick(&["on", "off", "ON", "Off"])),
        4 if r.chance(10) => r.pick(&["*", "* keep", "accept x", "known-values", "unrecognised", "pass x", "PID-1", "PID-0 mask"]).to_string(),
        _ => format!("{}{blank}{}", path(r), action(r)),
    };
    if r.chance(8) {
        text = format!("{}{text}{}", r.pick(&[" ", "\t", "  "]), r.pick(&["", " ", "\t"]));
    }
    if r.chance(8) {
        text += r.pick(&["#", " # PID-1 mask", "  #x"]);
    }
    text
}

pub fn policy(r: &mut Random, lines: usize) -> Vec<u8> {
    let mut text = String::new();
    for _ in 0..r.below(lines + 1) {
        text += &line(r);
        text += r.pick(&["\n", "\n", "\n", "\r\n"]);
    }
    if r.chance(20) {
        text += &line(r);
    }
    text.into()
}

/// Inserts, drops or changes some bytes.
pub fn damage(r: &mut Random, text: &mut Vec<u8>) {
    for _ in 0..r.from(1, 3) {
        let at = r.below(text.len() + 1);
        let byte = match r.below(6) {
            0 => r.below(256) as u8,
            1 => *r.pick(&[&b'\r', &b'\n', &0, &0x7f, &0x80, &b'\t']),
            2 => *r.pick(&[&b'|', &b'^', &b'~', &b'\\', &b'&', &b'"']),
            3 => *r.pick(&[&b' ', &b'#', &b'*', &b'[', &b']', &b'-', &b'.', &b'0']),
            _ => r.from(0x20, 0x7e) as u8,
        };
        match r.below(5) {
            0 => text.insert(at, byte),
            1 if at < text.len() => drop(text.remove(at)),
            2 if at < text.len() => {
                let end = (at + r.from(1, 8)).min(text.len());
                text.drain(at..end);
            }
            3 => {
                let end = (at + r.from(1, 8)).min(text.len());
                let copy = text[at..end].to_vec();
                let to = r.below(text.len() + 1);
                text.splice(to..to, copy);
            }
            _ if at < text.len() => text[at] = byte,
            _ => text.push(byte),
        }
    }
}

/// n fields, or other pieces, each a number behind a piece of text.
fn many(n: usize, by: &str, text: impl Fn(usize) -> String) -> String {
    (0..n).map(text).collect::<Vec<_>>().join(by)
}

/// Inputs at each limit.
fn at_limit(r: &mut Random) -> Entry {
    let key = r.next();
    let near = |r: &mut Random, n: usize| r.from(n - 3, n + 3);
    let of = |message: String, policy: String| Entry::Redact { message: message.into(), policy: policy.into(), key };
    match r.below(16) {
        // the message's length
        0 => {
            let front = "MSH|^~\\&|A\rPID|1||4412|";
            let n = near(r, 32_768);
            let mut message = format!("{front}{}", "x".repeat(n - front.len()));
            if r.chance(20) {
                message.replace_range(n - 1.., "\r");
            }
            of(message, format!("PID-{} {}", r.from(1, 4), action(r)))
        }
        // segments
        1 => {
            let mut lines: Vec<String> = (0..near(r, 256) - 1).map(|i| format!("OBX|{i}|v{}", i % 7)).collect();
            for _ in 0..r.below(3) {
                let i = if r.chance(70) { lines.len() - 1 - r.below(4) } else { r.below(lines.len()) };
                lines[i] = r.pick(&["", "obx|1", "MSH|x", "BHS", "OBX1", "NTE", "OBX", "FTS|1"]).to_string();
            }
            let end = r.pick(&["", "\r", "\r\r"]);
            of(format!("MSH|^~\\&|A\r{}{end}", lines.join("\r")), format!("OBX[{}]-2 mask\nreject first 1", r.from(1, 260)))
        }
        // leaves, spread over several segments
        2 => {
            let total = near(r, 4_096) - 3;
            let (by, n) = (r.pick(&["|", "^", "&", "~"]), r.from(1, total - 1));
            let text = |i: usize| if i % 3 == 0 { String::new() } else { (i % 10).to_string() };
            let more = r.pick(&["", "\rpid", "\rPID", "\rMSH|", "\r"]);
            let message = format!("MSH|^~\\&|A\rPID|{}\rOBX|{}{more}", many(n, by, text), many(total - n, "|", text));
            of(message, format!("{}\nPID-1 {}\nreject {}", path(r), action(r), action(r)))
        }
        // all of them in the header
        3 => {
            let total = near(r, 4_096) - 2;
            let more = r.pick(&["", "\rpid", "\rPID", "\rMSH|"]);
            of(format!("MSH|^~\\&|{}{more}", many(total, r.pick(&["|", "^", "&", "~"]), |i| (i % 10).to_string())), "MSH-3 null".into())
        }
        // rules
        4 | 5 => {
            let (total, fault) = (near(r, 128), r.chance(30));
            let mut lines: Vec<String> = (0..total).map(|i| format!("PID-{} clear", i + 1)).collect();
            for _ in 0..r.below(3) {
                let at = if r.chance(60) { lines.len() - r.below(4) } else { r.below(lines.len() + 1) };
                let bad = ["PID-0 clear", "PID-1 masked", "accept x", "PID-0 x", "*"];
                let fine = ["# rule", "", "reject mask", "known-values off"];
                lines.insert(at, if fault { r.pick(&bad) } else { r.pick(&fine) }.into());
            }
            if r.chance(40) {
                return Entry::Print { policy: lines.join("\n").into() };
            }
            if r.chance(40) {
                return of("MSH|^~\\&|A\rPID|1|2|3".into(), lines.join("\n"));
            }
            let at = r.below(lines.len() + 1);
            Entry::Append { first: lines[..at].join("\n").into(), second: lines[at..].join("\r\n").into() }
        }
        // a line, a word, a rest
        6 | 7 => {
            let (word, rest, line) = (near(r, 64), near(r, 80), near(r, 255));
            let text = match r.below(8) {
                0 => format!("{}{:<blank$}#{}", path(r), " ", "c".repeat(line - 40), blank = r.from(1, 20)),
                1 => format!("# {}", "c".repeat(line - 2)),
                2 => format!("{:<line$}", "PID-1 mask"),
                3 => format!("{} mask", "P".repeat(word)),
                4 => format!("PID-{:0>width$}1 {}", "", action(r), width = word - 5),
                5 => format!("PID-1 replace {}", "r".repeat(rest - 8)),
                6 => format!("PID-1 shift {}{:0>width$}", r.pick(&["0", "+", "-"]), r.pick(&["7", "3650", "3651", "x"]), width = rest - 7),
                _ => format!("{} {}", r.pick(&["accept", "unrecognised", "known-values", "*", "PID-0", "reject"]), "r".repeat(rest)),
            };
            let policy = format!("PID-2 mask\n{text}{}{}", r.pick(&["", "\n", "\r\n"]), r.pick(&["", "PID-0 clear"]));
            Entry::Print { policy: policy.into() }
        }
        // learnt values
        8 | 9 => {
            let n = near(r, 512);
            let same = r.below(4);
            let text = |i: usize| format!("v{:04}", if i < same { 0 } else { i });
            let mut message = format!("MSH|^~\\&|A\rPID|{}", many(n, r.pick(&["|", "^", "~", "&"]), text));
            message += &format!("\rOBX|v{:04}|V0003 x|{}", r.below(n), r.pick(&WORDS.map(|w| if w.contains('\\') { "y" } else { w })));
            let rule = r.pick(&["PID mask", "PID clear", "PID null", "PID-1 null", "PID pseudonym", "PID replace new", "PID first 2", "PID keep\nPID mask"]);
            of(message, format!("{rule}\nOBX-3 mask\nknown-values {}", r.pick(&["on", "on", "off"])))
        }
        // bytes of learnt values: all of one length but the first
        10 => {
            let long = [32, 33, 64, 100, 500][r.below(5)];
            let (total, n) = (near(r, 16_384), 16_380 / long);
            let text = |i: usize| format!("{i:0>width$}", width = if i == 0 { total - (n - 1) * long } else { long });
            of(format!("MSH|^~\\&|A\rPID|{}\rOBX|1|7", many(n, "|", text)), format!("PID {}\n{}", action(r), line(r)))
        }
        // the message's size after a change
        11 | 12 => {
            let new = r.from(20, 70);
            let by = r.pick(&["x", "|", "\\", "&"]);
            let each = if by == "x" { new } else { 3 * new };
            let n = 30_000 / each;
            let fields = many(n, "|", |_| "a".into());
            let front = format!("MSH|^~\\&|A\rOBX|{fields}\rPID|");
            let grown = front.len() + n * (each - 1);
            let pad = (near(r, 49_152)).saturating_sub(grown).min(32_768 - front.len());
            let rest = r.pick(&["", "OBX clear", "OBX-1 pseudonym", "PID-1 null", "reject replace abcdefghi"]);
            of(format!("{front}{}", "z".repeat(pad)), format!("OBX replace {}\n{rest}", by.repeat(new)))
        }
        // a payload's length
        13 => {
            let n = near(r, 32_768);
            let payload: Vec<u8> = (0..n).map(|i| b'0' + (i % 10) as u8).collect();
            let what = r.pick(&["pass", "mask", "refuse", "last 5", "pseudonym", "shift 1"]);
            Entry::Payload { payload, policy: format!("unrecognised {what}").into(), key }
        }
        // a policy's length
        14 => {
            let n = near(r, 32_768);
            let mut policy = b"PID-1 mask\n".to_vec();
            while policy.len() < n {
                policy.push(if policy.len() % 200 == 0 { b'\n' } else { b' ' });
            }
            if r.chance(30) {
                *policy.last_mut().unwrap() = 0x80;
            }
            if r.chance(50) { Entry::Print { policy } } else { Entry::Append { first: b"PID-0 mask".to_vec(), second: policy } }
        }
        // many leaves under many rules
        _ => {
            let n = r.from(50, 900);
            let message = format!("MSH|^~\\&|A\rPID|{}\rOBX|{}", many(n, "|", |i| format!("v{}", i % 90)), many(n, "^", |i| format!("w {}", i % 50)));
            of(message, (0..r.from(1, 40)).map(|_| format!("{} {}\n", path(r), action(r))).collect())
        }
    }
}

/// A built-in policy's text.
fn builtin(r: &mut Random) -> Vec<u8> {
    let policy = match r.below(5) {
        0 => Policy::accept_all(),
        1 => Policy::reject_all(),
        2 => Policy::all_but_the_header(),
        _ => Policy::patient_identifiers(),
    };
    policy.to_string().into()
}

pub fn random_input(r: &mut Random) -> Entry {
    let key = match r.below(4) {
        0 => 0,
        1 => u64::MAX,
        _ => r.next(),
    };
    let limits = r.below(100);
    if limits < 6 {
        return at_limit(r);
    }
    if limits == 6 {
        let number = match r.below(3) {
            0 => r.next(),
            _ => r.below(6) as u64,
        };
        return Entry::Builtin { number };
    }
    if limits == 7 {
        let mut policy = if r.chance(20) { builtin(r) } else { policy(r, 7) };
        if r.chance(20) {
            damage(r, &mut policy);
        }
        return Entry::Redact { message: Vec::new(), policy, key };
    }
    let kind = r.below(100);
    let mut policy_text = policy(r, if kind < 62 { 7 } else { 9 });
    if kind < 62 {
        let mut message = if r.chance(10) { message(r, 25, 9) } else { message(r, 6, 4) };
        if r.chance(8) {
            policy_text = builtin(r);
        }
        if kind < 14 {
            damage(r, &mut message);
        } else if kind < 20 {
            damage(r, &mut policy_text);
        }
        return Entry::Redact { message, policy: policy_text, key };
    }
    if r.chance(25) {
        damage(r, &mut policy_text);
    }
    match kind {
        62..=74 => Entry::Print { policy: policy_text },
        75..=86 => {
            let second = if r.chance(15) { builtin(r) } else { policy(r, 9) };
            let first = if r.chance(15) { builtin(r) } else { policy_text };
            Entry::Append { first, second }
        }
        _ => {
            let dated = r.chance(30);
            let mut payload = if dated { date(r).into() } else { message(r, 2, 4) };
            if r.chance(50) {
                damage(r, &mut payload);
            }
            if r.chance(70) {
                policy_text.extend(b"\nunrecognised ");
                let what = if dated && r.chance(50) { format!("shift {}", days(r)) } else { action(r) };
                policy_text.extend(what.as_bytes());
            }
            Entry::Payload { payload, policy: policy_text, key }
        }
    }
}
