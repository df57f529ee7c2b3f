//! The port's entries for C, and calls of them in buffers that hold garbage and lie between guards.
use std::ffi::c_uchar;
use std::ptr;

unsafe extern "C" {
    pub fn er7_redact(
        message: *const c_uchar, message_size: usize, policy: *const c_uchar, policy_size: usize, key: u64,
        output: *mut c_uchar, output_size: usize, report: *mut c_uchar, report_size: usize,
        scratch: *mut c_uchar, scratch_size: usize,
        text_len: *mut u64, report_len: *mut u64, rows: *mut u64, line: *mut u64,
    ) -> u32;
    pub fn er7_print(
        policy: *const c_uchar, policy_size: usize, output: *mut c_uchar, output_size: usize,
        scratch: *mut c_uchar, scratch_size: usize, text_len: *mut u64, line: *mut u64,
    ) -> u32;
    pub fn er7_append(
        first: *const c_uchar, first_size: usize, second: *const c_uchar, second_size: usize,
        output: *mut c_uchar, output_size: usize, scratch: *mut c_uchar, scratch_size: usize,
        text_len: *mut u64, line: *mut u64,
    ) -> u32;
    pub fn er7_builtin(
        number: u64, output: *mut c_uchar, output_size: usize, scratch: *mut c_uchar, scratch_size: usize,
        text_len: *mut u64, line: *mut u64,
    ) -> u32;
    pub fn er7_payload(
        payload: *const c_uchar, payload_size: usize, policy: *const c_uchar, policy_size: usize, key: u64,
        output: *mut c_uchar, output_size: usize, scratch: *mut c_uchar, scratch_size: usize,
        text_len: *mut u64, line: *mut u64,
    ) -> u32;
}

/// An entry with what it reads.
#[derive(Clone, Debug)]
pub enum Entry {
    Redact { message: Vec<u8>, policy: Vec<u8>, key: u64 },
    Print { policy: Vec<u8> },
    Append { first: Vec<u8>, second: Vec<u8> },
    Builtin { number: u64 },
    Payload { payload: Vec<u8>, policy: Vec<u8>, key: u64 },
}

/// What a call comes to.
#[derive(Clone, Debug, PartialEq, Default)]
pub struct Outcome {
    pub number: u32,
    pub line: u64,
    pub text: Vec<u8>,
    pub report: Vec<u8>,
    pub rows: u64,
}

impl Outcome {
    pub fn refused(number: u32, line: u64) -> Outcome {
        Outcome { number, line, ..Outcome::default() }
    }
}

const GUARD: usize = 64;
const ROOM: usize = 1 << 17;

/// A buffer to lend from, and the garbage that fills it.
pub struct Buffer {
    bytes: Vec<u8>,
    start: usize,
    len: usize,
    from: usize,
}

impl Buffer {
    pub fn new() -> Buffer {
        Buffer { bytes: vec![0; ROOM], start: GUARD, len: 0, from: 0 }
    }

    /// Lends `len` bytes, at any alignment, with garbage in and around them.
    fn lend(&mut self, garbage: &[u8], len: usize, seed: u64) -> *mut u8 {
        assert!(len + 2 * GUARD + 16 <= ROOM);
        self.start = GUARD + (seed % 16) as usize;
        self.len = len;
        self.from = (seed >> 8) as usize % 4096;
        let end = self.start + len + GUARD;
        self.bytes[..end].copy_from_slice(&garbage[self.from..self.from + end]);
        if len == 0 && seed & 16 == 0 { ptr::null_mut() } else { self.bytes[self.start..].as_mut_ptr() }
    }

    /// What is wrong if `text` stands at the front, zeros behind it, and the guards were left.
    fn wrong(&self, garbage: &[u8], what: &str, text: &[u8]) -> Option<String> {
        let end = self.start + self.len;
        let lent = &self.bytes[self.start..end];
        if text.len() > lent.len() {
            return Some(format!("{what}: {} bytes expected in {}", text.len(), lent.len()));
        }
        if let Some(i) = (0..text.len()).find(|&i| lent[i] != text[i]) {
            let near = &lent[i.saturating_sub(20)..(i + 40).min(lent.len())];
            return Some(format!("{what}: byte {i} differs, near \"{}\"", near.escape_ascii()));
        }
        if let Some(i) = lent[text.len()..].iter().position(|b| *b != 0) {
            return Some(format!("{what}: byte {} behind the text is not zero", text.len() + i));
        }
        let same = |a: usize, b: usize| self.bytes[a..b] == garbage[self.from + a..self.from + b];
        (!same(0, self.start) || !same(end, end + GUARD)).then(|| format!("{what}: written outside"))
    }
}

pub struct Caller {
    pub output: Buffer,
    pub report: Buffer,
    pub scratch: Buffer,
    garbage: Vec<u8>,
}

/// The lengths of the buffers lent.
#[derive(Clone, Copy, Debug)]
pub struct Lengths {
    pub output: usize,
    pub report: usize,
    pub scratch: usize,
}

fn slice(t: &[u8], seed: u64) -> (*const u8, usize) {
    if t.is_empty() && seed & 1 == 0 { (ptr::null(), 0) } else { (t.as_ptr(), t.len()) }
}

impl Caller {
    pub fn new() -> Caller {
        let mut x: u64 = 88172645463325252;
        let mut garbage = Vec::new();
        while garbage.len() < 2 * ROOM {
            x ^= x << 13;
            x ^= x >> 7;
            x ^= x << 17;
            garbage.push((x >> 32) as u8 | 1);
        }
        Caller { output: Buffer::new(), report: Buffer::new(), scratch: Buffer::new(), garbage }
    }

    /// Calls the port, and says what differs from what was expected.
    pub fn differs(&mut self, entry: &Entry, lengths: Lengths, seed: u64, expected: &Outcome) -> Option<String> {
        let out = self.output.lend(&self.garbage, lengths.output, seed);
        let scratch = self.scratch.lend(&self.garbage, lengths.scratch, seed >> 5);
        let (o, s) = (lengths.output, lengths.scratch);
        let has_report = matches!(entry, Entry::Redact { .. });
        let (mut text_len, mut report_len, mut rows, mut line) = (!seed, !seed, !seed, !seed);
        let number = unsafe {
            match entry {
                Entry::Redact { message, policy, key } => {
                    let report = self.report.lend(&self.garbage, lengths.report, seed >> 10);
                    let (m, p) = (slice(message, seed), slice(policy, seed >> 1));
                    er7_redact(
                        m.0, m.1, p.0, p.1, *key, out, o, report, lengths.report, scratch, s,
                        &mut text_len, &mut report_len, &mut rows, &mut line,
                    )
                }
                Entry::Print { policy } => {
                    let p = slice(policy, seed);
                    er7_print(p.0, p.1, out, o, scratch, s, &mut text_len, &mut line)
                }
                Entry::Append { first, second } => {
                    let (a, b) = (slice(first, seed), slice(second, seed >> 1));
                    er7_append(a.0, a.1, b.0, b.1, out, o, scratch, s, &mut text_len, &mut line)
                }
                Entry::Builtin { number } => er7_builtin(*number, out, o, scratch, s, &mut text_len, &mut line),
                Entry::Payload { payload, policy, key } => {
                    let (a, p) = (slice(payload, seed), slice(policy, seed >> 1));
                    er7_payload(a.0, a.1, p.0, p.1, *key, out, o, scratch, s, &mut text_len, &mut line)
                }
            }
        };
        if !has_report {
            (report_len, rows) = (0, 0);
        }
        let e = expected;
        let mut found = Vec::new();
        let mut say = |what: &str, is: u64, should: u64| {
            if is != should {
                found.push(format!("{what} {is}, expected {should}"));
            }
        };
        say("number", number.into(), e.number.into());
        say("line", line, e.line);
        say("text length", text_len, e.text.len() as u64);
        say("report length", report_len, e.report.len() as u64);
        say("rows", rows, e.rows);
        found.extend(self.output.wrong(&self.garbage, "output", &e.text));
        found.extend(self.scratch.wrong(&self.garbage, "scratch", b""));
        if has_report {
            found.extend(self.report.wrong(&self.garbage, "report", &e.report));
        }
        (!found.is_empty()).then(|| found.join("; "))
    }

    /// What a call of redact hands back up to its lengths.
    pub fn redacted(&mut self, message: &[u8], policy: &[u8], key: u64, seed: u64) -> Outcome {
        let out = self.output.lend(&self.garbage, 49_152, seed);
        let report = self.report.lend(&self.garbage, 65_536, seed >> 5);
        let scratch = self.scratch.lend(&self.garbage, 49_152, seed >> 10);
        let (mut t, mut r, mut rows, mut line) = (0, 0, 0, 0);
        let number = unsafe {
            er7_redact(
                message.as_ptr(), message.len(), policy.as_ptr(), policy.len(), key, out, 49_152, report, 65_536, scratch, 49_152,
                &mut t, &mut r, &mut rows, &mut line,
            )
        };
        let taken = |b: &Buffer, n: u64| b.bytes[b.start..b.start + n as usize].to_vec();
        Outcome { number, line, text: taken(&self.output, t), report: taken(&self.report, r), rows }
    }
}
