//! Times the port, the Rust and the floor on the same inputs. The work: read policy and message, redact, print text and report; the
//! port's clearing of its buffers is part of it.
#![allow(dead_code)]
mod gateway;
mod reader;

use er7::RenderOptions;
use er7_redact::{Policy, Redactor};
use gateway::er7_redact as port_redact;
use std::hint::black_box;
use std::time::{Duration, Instant};

unsafe extern "C" {
    fn er7_floor(
        message: *const u8, size: usize, output: *mut u8, output_size: usize, report: *mut u8, report_size: usize, scratch: *mut u8,
        scratch_size: usize,
    ) -> u32;
}

const KEY: u64 = 7;

struct Buffers {
    output: Vec<u8>,
    report: Vec<u8>,
    scratch: Vec<u8>,
}

impl Buffers {
    fn port(&mut self, message: &[u8], policy: &[u8]) -> (u32, u64, u64, u64) {
        let (mut text, mut report, mut rows, mut line) = (0, 0, 0, 0);
        let number = unsafe {
            port_redact(
                message.as_ptr(), message.len(), policy.as_ptr(), policy.len(), KEY, self.output.as_mut_ptr(), self.output.len(),
                self.report.as_mut_ptr(), self.report.len(), self.scratch.as_mut_ptr(), self.scratch.len(),
                &mut text, &mut report, &mut rows, &mut line,
            )
        };
        (number, text, report, rows)
    }

    fn floor(&mut self, message: &[u8]) -> u32 {
        unsafe {
            er7_floor(
                message.as_ptr(), message.len(), self.output.as_mut_ptr(), self.output.len(), self.report.as_mut_ptr(), self.report.len(),
                self.scratch.as_mut_ptr(), self.scratch.len(),
            )
        }
    }
}

fn rust(message: &[u8], policy: &[u8]) -> (String, String, usize) {
    let policy = Policy::parse(std::str::from_utf8(policy).unwrap()).unwrap();
    let (mut tree, trailing_terminator) = reader::read(message).unwrap();
    let report = Redactor::new(policy).with_key(KEY).redact(&mut tree);
    let options = RenderOptions { trailing_terminator, ..RenderOptions::default() };
    (tree.to_er7_with(options), report.to_string(), report.len())
}

/// How often a call fits into 30 milliseconds.
fn often(call: &mut dyn FnMut()) -> u32 {
    let start = Instant::now();
    let mut n = 0;
    while start.elapsed() < Duration::from_millis(30) {
        call();
        n += 1;
    }
    n
}

/// Microseconds for one call of each, by turns: the least of nine rounds, since other work on the machine only ever adds.
fn times(calls: [&mut dyn FnMut(); 3]) -> [f64; 3] {
    let mut calls = calls.map(|call| (call, 0, f64::MAX));
    for (call, n, _) in &mut calls {
        *n = often(call);
    }
    for _ in 0..9 {
        for (call, n, least) in &mut calls {
            let start = Instant::now();
            for _ in 0..*n {
                call();
            }
            *least = least.min(start.elapsed().as_secs_f64() * 1e6 / f64::from(*n));
        }
    }
    calls.map(|(_, _, least)| least)
}

/// How many logs a second that many threads redact, each with buffers of its own: the most of nine rounds.
fn a_second(threads: u32, message: &[u8], policy: &[u8]) -> f64 {
    let mut buffers: Vec<Buffers> =
        (0..threads).map(|_| Buffers { output: vec![1; 49_152], report: vec![1; 65_536], scratch: vec![1; 49_152] }).collect();
    let n = often(&mut || {
        black_box(buffers[0].port(black_box(message), black_box(policy)));
    });
    let mut most: f64 = 0.0;
    for _ in 0..9 {
        let start = Instant::now();
        std::thread::scope(|scope| {
            for own in &mut buffers {
                scope.spawn(move || {
                    for _ in 0..10 * n {
                        black_box(own.port(black_box(message), black_box(policy)));
                    }
                });
            }
        });
        most = most.max(f64::from(10 * n * threads) / start.elapsed().as_secs_f64());
    }
    most
}

struct Times {
    rust: f64,
    port: f64,
    floor: f64,
    rows: u64,
}

fn measure(buffers: &mut Buffers, message: &[u8], policy: &[u8]) -> Times {
    let (text, report, count) = rust(message, policy);
    let (number, t, r, rows) = buffers.port(message, policy);
    assert_eq!(number, 0, "refused");
    assert_eq!((text.as_bytes(), report.as_bytes(), count as u64), (&buffers.output[..t as usize], &buffers.report[..r as usize], rows));
    let mut other = Buffers { output: vec![1; 49_152], report: vec![1; 65_536], scratch: vec![1; 49_152] };
    let [rust, port, floor] = times([
        &mut || {
            black_box(rust(black_box(message), black_box(policy)));
        },
        &mut || {
            black_box(buffers.port(black_box(message), black_box(policy)));
        },
        &mut || {
            black_box(other.floor(black_box(message)));
        },
    ]);
    Times { rust, port, floor, rows }
}

// ---- inputs

const HEAD: &str = "MSH|^~\\&|TREADMILL|GYM|LOG|CLUB|20260815120000||ORU^R01|MSG00001|P|2.5\r\
    PID|1||4412^^^CLUB^MR||EVERYWOMAN^EVE^E||19610615|F|||12 HIGH STREET^^LEEDS||555-1111~555-2222|||||99887766\r";

const KINDS: [&str; 5] = ["HR^Heart rate^L", "KCAL^Energy^L", "DIST^Distance^L", "STEP^Steps^L", "NOTE^Note^L"];

/// A log with n results.
fn log(n: usize) -> String {
    let mut text = HEAD.to_string();
    for i in 1..=n {
        let value = if i % 5 == 0 { format!("member 4412 \\T\\ coach, set {i}") } else { (60 + i * 7 % 120).to_string() };
        text += &format!("OBX|{i}|NM|{}||{value}|/min^per minute^L|50-180||||F|||2026081512{:02}00\r", KINDS[i % 5], i % 60);
    }
    text
}

const GYM: &str = "PID-3.1 pseudonym\nPID-5 replace MEMBER\nPID-7 first 4\nPID-11 clear\nPID-13 null\nknown-values on\n";

/// 40 rules on OBX.
fn forty() -> String {
    let mut text = String::new();
    for i in 0..40 {
        let action = ["keep", "first 40", "mask", "last 2"][i / 10];
        text += &match i / 10 {
            0 | 1 => format!("OBX-{} {action}\n", i % 10 + 1),
            2 => format!("OBX[{}]-5 {action}\n", i + 1),
            _ => format!("OBX-3.{} {action}\n", i % 10 + 1),
        };
    }
    text
}

/// 4,096 leaves under 128 rules.
fn many_leaves() -> (String, String) {
    let mut text = "MSH|^~\\&".to_string();
    for i in 0..30 {
        text += &format!("|{i}");
    }
    for s in 0..127 {
        text += "\rOBX";
        for f in 0..32 {
            let n = s * 32 + f;
            text += &if n % 2 == 0 { format!("|{}", n % 100) } else { format!("|kcal{}", n % 300) };
        }
    }
    let mut policy = String::new();
    for i in 0..128 {
        let f = i % 32 + 1;
        policy += &match i / 32 {
            0 => format!("OBX-{f} keep\n"),
            1 => format!("OBX-{f} first 4\n"),
            2 => format!("OBX-{f} last 9\n"),
            _ => format!("OBX[{f}]-{f} mask\n"),
        };
    }
    (text, policy)
}

/// A sweep with 512 learnt values over 100 results.
fn swept() -> (String, String) {
    let mut text = "MSH|^~\\&|A\rZ01".to_string();
    for i in 0..512 {
        text += &format!("|member{i:03}");
    }
    text.push('\r');
    text += &log(100)[HEAD.len()..];
    (text.replace("member 4412", "member400"), "Z01 mask\nknown-values on\n".into())
}

/// A learnt value of so many bytes, a unit over and over with an x at its end, and a leaf that nearly repeats it from every place on.
fn nearly(value: usize, leaf: usize, unit: &str) -> (String, String) {
    let repeated = |n: usize| unit.repeat(n / unit.len() + 1)[..n].to_string();
    let mut word = repeated(value);
    word.replace_range(value - 1..value, "x");
    (format!("MSH|^~\\&|A\rZ01|{word}\rOBX|1|{}", repeated(leaf)), "Z01 mask\nknown-values on\n".into())
}

/// 512 learnt values of so many bytes that differ at their end, and a leaf that nearly repeats each from every place on.
fn nearly_all(value: usize, leaf: usize) -> (String, String) {
    let mut text = "MSH|^~\\&|A\rZ01".to_string();
    for i in 0..512 {
        text += &format!("|{}{i:03x}", "-".repeat(value - 3));
    }
    text += &format!("\rOBX|{}", "-".repeat(leaf));
    (text, "Z01 mask\nknown-values on\n".into())
}

/// A log with about so many kilobytes: results, and behind 200 of them, which have nearly 4,096 leaves, notes.
fn log_of(kilobytes: usize) -> String {
    let most = kilobytes * 1024;
    let mut n = 1;
    while log(n + 1).len() <= most && n < 200 {
        n += 1;
    }
    let mut message = log(n);
    while most - message.len() > 8 {
        let room = (most - message.len() - 5).min(400);
        message += &format!("NTE|{}\r", "slow set, ".repeat(40)[..room].trim_end());
    }
    message
}

fn print_line(name: &str, message: &str, t: &Times, bar: &str) {
    println!(
        "{name:46}{:>7}{:>7}{:>11.1}{:>11.1}{:>8.2}{bar:>6}{:>10.2}{:>12.1}",
        message.len(), t.rows, t.rust, t.port, t.port / t.rust, t.floor, t.port / t.floor
    );
}

fn main() {
    let mut buffers = Buffers { output: vec![1; 49_152], report: vec![1; 65_536], scratch: vec![1; 49_152] };
    let builtin = |p: Policy| p.to_string();
    let (many, reaching) = many_leaves();
    let (swept, sweeping) = swept();
    let cases = [
        ("a  4 OBX, six-line gym policy", log(4), GYM.to_string(), 0.30),
        ("b  100 OBX, built-in 2", log(100), builtin(Policy::patient_identifiers()), 0.10),
        ("c  100 OBX, built-in 1", log(100), builtin(Policy::reject_all()), 0.18),
        ("d  100 OBX, 40 rules on OBX", log(100), forty(), 0.12),
        ("e  4,096 leaves, 128 rules", many, reaching, 0.20),
        ("f  sweep with 512 learnt values", swept, sweeping, 0.06),
    ];
    println!("{:46}{:>7}{:>7}{:>11}{:>11}{:>8}{:>6}{:>10}{:>12}", "microseconds per call", "bytes", "rows", "Rust", "port", "ratio", "bar", "floor", "port/floor");
    let mut met = 0;
    for (name, message, policy, bar) in &cases {
        let t = measure(&mut buffers, message.as_bytes(), policy.as_bytes());
        print_line(name, message, &t, &bar.to_string());
        met += u32::from(t.port <= bar * t.rust);
    }
    println!("bars: {met} of {} met", cases.len());
    for (name, message, policy, _) in &cases[..2] {
        let [one, two] = [1, 2].map(|threads| a_second(threads, message.as_bytes(), policy.as_bytes()));
        println!("{name}: {one:.0} logs a second on one thread, {two:.0} on two");
    }
    println!();
    let slow = [
        ("a word of 16,000 letters, and as many", nearly(16_000, 16_000, "a")),
        ("a word of 16,000 dashes, and as many", nearly(16_000, 16_000, "-")),
        ("a word of 10,800 letters, and twice as many", nearly(10_800, 21_600, "a")),
        ("a word of 10,800 dashes, and twice as many", nearly(10_800, 21_600, "-")),
        ("a word of a-a-.., 10,800, and twice as many", nearly(10_800, 21_600, "a-")),
        ("512 words of 32 bytes, 15,800 dashes", nearly_all(32, 15_800)),
        ("512 words of 15 bytes, 24,000 dashes", nearly_all(15, 24_000)),
        ("512 words of 7 bytes, 28,600 dashes", nearly_all(7, 28_600)),
    ];
    for (name, (message, policy)) in &slow {
        let t = measure(&mut buffers, message.as_bytes(), policy.as_bytes());
        print_line(name, message, &t, "");
    }
    for (name, policy) in [("gym policy", GYM.to_string()), ("built-in 2", builtin(Policy::patient_identifiers())), ("reject clear", "reject clear\n".to_string())] {
        println!();
        let mut ends = Vec::new();
        for kilobytes in [1, 2, 4, 8, 16, 32] {
            let message = log_of(kilobytes);
            let t = measure(&mut buffers, message.as_bytes(), policy.as_bytes());
            print_line(&format!("{kilobytes} KB, {name}"), &message, &t, "");
            ends.push(t.port);
        }
        println!("from 1 KB to 32 KB the time grows {:.1}-fold", ends[5] / ends[0]);
    }
}
