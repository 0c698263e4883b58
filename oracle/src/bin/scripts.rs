//! Runs the proved program `events` and its twin on the customer's tables on random and mutated scripts, and stops at the first
//! difference: `scripts EVENTS COUNT [SEED]`. With `scripts write KIND` it writes one of the scripts of docs/SPEED.md to standard
//! output instead.

use oracle::script::events;
use std::io::{Read, Write};
use std::process::{Command, Stdio, exit};

/// A small generator of numbers, so that a seed gives the same scripts everywhere.
struct Rng(u64);

impl Rng {
    fn next(&mut self) -> u64 {
        self.0 ^= self.0 << 13;
        self.0 ^= self.0 >> 7;
        self.0 ^= self.0 << 17;
        self.0.wrapping_mul(0x2545_f491_4f6c_dd1d)
    }

    fn below(&mut self, n: u64) -> u64 {
        (self.next() >> 11) % n
    }

    fn one_in(&mut self, n: u64) -> bool {
        self.below(n) == 0
    }

    fn pick<'a, T: ?Sized>(&mut self, all: &[&'a T]) -> &'a T {
        all[self.below(all.len() as u64) as usize]
    }
}

/// A number as a field has it: mostly small, now and then at an end of its width, past it, or with leading zeros.
fn number(r: &mut Rng, small: u64, width: u32) -> String {
    let most = if width == 64 { u64::MAX } else { (1 << width) - 1 };
    let text = match r.below(40) {
        0 => most.to_string(),
        1 => (most as u128 + 1).to_string(),
        2 => (most as u128 * 10 + r.below(10) as u128).to_string(),
        3 => (r.next() & most).to_string(),
        _ => r.below(small).to_string(),
    };
    if r.one_in(30) { format!("{:0>1$}", text, r.below(70) as usize) } else { text }
}

fn id(r: &mut Rng, slots: u64) -> String {
    let epochs = if r.one_in(8) { 3 } else { 1 };
    format!("{}/{}", number(r, slots, 16), number(r, epochs, 16))
}

fn line(r: &mut Rng, slots: u64) -> String {
    let cpu = |r: &mut Rng| if r.one_in(30) { number(r, 4, 8) } else { r.below(2).to_string() };
    match r.below(24) {
        0..=3 => {
            let c = cpu(r);
            format!("admit {c}")
        }
        4..=9 => {
            let c = cpu(r);
            let k = r.pick(&["yield", "yield", "yield", "preempt", "block", "exit"]);
            format!("switch {c} {k}")
        }
        10 => format!("mark {} {}", id(r, slots), r.pick(&["yes", "yes", "no"])),
        11 => {
            let c = cpu(r);
            format!("steal {c}")
        }
        12 => format!("wake {}", id(r, slots)),
        13 => "collect".into(),
        14 => format!("irq {} {}", number(r, 10, 32), id(r, slots)),
        15 => format!("unirq {}", id(r, slots)),
        16 => format!("signal {}", number(r, 10, 32)),
        17 => format!("take {}", id(r, slots)),
        18 => format!("park {} {}", id(r, slots), number(r, 50, 64)),
        19 => format!("unpark {}", id(r, slots)),
        20 => format!("poll {}", number(r, 50, 64)),
        21 => format!("push {}", number(r, 1000, 32)),
        22 => r.pick(&["pop", "start1", "start1"]).into(),
        _ => r.pick(&["start", "pop", "collect"]).into(),
    }
}

/// A script of well-formed lines, mostly started and with a size of its own.
fn script(r: &mut Rng, most: usize) -> Vec<u8> {
    let slots = 1 + if r.one_in(3) { r.below(64) } else { r.below(8) };
    let mut out = Vec::new();
    if !r.one_in(6) {
        out.extend_from_slice(format!("new {slots}\n").as_bytes());
    }
    if !r.one_in(20) {
        out.extend_from_slice(b"start\n");
    }
    while out.len() < most {
        if r.one_in(120) {
            out.extend_from_slice(format!("new {}\nstart\n", number(r, 67, 16)).as_bytes());
        }
        out.extend_from_slice(line(r, slots + 2).as_bytes());
        out.push(b'\n');
    }
    if r.one_in(3) {
        out.pop();
    }
    out
}

/// Damages bytes, doubles, drops and joins lines.
fn mutate(r: &mut Rng, s: &mut Vec<u8>) {
    for _ in 0..1 + r.below(6) {
        if s.is_empty() {
            return;
        }
        let at = r.below(s.len() as u64) as usize;
        match r.below(8) {
            0 => s[at] = r.next() as u8,
            1 => s[at] = *r.pick(&[&b' ', &b'\n', &b'\r', &b'\t', &b'/', &0, &255, &b'0', &b'9', &b':']),
            2 => drop(s.remove(at)),
            3 => s.insert(at, r.pick(&[" ", "\n", "/", "0", "1"]).as_bytes()[0]),
            4 => s.truncate(at),
            5 => {
                let k = r.below(90) as usize;
                s.splice(at..at, std::iter::repeat_n(b'0', k));
            }
            6 => {
                let end = (at + r.below(40) as usize).min(s.len());
                let part = s[at..end].to_vec();
                s.splice(at..at, part);
            }
            _ => {
                let end = (at + r.below(40) as usize).min(s.len());
                s.drain(at..end);
            }
        }
    }
}

fn any(r: &mut Rng) -> Vec<u8> {
    let most = match r.below(50) {
        0 => 65000 + r.below(700) as usize,
        1..=5 => 4000,
        _ => 40 + r.below(600) as usize,
    };
    let mut s = match r.below(20) {
        0 => (0..r.below(400)).map(|_| r.next() as u8).collect(),
        1 => (0..r.below(400)).map(|_| *r.pick(&[&b' ', &b'\n', &b's', &b't', &b'a', &b'r', &b'1', &b'/'])).collect(),
        _ => script(r, most),
    };
    if r.one_in(2) {
        mutate(r, &mut s);
    }
    s
}

/// A script of 65,536 bytes at most, the same each time: `even` has each command as often as any other, `busy` has mostly
/// switches and admissions, as the random scripts have.
fn sample(kind: &str) -> Vec<u8> {
    let mut r = Rng(20261115);
    let mut out = b"start\nstart1\n".to_vec();
    while out.len() < 65536 - 90 {
        let line = match kind {
            "even" => even(&mut r),
            "busy" => line(&mut r, 40),
            _ => {
                eprintln!("scripts write even|busy");
                exit(2);
            }
        };
        out.extend_from_slice(line.as_bytes());
        out.push(b'\n');
    }
    out
}

/// Any of the commands but `new`, with fields that can be read.
fn even(r: &mut Rng) -> String {
    let cpu = r.below(2);
    let id = format!("{}/{}", r.below(40), r.below(2));
    match r.below(17) {
        0 => "start".into(),
        1 => "start1".into(),
        2 => format!("admit {cpu}"),
        3 => format!("switch {cpu} {}", r.pick(&["yield", "preempt", "block", "exit"])),
        4 => format!("mark {id} {}", r.pick(&["yes", "no"])),
        5 => format!("steal {cpu}"),
        6 => format!("wake {id}"),
        7 => "collect".into(),
        8 => format!("irq {} {id}", r.below(10)),
        9 => format!("unirq {id}"),
        10 => format!("signal {}", r.below(10)),
        11 => format!("take {id}"),
        12 => format!("park {id} {}", r.below(1000)),
        13 => format!("unpark {id}"),
        14 => format!("poll {}", r.below(1000)),
        15 => format!("push {}", r.below(1 << 32)),
        _ => "pop".into(),
    }
}

fn run(program: &str, input: &[u8]) -> Vec<u8> {
    let mut child = Command::new(program).stdin(Stdio::piped()).stdout(Stdio::piped()).spawn().expect("the program runs");
    let mut stdin = child.stdin.take().unwrap();
    let mut stdout = child.stdout.take().unwrap();
    let mut out = Vec::new();
    std::thread::scope(|s| {
        // the program may stop reading before the end of an input that is too long
        s.spawn(move || drop(stdin.write_all(input)));
        stdout.read_to_end(&mut out).expect("its output is read");
    });
    assert!(child.wait().expect("it ends").success(), "the program fails");
    out
}

fn main() {
    let args: Vec<String> = std::env::args().skip(1).collect();
    if let [w, kind] = &args[..]
        && w == "write"
    {
        std::io::stdout().write_all(&sample(kind)).unwrap();
        return;
    }
    let [program, count, rest @ ..] = &args[..] else {
        eprintln!("scripts EVENTS COUNT [SEED]");
        exit(2);
    };
    let count: u64 = count.parse().expect("a count");
    let mut r = Rng(rest.first().map_or(1, |s| s.parse().expect("a seed")) | 1);
    let (mut lines, mut bytes) = (0u64, 0u64);
    for k in 0..count {
        let input = any(&mut r);
        let want = events(&input);
        let got = run(program, &input);
        if got != want {
            std::fs::write("script.differs", &input).unwrap();
            let at = got.iter().zip(&want).position(|(a, b)| a != b).unwrap_or(got.len().min(want.len()));
            println!("script {k} differs at byte {at} of the output; it is in script.differs");
            exit(1);
        }
        lines += want.iter().filter(|&&b| b == b'\n').count() as u64 - 1;
        bytes += input.len() as u64;
    }
    println!("{count} scripts, {bytes} bytes, {lines} lines of answers: no difference");
}
