//! The lines about the script program. The scripts are read out of the program's own source, so that both run the same bytes;
//! what answers them here is document 01's program, written again over the customer's tables.

use crate::Line;
use crate::table::{bytes, calls};
use oracle::script::events;

const SCRIPTS: &str = include_str!("../../../../crates/script_cases/src/lib.rt");

/// The bytes that a byte string's text stands for. A backslash at the end of a line takes the space before the next one away.
fn unescaped(text: &str) -> Vec<u8> {
    let mut out = Vec::new();
    let mut rest = text.bytes().peekable();
    while let Some(b) = rest.next() {
        if b != b'\\' {
            out.push(b);
            continue;
        }
        out.push(match rest.next() {
            Some(b'n') => b'\n',
            Some(b'r') => b'\r',
            Some(b't') => b'\t',
            Some(b'x') => {
                let digits = [rest.next().unwrap(), rest.next().unwrap()];
                u8::from_str_radix(std::str::from_utf8(&digits).unwrap(), 16).unwrap()
            }
            Some(b'\n') => {
                while rest.next_if(u8::is_ascii_whitespace).is_some() {}
                continue;
            }
            other => panic!("an escape {other:?}"),
        });
    }
    out
}

/// The name, then each line of the output after a bar.
fn line(name: &str, input: &[u8]) -> Line {
    let mut l = format!("script {name}");
    for said in String::from_utf8(events(input)).unwrap().lines() {
        l.push_str(" | ");
        l.push_str(said);
    }
    l
}

/// A name, a colon and a script.
fn named(text: &[u8]) -> Line {
    let colon = text.iter().position(|&b| b == b':').expect("a name before each script");
    line(std::str::from_utf8(&text[..colon]).unwrap(), &text[colon + 1..])
}

/// Three lines of thousands of bytes and `pop`, cut to n bytes.
fn long(n: usize) -> Line {
    let mut input = vec![b'7'; 65537];
    input[20000] = b'\n';
    input[40000] = b'\n';
    input[65532..65536].copy_from_slice(b"\npop");
    line(&format!("{n} bytes"), &input[..n])
}

pub fn lines() -> Vec<Line> {
    let mut all = Vec::new();
    for (_, args) in calls(SCRIPTS, "scripts") {
        let text = unescaped(bytes(&args[0]));
        let text = text.strip_suffix(b"~").expect("a tilde after each script");
        all.extend(text.split(|&b| b == b'~').map(named));
    }
    assert!(all.len() > 35, "the scripts of the program are not where this program looks for them");
    all.extend([65535, 65536, 65537].map(long));
    all
}
