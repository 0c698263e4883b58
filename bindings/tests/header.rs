//! The header says what `src/sys.rs` says, and both say what Rattle exports: every prototype, operand for operand; and the header has
//! every number that has a name here. The texts are read here, so that no side can leave one out.
use bredumalt::{Kind, Refusal, State, Verdict, answer, lifecycle};
use std::collections::BTreeMap;
use std::fmt::Debug;

const HEADER: &str = include_str!("../include/bredumalt.h");
const RUST: &str = include_str!("../src/sys.rs");
const RATTLE: [&str; 7] = [
    include_str!("../../crates/bredumalt/src/deadlines.rt"),
    include_str!("../../crates/bredumalt/src/ring.rt"),
    include_str!("../../crates/bredumalt/src/small.rt"),
    include_str!("../../crates/bredumalt/src/tasks.rt"),
    include_str!("../../crates/bredumalt/src/tells.rt"),
    include_str!("../../crates/bredumalt/src/waits.rt"),
    include_str!("../../crates/bredumalt/src/wakes.rt"),
];

/// What a function takes, as C writes it, and what it gives, by its name.
type Prototypes = BTreeMap<String, (Vec<String>, String)>;

/// TaskId is bredumalt_task_id, and so on.
fn c_type(rust: &str) -> String {
    match rust {
        "u8" | "u16" | "u32" | "u64" => format!("uint{}_t", &rust[1..]),
        "usize" => "size_t".to_string(),
        _ => format!("bredumalt_{}", snake(rust)),
    }
}

/// CpuOff is cpu_off.
fn snake(name: &str) -> String {
    let mut snake = String::new();
    for c in name.chars() {
        if c.is_uppercase() && !snake.is_empty() {
            snake.push('_');
        }
        snake.push(c.to_ascii_lowercase());
    }
    snake
}

/// One space between words, none elsewhere.
fn plain(text: &str) -> String {
    text.split_whitespace().collect::<Vec<_>>().join(" ")
}

/// An operand of Rust or Rattle. A pointer to an array is one to its first element; a slice is a pointer and a length. That an operand
/// is changed inside (`mut`) is nothing to a caller.
fn c_operands(operand: &str) -> Vec<String> {
    let (name, kind) = operand.split_once(": ").expect("an operand has a type");
    let name = name.strip_prefix("mut ").unwrap_or(name);
    let element = |array: &str| c_type(array.trim_start_matches('[').split([';', ']']).next().unwrap());
    if let Some(pointed) = kind.strip_prefix("&mut [").filter(|pointed| !pointed.contains(';')) {
        return vec![format!("{} *{name}", element(pointed)), "size_t len".to_string()];
    }
    vec![if let Some(pointed) = kind.strip_prefix("&mut ").or(kind.strip_prefix("*mut ")) {
        format!("{} *{name}", element(pointed))
    } else if let Some(pointed) = kind.strip_prefix('&') {
        format!("const {} *{name}", element(pointed))
    } else {
        format!("{} {name}", c_type(kind))
    }]
}

/// The functions that a text of Rust or Rattle declares behind these words.
fn declared(text: &str, words: &[&str]) -> Prototypes {
    let mut found = Prototypes::new();
    for words in words {
        for rest in text.split(words).skip(1) {
            let (name, rest) = rest.split_once('(').expect("operands");
            let (operands, rest) = rest.split_once(") -> ").expect("an answer");
            let answer = rest.split([';', '\n']).next().unwrap().trim_end_matches(" {");
            let operands = plain(&operands.replace("'a ", ""));
            let each = operands.split(", ").map(|operand| operand.trim_end_matches(',')).filter(|operand| !operand.is_empty());
            let name = name.trim_end_matches("<'a>").to_string();
            assert!(found.insert(name.clone(), (each.flat_map(c_operands).collect(), c_type(answer))).is_none(), "{name} is there twice");
        }
    }
    found
}

/// The header without comments, which may break lines in it, and without what is for C++ alone.
fn code_of_header() -> String {
    let mut code = String::new();
    for (i, piece) in HEADER.split("/*").enumerate() {
        code += if i == 0 { piece } else { piece.split_once("*/").expect("a comment ends").1 };
    }
    let mut skips = false;
    let kept = code.lines().filter(|line| {
        skips = if *line == "#ifdef __cplusplus" { true } else { skips && *line != "#else" && *line != "#endif" };
        !skips
    });
    kept.collect::<Vec<_>>().join("\n")
}

/// The header's statements that stand in no braces: prototypes and typedefs. The inline functions are left out with their bodies.
fn statements() -> Vec<String> {
    let code: String = code_of_header().lines().filter(|line| !line.starts_with('#')).map(|line| format!("{line}\n")).collect();
    let (mut all, mut now, mut depth) = (Vec::new(), String::new(), 0);
    for c in code.chars() {
        match c {
            '{' => depth += 1,
            '}' => {
                depth -= 1;
                if depth == 0 && now.contains('(') {
                    now.clear();
                }
            }
            ';' if depth == 0 => all.push(plain(&std::mem::take(&mut now))),
            _ if depth == 0 => now.push(c),
            _ => {}
        }
    }
    assert_eq!(depth, 0);
    all
}

fn prototypes_of_header() -> Prototypes {
    let mut found = Prototypes::new();
    for statement in statements() {
        let Some((front, operands)) = statement.split_once('(') else { continue };
        let (answer, name) = front.rsplit_once(' ').expect("an answer and a name");
        let answer = answer.trim_start_matches("BREDUMALT_MUST_USE ").to_string();
        let each = operands.trim_end_matches(')').split(", ").filter(|operand| *operand != "void");
        // `uint8_t states[64]` is `uint8_t *states`
        let pointer = |operand: &str| match operand.split_once('[') {
            Some((front, _)) => front.rsplit_once(' ').map(|(kind, name)| format!("{kind} *{name}")).expect("a name"),
            None => operand.to_string(),
        };
        found.insert(name.to_string(), (each.map(pointer).collect(), answer));
    }
    found
}

#[test]
fn prototypes_are_the_same() {
    let rust = declared(RUST, &["pub safe fn ", "pub unsafe fn "]);
    let rattle: Prototypes = RATTLE.iter().flat_map(|text| declared(text, &["pub extern \"C\" fn "])).collect();
    let header = prototypes_of_header();
    for (name, of_rust) in &rust {
        assert_eq!(Some(of_rust), rattle.get(name), "{name}, in Rust and in Rattle");
        assert_eq!(Some(of_rust), header.get(name), "{name}, in Rust and in the header");
    }
    assert_eq!((rust.len(), rattle.len(), header.len()), (57, 57, 57));
}

/// What an enum calls its cases, as the header has it.
fn names<T: Debug>(group: &str, from_number: fn(u8) -> Option<T>) -> Vec<(String, u8)> {
    let each = (0..=255).filter_map(|number| from_number(number).map(|name| (format!("{name:?}"), number)));
    each.map(|(name, number)| (format!("BREDUMALT_{group}_{}", snake(&name).to_uppercase()), number)).collect()
}

/// `NAME = number` of enums, and `#define NAME BREDUMALT_KIND(number)`.
fn numbers_of_header() -> BTreeMap<String, u8> {
    let code = code_of_header();
    let bodies = code.split("enum {").skip(1).map(|rest| rest.split_once('}').expect("an enum ends").0);
    let entries = bodies.flat_map(|body| body.split(',')).map(str::trim).filter(|entry| !entry.is_empty());
    let enums = entries.map(|entry| {
        let (name, value) = entry.split_once(" = ").expect("every number is written out");
        (name.to_string(), value.parse().expect("a numeral"))
    });
    let kinds = code.lines().filter_map(|line| {
        let (name, value) = line.strip_prefix("#define ")?.split_once(" BREDUMALT_KIND(")?;
        Some((name.to_string(), value.trim_end_matches(')').parse().ok()?))
    });
    enums.chain(kinds).collect()
}

#[test]
fn numbers_are_the_same() {
    let mut rust: BTreeMap<String, u8> = BTreeMap::new();
    rust.extend(names("KIND", Kind::from_number));
    rust.extend(names("STATE", State::from_number));
    rust.extend(names("REFUSAL", Refusal::from_number));
    rust.extend(names("VERDICT", Verdict::from_number));
    for (name, number) in [
        ("STATE_UNKNOWN", lifecycle::UNKNOWN),
        // what is a Result here is one number in C
        ("REFUSAL_NONE", 0),
        ("VERDICT_BAD_FLAG", Refusal::BadLine.number()),
        ("ANSWER_DONE", answer::DONE),
        ("ANSWER_TOLD", answer::TOLD),
        ("ANSWER_NUMBER", answer::NUMBER),
        ("ANSWER_NAMED", answer::NAMED),
        ("ANSWER_VALUE", answer::VALUE),
        ("ANSWER_STAY", answer::STAY),
        ("ANSWER_SWITCH", answer::SWITCH),
    ] {
        rust.insert(format!("BREDUMALT_{name}"), number);
    }
    assert_eq!(numbers_of_header(), rust);
    // 4 kinds of switch, 5 states, 14 refusals, 10 verdicts, 7 kinds of answer.
    assert_eq!(rust.len(), 40);
}
