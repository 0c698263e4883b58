//! The lines about the task table and lifecycle. The scripts are read out of the program's own source, so that both run the
//! same calls; what answers them here is the customer's Rust behind document 01's refusals.

use crate::{Line, made, maybe, said, unsound, word};
use oracle::for_size;
use oracle::guarded::{Guarded, KINDS, Refusal};
use oracle::lifecycle;
use oracle::plain::{Plain, READY, RUNNING, listed};
use oracle::runqueue::TaskId;
use oracle::tasks::{Decision, State};

const TABLE: &str = include_str!("../../../../crates/table_cases/src/table.rt");
const DAMAGE: &str = include_str!("../../../../crates/table_cases/src/damage.rt");

/// The arguments of each call of a function in a source file, in order, without `rt`, the handle of what is written.
pub fn calls(source: &str, name: &str) -> Vec<(usize, Vec<String>)> {
    let mut found = Vec::new();
    for (at, _) in source.match_indices(&format!(" {name}(")) {
        if source[..at].ends_with("fn") {
            continue;
        }
        let rest = &source[at + name.len() + 2..];
        let mut args = vec![String::new()];
        let mut quoted = false;
        for c in rest.chars() {
            match c {
                '"' => quoted = !quoted,
                ',' if !quoted => args.push(String::new()),
                ')' if !quoted => break,
                c if quoted || !c.is_whitespace() => args.last_mut().unwrap().push(c),
                _ => {}
            }
        }
        args.retain(|a| !a.is_empty() && a != "rt");
        found.push((at, args));
    }
    found
}

/// A byte string's text.
pub fn bytes(arg: &str) -> &str {
    arg.strip_prefix('b').unwrap()
}

/// The customer's table behind document 01's refusals, on which a script runs.
#[derive(Default)]
struct Scripted<const N: usize> {
    table: Guarded<N>,
    /// whether a refusal that the Rust does not have showed, or D1
    ours: bool,
}

fn state(s: State) -> &'static str {
    match s {
        State::Empty => "Empty",
        State::Ready => "Ready",
        State::Running => "Running",
        State::Blocked => "Blocked",
    }
}

fn opt(o: Option<impl std::fmt::Display>) -> String {
    o.map_or("-".into(), |x| x.to_string())
}

fn decided(d: Decision) -> String {
    match d {
        Decision::Stay => "stay".into(),
        Decision::Switch { from, to, release } => format!("{} {} {}", maybe(Some(from)), maybe(Some(to)), maybe(release)),
    }
}

impl<const N: usize> Scripted<N> {
    fn answer(&mut self, op: u8, a: u8, b: u8, c: u8) -> Result<String, Refusal> {
        let id = TaskId::new(a as u16, b as u16);
        let kind = |k: u8| KINDS[k.min(3) as usize];
        let g = &mut self.table;
        Ok(match op {
            b's' => {
                g.start()?;
                "ok".into()
            }
            b'S' => maybe(g.change()?.start_cpu1()),
            b'a' => maybe(g.change()?.admit_on(a)),
            b'A' => maybe(g.change()?.admit()),
            b'x' => decided(g.switch_on(a, kind(b))?),
            b'w' => decided(g.change()?.switch(kind(a))),
            b'm' => g.change()?.set_stealeable(id, c == 1).to_string(),
            b't' => g.change()?.try_steal_into(a).to_string(),
            b'k' => g.change()?.wake(id).to_string(),
            b'c' => maybe(g.change()?.collect()),
            b'C' => maybe(Some(g.of_cpu(a)?.current_on(a))),
            b'u' => maybe(Some(g.tasks.current())),
            b'i' => maybe(Some(g.of_cpu(a)?.idle_of(a))),
            b'r' => g.of_cpu(a)?.has_ready_on(a).to_string(),
            b'v' => g.tasks.has_ready().to_string(),
            b'1' => g.tasks.cpu1_started().to_string(),
            b'j' => g.tasks.can_steal_into(a).to_string(),
            b'l' => maybe(g.tasks.live_id(a as usize)),
            b'T' => opt(g.tasks.state(id).map(state)),
            b'h' => opt(g.tasks.home_of(id)),
            b'e' => g.tasks.is_stealeable(id).to_string(),
            b'o' => g.tasks.overwrites().to_string(),
            b'B' => g.tasks.blocked_count().to_string(),
            b'E' => g.tasks.block_events().to_string(),
            b'n' => g.tasks.live_count().to_string(),
            b'P' => g.tasks.peak_slots().to_string(),
            b'q' => {
                let q: Vec<String> = g.tasks.queue(a as usize).into_iter().map(|t| maybe(Some(t))).collect();
                if q.is_empty() { "[ ]".into() } else { format!("[ {} ]", q.join(" ")) }
            }
            b'M' => {
                self.ours |= g.shows_d1();
                g.marks_but_d1().map(|b| b.to_string()).join(" ")
            }
            _ => panic!("no call {op}"),
        })
    }

    fn call(&mut self, op: u8, a: u8, b: u8, c: u8) -> String {
        let answer = self.answer(op, a, b, c);
        self.ours |= answer.is_err();
        said(answer, |a| a)
    }

    fn run(&mut self, l: &mut Line, script: &str) {
        for op in script.as_bytes().chunks_exact(4) {
            let d: Vec<u8> = op[1..].iter().map(|b| b.saturating_sub(48)).collect();
            word(l, self.call(op[0], d[0], d[1], d[2]));
        }
    }
}

fn line_of<const N: usize>(name: &str, script: &str) -> Line {
    let mut l = Line::from(name);
    let mut t = Scripted::<N>::default();
    t.run(&mut l, script);
    assert_eq!(name.starts_with("ours"), t.ours, "{name}: a line is ours just when a refusal or D1 shows in it");
    l
}

/// The rows of a table of scripts: a name, how many slots, the script.
fn rows(source: &str, table: &str) -> Vec<(String, usize, String)> {
    let from = &source[source.find(&format!("const {table}:")).expect("a table of scripts")..];
    let rows: Vec<&str> = from[..from.find("\n];").unwrap()].lines().filter(|l| !l.trim_start().starts_with("//")).collect();
    let rows = rows.join(" ");
    let parts: Vec<&str> = rows.split('"').skip(1).collect();
    let slots = |between: &str| between.trim_matches(|c: char| !c.is_ascii_digit()).parse().unwrap();
    parts.chunks(4).map(|row| (row[0].into(), slots(row[1]), row[2].into())).collect()
}

fn scripts() -> Vec<Line> {
    let mut all = rows(TABLE, "RULES");
    all.extend(rows(TABLE, "REFUSALS"));
    assert!(all.len() > 20, "the scripts of the program are not where this program looks for them");
    all.iter().map(|(name, n, script)| for_size!(*n, N => line_of::<N>(name, script))).collect()
}

/// The n-th script that a function of the program runs by itself, behind the name of its line.
fn own_script(source: &str, function: &str, n: usize) -> String {
    let from = source.find(&format!("fn {function}(")).unwrap();
    source[from..].split('"').nth(2 * n + 3).unwrap().into()
}

/// Beside 2 we hand back a table of one slot.
fn sizes() -> Line {
    let mut l = Line::from("ours table sizes");
    for n in [0usize, 1, 64, 65, usize::MAX] {
        made(&mut l, listed(n));
        word(&mut l, if listed(n) { n } else { 1 });
    }
    l
}

/// Each call on each CPU number begins from the same table.
fn cpus() -> Line {
    let script = own_script(TABLE, "cpus", 0);
    let mut l = Line::from("ours table cpus");
    Scripted::<8>::default().run(&mut l, &script);
    let asked = [(b'C', "!5"), (b'i', "!5"), (b'r', "!5"), (b'a', "-"), (b'x', "stay")];
    for (op, answer) in asked {
        let same = (0..=255u8).filter(|&c| {
            let mut t = Scripted::<8>::default();
            t.run(&mut Line::new(), &script);
            t.call(op, c, 3, 0) == answer
        });
        word(&mut l, same.count());
    }
    l
}

fn epochs() -> Line {
    let mut l = Line::from("table epochs");
    let mut t = Scripted::<2>::default();
    t.run(&mut l, &own_script(TABLE, "epochs", 0));
    for _ in 0..65534 {
        t.run(&mut Line::new(), "A000w000w300c000");
    }
    t.run(&mut l, &own_script(TABLE, "epochs", 1));
    l
}

/// The table that the damaged ones are made from, by hand from document 01's rules.
fn busy() -> Plain {
    let mut t = Plain::fresh(8);
    t.states[..6].copy_from_slice(&[RUNNING, RUNNING, 3, READY, READY, 0]);
    t.epochs[5] = 1;
    t.homes[..6].copy_from_slice(&[0, 1, 0, 0, 1, 0]);
    (t.heads, t.lens) = ([4, 0], [1, 1]);
    t.ring[4] = (3, 0);
    t.ring[64] = (4, 0);
    t.currents = [(0, 0), (1, 0)];
    t.idles = [(0, 0), (1, 0)];
    (t.parked, t.parked_id) = (1, (5, 0));
    (t.block_events, t.peak) = (1, 6);
    assert!(t.sound());
    t
}

/// A table after a store that the program makes: `t.small.heads[0] = 8`, its spaces taken away.
fn set(t: &Plain, store: &str) -> Plain {
    let mut u = t.clone();
    let (place, value) = store.strip_prefix("t.").and_then(|s| s.split_once('=')).expect("a store");
    let (place, half) =
        place.strip_prefix("small.").unwrap_or(place).split_once('.').unwrap_or((place.strip_prefix("small.").unwrap_or(place), ""));
    let (field, at) = place.split_once('[').unwrap_or((place, "0]"));
    let at: usize = at.strip_suffix(']').unwrap().parse().unwrap();
    let halves = value.strip_prefix("TaskId::new(").and_then(|v| v.split_once(','));
    let v: usize = if halves.is_some() { 0 } else { value.parse().unwrap() };
    let id = |old: (u16, u16)| match (half, halves) {
        ("slot", _) => (v as u16, old.1),
        ("epoch", _) => (old.0, v as u16),
        (_, Some((slot, epoch))) => (slot.parse().unwrap(), epoch.parse().unwrap()),
        _ => panic!("no id in {store}"),
    };
    match field {
        "n" => u.n = v,
        "parked" => u.parked = v as u8,
        "parked_id" => u.parked_id = id(u.parked_id),
        "peak" => u.peak = v as u32,
        "overwrites" => u.overwrites = v as u32,
        "block_events" => u.block_events = v as u32,
        "heads" => u.heads[at] = v,
        "lens" => u.lens[at] = v,
        "currents" => u.currents[at] = id(u.currents[at]),
        "idles" => u.idles[at] = id(u.idles[at]),
        "states" => u.states[at] = v as u8,
        "epochs" => u.epochs[at] = v as u16,
        "homes" => u.homes[at] = v as u8,
        "marks" => u.marks[at] = v as u8,
        "ring_slots" => u.ring[at].0 = v as u16,
        "ring_epochs" => u.ring[at].1 = v as u16,
        _ => panic!("no field {field}"),
    }
    u
}

/// On each damaged table there are 26 calls.
fn damaged() -> Vec<Line> {
    let mut rows = calls(DAMAGE, "line");
    let unseen = calls(DAMAGE, "unseen");
    assert!(rows.len() > 35 && unseen.len() > 3, "the damaged tables are not where this program looks for them");
    rows.extend(unseen.iter().cloned());
    rows.sort_by_key(|(at, _)| *at);
    rows.iter()
        .map(|(at, args)| {
            let fresh = *at > DAMAGE.find("fn fresh_slots").unwrap();
            let base = match args[1].as_str() {
                "twice" => set(&busy(), "t.ring_slots[5]=3"),
                "t" if fresh => Plain::fresh(4),
                "t" => busy(),
                other => panic!("a table {other}"),
            };
            assert!(base.sound(), "{args:?}: the table was not sound to begin with");
            let store = args[2..].join(",");
            let sound = set(&base, store.strip_prefix("|t|").expect("a closure")).sound();
            let untouched = unseen.iter().any(|(a, _)| a == at);
            if untouched {
                return format!("ours table untouched, {} {sound}", args[0]);
            }
            assert!(!sound, "{args:?}: the table is sound");
            let mut l = format!("ours table damaged, {} {sound}", args[0]);
            unsound(&mut l, 26);
            l
        })
        .collect()
}

fn life() -> Line {
    let mut l = Line::from("life");
    for s in [None, Some(State::Empty), Some(State::Ready), Some(State::Running), Some(State::Blocked)] {
        for idle in [false, true] {
            word(
                &mut l,
                match lifecycle::reap(idle, s) {
                    lifecycle::ReapVerdict::Refuse(e) => format!("{e:?}"),
                    v => format!("{v:?}"),
                },
            );
        }
        for idle in [false, true] {
            word(
                &mut l,
                match lifecycle::force(idle, s) {
                    lifecycle::ForceVerdict::Refuse(e) => format!("{e:?}"),
                    v => format!("{v:?}"),
                },
            );
        }
        word(&mut l, format!("{:?}", lifecycle::cancel(s)));
    }
    l
}

pub fn lines() -> Vec<Line> {
    let mut all = scripts();
    all.push(sizes());
    all.push(cpus());
    all.push(epochs());
    let mut l = Line::from("table busy");
    Scripted::<8>::default().run(&mut l, &own_script(DAMAGE, "busy", 0));
    all.push(l);
    all.extend(damaged());
    all.push(life());
    all
}
