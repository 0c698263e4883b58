//! The same work four ways: the customer's Rust, and ours by the inner calls on tables known sound, by the calls of the product, and by
//! the exported calls, which take pointers to tables. `bench` times all in turns and prints nanoseconds a call with their ratios to the
//! Rust's; `bench agree` only holds the answers of all to the Rust's; `bench WORK WAY ROUNDS` does one of them alone, for a tool that
//! counts instructions.

use bredumalt::{Cookie, Reply, Table, TaskId, Tasks, Token, WaitTable, WakeQueue, irqwait, parktime, tasks, wake};
use oracle::runqueue::TaskId as TheirId;
use oracle::tasks::Switch;
use std::hint::black_box;
use std::time::Instant;

const N: usize = 57;
const C: usize = 32;

fn id(slot: u16) -> TaskId {
    TaskId { slot, epoch: 0 }
}

/// What every side can do; a call gives a number, so that no side can leave its work out.
trait Side {
    fn new() -> Self;
    fn start1(&mut self) -> u64;
    fn admit(&mut self, cpu: u8) -> u64;
    fn mark(&mut self, t: TaskId) -> u64;
    fn switch(&mut self, cpu: u8, kind: u8) -> u64;
    fn wake(&mut self, t: TaskId) -> u64;
    fn collect(&mut self) -> u64;
    fn steal(&mut self, cpu: u8) -> u64;
    fn arm(&mut self, cookie: u32, t: TaskId) -> u64;
    fn signal(&mut self, cookie: u32) -> u64;
    fn take(&mut self, t: TaskId) -> u64;
    fn park(&mut self, t: TaskId, deadline: u64) -> u64;
    fn poll(&mut self, now: u64) -> u64;
    fn push(&mut self, token: u32) -> u64;
    fn pop(&mut self) -> u64;
}

// ---- the customer's Rust, whose calls are not inlined into the loops

struct Rust {
    tasks: oracle::tasks::Tasks<N>,
    waits: oracle::irqwait::WaitTable,
    deadlines: oracle::parktime::Table,
    wakes: oracle::wake::WakeQueue<C>,
    out: [TheirId; 16],
}

fn their(t: TaskId) -> TheirId {
    TheirId::new(t.slot, t.epoch)
}

fn raw(t: Option<TheirId>) -> u64 {
    t.map_or(u64::MAX, |t| t.to_raw() as u64)
}

impl Side for Rust {
    fn new() -> Self {
        let mut tasks = oracle::tasks::Tasks::new();
        tasks.start();
        Rust {
            tasks,
            waits: oracle::irqwait::WaitTable::new(),
            deadlines: oracle::parktime::Table::new(),
            wakes: oracle::wake::WakeQueue::new(),
            out: [TheirId::new(0, 0); 16],
        }
    }
    #[inline(never)]
    fn start1(&mut self) -> u64 {
        raw(self.tasks.start_cpu1())
    }
    #[inline(never)]
    fn admit(&mut self, cpu: u8) -> u64 {
        raw(self.tasks.admit_on(cpu))
    }
    #[inline(never)]
    fn mark(&mut self, t: TaskId) -> u64 {
        self.tasks.set_stealeable(their(t), true) as u64
    }
    #[inline(never)]
    fn switch(&mut self, cpu: u8, kind: u8) -> u64 {
        let kind = [Switch::Yield, Switch::Preempt, Switch::Block, Switch::Exit][kind as usize];
        match self.tasks.switch_on(cpu, kind) {
            oracle::tasks::Decision::Stay => u64::MAX,
            oracle::tasks::Decision::Switch { to, .. } => to.to_raw() as u64,
        }
    }
    #[inline(never)]
    fn wake(&mut self, t: TaskId) -> u64 {
        self.tasks.wake(their(t)) as u64
    }
    #[inline(never)]
    fn collect(&mut self) -> u64 {
        raw(self.tasks.collect())
    }
    #[inline(never)]
    fn steal(&mut self, cpu: u8) -> u64 {
        self.tasks.try_steal_into(cpu) as u64
    }
    #[inline(never)]
    fn arm(&mut self, cookie: u32, t: TaskId) -> u64 {
        self.waits.arm(cookie, their(t)).is_ok() as u64
    }
    #[inline(never)]
    fn signal(&mut self, cookie: u32) -> u64 {
        raw(self.waits.signal(cookie))
    }
    #[inline(never)]
    fn take(&mut self, t: TaskId) -> u64 {
        self.waits.take_pending(their(t)) as u64
    }
    #[inline(never)]
    fn park(&mut self, t: TaskId, deadline: u64) -> u64 {
        self.deadlines.arm(their(t), deadline).is_ok() as u64
    }
    #[inline(never)]
    fn poll(&mut self, now: u64) -> u64 {
        self.deadlines.poll(now, &mut self.out) as u64
    }
    #[inline(never)]
    fn push(&mut self, token: u32) -> u64 {
        self.wakes.push(token) as u64
    }
    #[inline(never)]
    fn pop(&mut self) -> u64 {
        self.wakes.pop().map_or(u64::MAX, u64::from)
    }
}

// ---- ours

fn number(answer: bredumalt::Answer) -> u64 {
    let raw = |t: TaskId| (t.epoch as u64) << 16 | t.slot as u64;
    match answer.reply() {
        Reply::Refused(no) => panic!("refused with {no}"),
        Reply::Done => 1,
        Reply::Told(b) => b as u64,
        Reply::Number(n) => n,
        Reply::Named(t) => t.map_or(u64::MAX, raw),
        Reply::Value(v) => v.unwrap_or(u64::MAX),
        Reply::Stay => u64::MAX,
        Reply::Switch { to, .. } => raw(to),
    }
}

/// The exported calls, on tables where they lie.
struct Pointers {
    tasks: Tasks,
    waits: WaitTable,
    deadlines: Table,
    wakes: WakeQueue,
    out: [Token; 16],
}

impl Side for Pointers {
    fn new() -> Self {
        let mut t = Tasks::new(N).expect("the size is listed");
        tasks::start(&mut t).done().expect("it was just made");
        Pointers {
            tasks: t,
            waits: WaitTable::new(),
            deadlines: Table::new(),
            wakes: WakeQueue::new(C).expect("the size is listed"),
            out: [Token(0); 16],
        }
    }
    fn start1(&mut self) -> u64 {
        number(tasks::start_cpu1(&mut self.tasks))
    }
    fn admit(&mut self, cpu: u8) -> u64 {
        number(tasks::admit_on(&mut self.tasks, cpu))
    }
    fn mark(&mut self, t: TaskId) -> u64 {
        number(tasks::set_stealeable(&mut self.tasks, t, true))
    }
    fn switch(&mut self, cpu: u8, kind: u8) -> u64 {
        number(tasks::switch_on(&mut self.tasks, cpu, kind))
    }
    fn wake(&mut self, t: TaskId) -> u64 {
        number(tasks::wake(&mut self.tasks, t))
    }
    fn collect(&mut self) -> u64 {
        number(tasks::collect(&mut self.tasks))
    }
    fn steal(&mut self, cpu: u8) -> u64 {
        number(tasks::try_steal_into(&mut self.tasks, cpu))
    }
    fn arm(&mut self, cookie: u32, t: TaskId) -> u64 {
        number(irqwait::arm(&mut self.waits, Cookie(cookie), t))
    }
    fn signal(&mut self, cookie: u32) -> u64 {
        number(irqwait::signal(&mut self.waits, Cookie(cookie)))
    }
    fn take(&mut self, t: TaskId) -> u64 {
        number(irqwait::take_pending(&mut self.waits, t))
    }
    fn park(&mut self, t: TaskId, deadline: u64) -> u64 {
        number(parktime::arm(&mut self.deadlines, t, deadline))
    }
    fn poll(&mut self, now: u64) -> u64 {
        number(parktime::poll(&mut self.deadlines, now, &mut self.out))
    }
    fn push(&mut self, token: u32) -> u64 {
        number(wake::push(&mut self.wakes, Token(token)))
    }
    fn pop(&mut self) -> u64 {
        number(wake::pop(&mut self.wakes))
    }
}

// ---- loops of our own, with no boundary within

/// A loop of crate `repeats` for each work, in the order of `works`: it takes the table that a work begins from by value, and gives the
/// sum.
type Loops = [fn(&Pointers, u32) -> u64; 8];

/// What the loops of one kind are given beside their tables is what `works` gives the calls.
macro_rules! loops {
    ($yield:ident, $mix:ident, $wake:ident, $admit:ident, $steal:ident, $signal:ident, $poll:ident, $push:ident) => {{
        // SAFETY: the archive has functions of these names and types, which take any bits.
        unsafe extern "C" {
            fn $yield(t: Tasks, rounds: u32) -> u64;
            fn $mix(t: Tasks, rounds: u32) -> u64;
            fn $wake(t: Tasks, id: TaskId, rounds: u32) -> u64;
            fn $admit(t: Tasks, rounds: u32) -> u64;
            fn $steal(t: Tasks, rounds: u32) -> u64;
            fn $signal(w: WaitTable, cookie: u32, id: TaskId, rounds: u32) -> u64;
            fn $poll(d: Table, id: TaskId, before: u64, deadline: u64, rounds: u32) -> u64;
            fn $push(q: WakeQueue, token: u32, rounds: u32) -> u64;
        }
        let loops: Loops = [
            |m, rounds| unsafe { $yield(m.tasks.clone(), rounds) },
            |m, rounds| unsafe { $mix(m.tasks.clone(), rounds) },
            |m, rounds| unsafe { $wake(m.tasks.clone(), WOKEN, rounds) },
            |m, rounds| unsafe { $admit(m.tasks.clone(), rounds) },
            |m, rounds| unsafe { $steal(m.tasks.clone(), rounds) },
            |m, rounds| unsafe { $signal(m.waits.clone(), COOKIE, WAITS, rounds) },
            |m, rounds| unsafe { $poll(m.deadlines.clone(), PARKED, DUE - 1, DUE, rounds) },
            |m, rounds| unsafe { $push(m.wakes.clone(), TOKEN, rounds) },
        ];
        loops
    }};
}

fn known() -> Loops {
    loops!(
        bredumalt_known_yield,
        bredumalt_known_mix,
        bredumalt_known_wake,
        bredumalt_known_admit,
        bredumalt_known_steal,
        bredumalt_known_signal,
        bredumalt_known_poll,
        bredumalt_known_push
    )
}

fn checked() -> Loops {
    loops!(
        bredumalt_checked_yield,
        bredumalt_checked_mix,
        bredumalt_checked_wake,
        bredumalt_checked_admit,
        bredumalt_checked_steal,
        bredumalt_checked_signal,
        bredumalt_checked_poll,
        bredumalt_checked_push
    )
}

// ---- the works

const WOKEN: TaskId = TaskId { slot: 1, epoch: 0 };
const COOKIE: u32 = 30;
const WAITS: TaskId = TaskId { slot: 5, epoch: 0 };
const PARKED: TaskId = TaskId { slot: 3, epoch: 0 };
const DUE: u64 = 100;
const TOKEN: u32 = 7;

const YIELD: u8 = 0;
const PREEMPT: u8 = 1;
const BLOCK: u8 = 2;
const EXIT: u8 = 3;

/// A table with CPU 1 started and twenty tasks, ten on each CPU, the first of which run.
fn twenty<S: Side>() -> S {
    let mut s = S::new();
    s.start1();
    for i in 0..20 {
        s.admit(i % 2);
    }
    s.switch(0, YIELD);
    s.switch(1, YIELD);
    s
}

/// A work: its name, how many calls a round has, what it begins from, and a round, which leaves the tables as they were but for epochs.
struct Work<S> {
    name: &'static str,
    calls: u64,
    begin: fn() -> S,
    round: fn(&mut S, u64) -> u64,
}

fn works<S: Side>() -> [Work<S>; 8] {
    [
        Work { name: "yield", calls: 1, begin: twenty, round: |s, sum| plus(sum, s.switch(0, YIELD)) },
        Work {
            name: "mix",
            calls: 8,
            begin: twenty,
            round: |s, sum| {
                let runs = s.switch(0, YIELD);
                all(
                    sum,
                    [
                        runs,
                        s.admit(1),
                        s.switch(0, BLOCK),
                        s.switch(1, PREEMPT),
                        s.wake(id(runs as u16)),
                        s.switch(1, YIELD),
                        s.switch(1, EXIT),
                        s.collect(),
                    ],
                )
            },
        },
        Work {
            name: "block and wake",
            calls: 3,
            begin: || {
                let mut s = S::new();
                s.admit(0);
                s.switch(0, YIELD);
                s
            },
            // the only task but idle: it blocks, is woken, and runs again when idle yields
            round: |s, sum| all(sum, [s.switch(0, BLOCK), s.wake(WOKEN), s.switch(0, YIELD)]),
        },
        Work {
            name: "admit and exit",
            calls: 4,
            begin: S::new,
            round: |s, sum| all(sum, [s.admit(0), s.switch(0, YIELD), s.switch(0, EXIT), s.collect()]),
        },
        Work {
            name: "steal",
            calls: 2,
            begin: || {
                let mut s = S::new();
                s.start1();
                s.admit(0);
                s.mark(id(2));
                s
            },
            // there and back
            round: |s, sum| all(sum, [s.steal(1), s.steal(0)]),
        },
        Work {
            name: "arm, signal, take",
            calls: 3,
            begin: S::new,
            round: |s, sum| all(sum, [s.arm(COOKIE, WAITS), s.signal(COOKIE), s.take(WAITS)]),
        },
        Work {
            name: "poll",
            calls: 3,
            begin: || {
                let mut s = S::new();
                for slot in 0..8 {
                    s.park(id(20 + slot), 10 * DUE);
                }
                s
            },
            // nothing is due, then one is
            round: |s, sum| all(sum, [s.park(PARKED, DUE), s.poll(DUE - 1), s.poll(DUE)]),
        },
        Work { name: "push and pop", calls: 2, begin: S::new, round: |s, sum| all(sum, [s.push(TOKEN), s.pop()]) },
    ]
}

/// A sum, turned by a bit so that the order counts, and a number added to it.
fn plus(sum: u64, n: u64) -> u64 {
    sum.rotate_left(1).wrapping_add(n)
}

/// Likewise for what the calls of a round gave, in the order in which they were made.
fn all<const K: usize>(sum: u64, gave: [u64; K]) -> u64 {
    gave.into_iter().fold(sum, plus)
}

/// Does the work; gives nanoseconds a call and the sum of what the calls gave, which has to be the same on every side.
fn done<S: Side>(work: &Work<S>, rounds: u32) -> (f64, u64) {
    let mut s = black_box((work.begin)());
    let mut sum = 0u64;
    let from = Instant::now();
    for _ in 0..rounds {
        sum = (work.round)(black_box(&mut s), sum);
    }
    (per_call(from, work.calls, rounds), sum)
}

/// The same by a loop of our own.
fn looped(work: &Work<Pointers>, run: fn(&Pointers, u32) -> u64, rounds: u32) -> (f64, u64) {
    let tables = black_box((work.begin)());
    let from = Instant::now();
    let sum = run(&tables, rounds);
    (per_call(from, work.calls, rounds), sum)
}

fn per_call(from: Instant, calls: u64, rounds: u32) -> f64 {
    from.elapsed().as_nanos() as f64 / (u64::from(rounds) * calls) as f64
}

const WAYS: [&str; 4] = ["rust", "known", "checked", "pointers"];

/// The work of a number by the way of a number.
fn run(work: usize, way: usize, rounds: u32) -> (f64, u64) {
    match way {
        0 => done(&works::<Rust>()[work], rounds),
        1 => looped(&works()[work], known()[work], rounds),
        2 => looped(&works()[work], checked()[work], rounds),
        _ => done(&works::<Pointers>()[work], rounds),
    }
}

/// A work by every way; they have to answer the same.
fn by_all(work: usize, name: &str, rounds: u32) -> [f64; WAYS.len()] {
    let got: [_; WAYS.len()] = std::array::from_fn(|way| run(work, way, rounds));
    for (way, g) in WAYS.iter().zip(got) {
        assert_eq!(g.1, got[0].1, "{name}: {way} answers differently from the Rust");
    }
    got.map(|g| g.0)
}

fn main() {
    let names = works::<Rust>().map(|w| w.name);
    let args: Vec<String> = std::env::args().skip(1).collect();
    if let [name, way, rounds] = &args[..] {
        let work = names.iter().position(|n| n == name).expect("a work");
        let way = WAYS.iter().position(|w| w == way).expect("rust, known, checked or pointers");
        println!("{}", run(work, way, rounds.parse().expect("a number")).1);
        return;
    }
    if args == ["agree"] {
        for (work, name) in names.iter().enumerate() {
            by_all(work, name, 70_000);
        }
        println!("bench: {} works answer the same in {} ways", names.len(), WAYS.len());
        return;
    }
    assert!(args.is_empty(), "usage: bench [agree | WORK WAY ROUNDS]");
    println!("| work | the Rust, ns a call | known sound | checked | pointers | known / Rust | checked / Rust | pointers / Rust |");
    println!("|---|---|---|---|---|---|---|---|");
    for (work, name) in names.iter().enumerate() {
        // in turns, and the fastest of each, so that what else the machine does counts little
        let mut best = [f64::MAX; WAYS.len()];
        for _ in 0..15 {
            for (b, ns) in best.iter_mut().zip(by_all(work, name, 100_000)) {
                *b = b.min(ns);
            }
        }
        let figures = best.map(|ns| format!("{ns:.1}")).join(" | ");
        let ratios: Vec<String> = best[1..].iter().map(|ns| format!("{:.1}", ns / best[0])).collect();
        println!("| {name} | {figures} | {} |", ratios.join(" | "));
    }
}
