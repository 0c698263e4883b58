//! Hands damaged tables to every call over the boundary. The answer has to be 1 exactly when document 01's clauses, as `compare::sound`
//! reads them, say that the table is not sound; after any refusal the table has to be the one that was given. So it has to be beside a
//! maker's 2; where it makes a table, that is the same whatever lay there.
//! `damage short` tries 100,000 tables from a fixed seed; `damage long SEED [TABLES]` 2,000,000.

use bredumalt::{
    Answer, Cookie, Ends, Entry, Reply, RunQueue, Small, Span, Table, TaskId, Tasks, Token, WaitTable, Waiter, Waiters, WakeQueue, irqwait,
    parktime, runqueue, wake,
};
use compare::pair::{Pair, Setup};
use compare::rng::Rng;
use compare::{deadlines, ring, sound, tasks, waits, wakes};
use oracle::plain::{WAKE_SIZES, listed};
use std::hint::black_box;
use std::process::exit;

/// How many tables there were of one kind, how many of them sound, and how many calls they got.
#[derive(Default)]
struct Count {
    tables: u64,
    sound: u64,
    calls: u64,
}

/// Judges one call: 1 exactly on tables that are not sound, the table as it was after any refusal, a sound one after anything else.
fn judge<T: PartialEq + std::fmt::Debug>(
    before: &T,
    sound: bool,
    call: &dyn std::fmt::Display,
    after: &T,
    answer: Answer,
    kept: impl Fn(&T) -> bool,
) {
    let reply = answer.reply();
    let refusals = (reply == Reply::Refused(1)) != sound;
    let right = refusals && if let Reply::Refused(_) = reply { after == before } else { kept(after) };
    if !right {
        println!("{call} on {before:?}\nsound: {sound}; answer {reply:?}, table {after:?}");
        exit(1);
    }
}

/// A table between numbers that no call has a pointer to.
#[repr(C)] // in this order
struct Fenced<T> {
    low: [u64; 8],
    table: T,
    high: [u64; 8],
}

const FENCE: [u64; 8] = [0x5a5a_a5a5_0ff0_f00f; 8];

/// A call on a copy of the table: the table after it, and the answer. What stands before and behind it has to stay.
fn on_copy<T: Clone>(given: &T, what: &dyn std::fmt::Display, call: impl FnOnce(&mut T) -> Answer) -> (T, Answer) {
    let mut f = Fenced { low: FENCE, table: given.clone(), high: FENCE };
    // so that the compiler, which may take it that a call writes only where it is lent something, looks again afterwards
    let answer = call(&mut black_box(&mut f).table);
    let f = black_box(&mut f);
    insist((f.low, f.high) == (FENCE, FENCE), || format!("{what} wrote beside the table"));
    (f.table.clone(), answer)
}

/// A call that is refused with 12 whatever the table, since a number that goes with it names nothing.
fn nameless<T: Clone + PartialEq>(given: &T, what: String, call: impl FnOnce(&mut T) -> Answer) {
    let (after, answer) = on_copy(given, &what, call);
    insist(answer.reply() == Reply::Refused(12) && after == *given, || format!("{what}: {answer:?}"));
}

/// A size to make a table in.
fn any_size(rng: &mut Rng) -> usize {
    let (near, any) = (rng.below(67), rng.word() as usize);
    rng.of(&[0, 1, 2, 32, 64, 65, near, any])
}

/// A maker over the table, in a size that gives `fresh`, or that is not listed.
fn made<T: Clone + PartialEq + std::fmt::Debug>(given: &T, size: usize, fresh: Option<T>, init: fn(&mut T, usize) -> Answer) {
    let what = format!("a table of size {size}");
    let (after, answer) = on_copy(given, &what, |t| init(t, size));
    let want = if fresh.is_some() { Reply::Done } else { Reply::Refused(2) };
    let right = answer.reply() == want && after == *fresh.as_ref().unwrap_or(given);
    insist(right, || format!("{what} over {given:?}\nanswer {answer:?}, table {after:?}"));
}

/// A byte that is no flag.
fn no_flag(rng: &mut Rng) -> u8 {
    let any = 2 + rng.below(254) as u8;
    rng.of(&[2, 3, 254, 255, any])
}

fn insist(right: bool, what: impl FnOnce() -> String) {
    if !right {
        println!("{}", what());
        exit(1);
    }
}

// ---- numbers, changed

/// A number near to this one, or at an edge, or this one with a bit turned, or any.
fn twist(rng: &mut Rng, v: u64, bits: usize) -> u64 {
    let w = match rng.below(8) {
        0 => rng.word(),
        1 => v.wrapping_add(1),
        2 => v.wrapping_sub(1),
        3 => rng.of(&[0, 1, 2, 3, 63, 64, 65, u64::MAX]),
        4 => rng.below(66) as u64,
        _ => v ^ 1 << rng.below(bits),
    };
    w & (u64::MAX >> (64 - bits))
}

macro_rules! twisted {
    ($rng:expr, $place:expr, $t:ty) => {{
        let place = &mut $place;
        *place = twist($rng, *place as u64, <$t>::BITS as usize) as $t;
    }};
}

fn twist_id(rng: &mut Rng, t: &mut TaskId) {
    if rng.one_in(2) {
        twisted!(rng, t.slot, u16);
    } else {
        twisted!(rng, t.epoch, u16);
    }
}

fn any_id(rng: &mut Rng) -> TaskId {
    TaskId { slot: rng.word() as u16, epoch: rng.word() as u16 }
}

fn any_bool(rng: &mut Rng) -> bool {
    rng.one_in(2)
}

/// 0 or 1.
fn any_flag(rng: &mut Rng) -> u8 {
    any_bool(rng) as u8
}

/// The other flag, or any byte.
fn twist_flag(rng: &mut Rng, flag: &mut u8) {
    *flag = match rng.below(4) {
        0 | 1 => (*flag == 0) as u8,
        2 => rng.word() as u8,
        _ => *flag ^ 1 << rng.below(8),
    };
}

// ---- task tables

/// A place that is mostly among the first n.
fn place(rng: &mut Rng, n: usize) -> usize {
    if (1..=64).contains(&n) && !rng.one_in(6) { rng.below(n) } else { rng.below(64) }
}

fn damage_tasks(rng: &mut Rng, t: &mut Tasks) {
    let s = &mut t.small;
    let n = s.n;
    let cpu = rng.below(2);
    match rng.below(20) {
        0 => twisted!(rng, s.n, usize),
        1 if rng.one_in(3) => s.heads[cpu] = n,
        1 => twisted!(rng, s.heads[cpu], usize),
        2 => twisted!(rng, s.lens[cpu], usize),
        3 => twist_id(rng, &mut s.currents[cpu]),
        4 => twist_id(rng, &mut s.idles[cpu]),
        5 => twist_flag(rng, &mut s.parked),
        6 => twist_id(rng, &mut s.parked_id),
        7 => twisted!(rng, s.overwrites, u32),
        8 => twisted!(rng, s.block_events, u32),
        9 => twisted!(rng, s.peak, u32),
        10 | 11 => twisted!(rng, t.states[place(rng, n)], u8),
        12 => twisted!(rng, t.epochs[place(rng, n)], u16),
        13 => twisted!(rng, t.homes[place(rng, n)], u8),
        14 => {
            let at = place(rng, n);
            twist_flag(rng, &mut t.marks[at]);
        }
        15 => {
            // an entry among those queued, most times
            let at = if rng.one_in(4) { rng.below(64) } else { s.heads[cpu].wrapping_add(rng.below(3)) % n.clamp(1, 64) };
            if rng.one_in(2) { twisted!(rng, t.ring_slots[cpu * 64 + at], u16) } else { twisted!(rng, t.ring_epochs[cpu * 64 + at], u16) }
        }
        16 => {
            // two places change their states, or their queue entries
            let (a, b) = (place(rng, n), place(rng, n));
            if rng.one_in(2) { t.states.swap(a, b) } else { t.ring_slots.swap(cpu * 64 + a, cpu * 64 + b) }
        }
        17 => {
            let at = place(rng, n);
            (t.states[at], t.homes[at]) = (rng.below(4) as u8, rng.below(2) as u8);
        }
        _ => {
            // an id that stands alone becomes another that would do there, but for one clause
            let at = place(rng, n);
            let known = TaskId { slot: at as u16, epoch: t.epochs[at] };
            match rng.below(3) {
                0 => s.currents[cpu] = known,
                1 => (s.idles[cpu], t.homes[at], t.marks[at]) = (known, cpu as u8, 0),
                _ => s.parked_id = TaskId { epoch: known.epoch.wrapping_sub(1), ..known },
            }
        }
    }
}

/// A table put together to be sound, or nearly so: slots get states and homes at random, and the rest is made to fit. Places beyond the
/// first n hold any bytes, marks that are no flags included.
fn fitted_tasks(rng: &mut Rng) -> Tasks {
    let n = 1 + rng.below(64);
    let mut t = any_tasks(rng);
    t.small.n = n;
    let started1 = n > 1 && rng.one_in(2);
    for s in 0..n {
        t.states[s] = rng.of(&[0, 1, 1, 3]);
        t.homes[s] = rng.below(2) as u8;
        t.marks[s] = any_flag(rng);
    }
    t.epochs[0] = 0;
    let of = |t: &Tasks, s: usize| TaskId { slot: s as u16, epoch: t.epochs[s] };
    t.small.idles = [TaskId::IDLE, if started1 { of(&t, 1 + rng.below(n - 1)) } else { TaskId::IDLE }];
    for cpu in 0..if started1 { 2 } else { 1 } {
        let idle = t.small.idles[cpu].slot as usize;
        (t.states[idle], t.homes[idle], t.marks[idle]) = (1, cpu as u8, 0);
    }
    t.small.currents = [TaskId::IDLE; 2];
    for cpu in 0..if started1 { 2 } else { 1 } {
        let ready: Vec<usize> = (0..n).filter(|&s| t.states[s] == 1 && t.homes[s] as usize == cpu).collect();
        let runs = if ready.is_empty() { 0 } else { rng.of(&ready) };
        t.states[runs] = 2;
        t.small.currents[cpu] = of(&t, runs);
    }
    for cpu in 0..2 {
        let mut ready: Vec<usize> = (0..n).filter(|&s| t.states[s] == 1 && t.homes[s] as usize == cpu).collect();
        t.small.heads[cpu] = rng.below(n);
        t.small.lens[cpu] = ready.len();
        for j in 0..t.small.lens[cpu] {
            let s = ready.swap_remove(rng.below(ready.len()));
            let at = cpu * 64 + (t.small.heads[cpu] + j) % n;
            (t.ring_slots[at], t.ring_epochs[at]) = (s as u16, t.epochs[s]);
        }
    }
    let empty: Vec<usize> = (1..n).filter(|&s| t.states[s] == 0).collect();
    t.small.parked = (!empty.is_empty() && rng.one_in(2)) as u8;
    if t.small.parked == 1 {
        let s = rng.of(&empty);
        t.small.parked_id = TaskId { slot: s as u16, epoch: t.epochs[s].wrapping_sub(1) };
    }
    let occupied = (0..n).filter(|&s| t.states[s] != 0).count();
    t.small.peak = (occupied + rng.below(n - occupied + 1)) as u32;
    t
}

fn any_tasks(rng: &mut Rng) -> Tasks {
    Tasks {
        small: Small {
            n: rng.word() as usize,
            heads: [rng.word() as usize, rng.word() as usize],
            lens: [rng.word() as usize, rng.word() as usize],
            currents: [any_id(rng), any_id(rng)],
            idles: [any_id(rng), any_id(rng)],
            parked: rng.word() as u8,
            parked_id: any_id(rng),
            overwrites: rng.word() as u32,
            block_events: rng.word() as u32,
            peak: rng.word() as u32,
        },
        states: std::array::from_fn(|_| rng.word() as u8),
        epochs: std::array::from_fn(|_| rng.word() as u16),
        homes: std::array::from_fn(|_| rng.word() as u8),
        marks: std::array::from_fn(|_| rng.word() as u8),
        ring_slots: std::array::from_fn(|_| rng.word() as u16),
        ring_epochs: std::array::from_fn(|_| rng.word() as u16),
    }
}

/// Any bytes, but with the numbers that are looked at first small enough for the later clauses to count.
fn small_tasks(rng: &mut Rng) -> Tasks {
    let mut t = any_tasks(rng);
    let n = 1 + rng.below(6);
    t.small.n = n;
    t.small.heads = [rng.below(n), rng.below(n)];
    t.small.lens = [rng.below(n + 1), rng.below(n + 1)];
    t.states = t.states.map(|s| s % 4);
    t.homes = t.homes.map(|h| h % 2);
    t.marks[..n].fill_with(|| any_flag(rng));
    t.epochs = [0; 64];
    t.ring_epochs = [0; 128];
    t.ring_slots = t.ring_slots.map(|s| s % n as u16);
    t.small.currents = [rng.below(n), rng.below(n)].map(|s| TaskId { slot: s as u16, epoch: 0 });
    t.small.idles = [0, rng.below(n)].map(|s| TaskId { slot: s as u16, epoch: 0 });
    t.small.parked = rng.one_in(8) as u8;
    t.small.peak = n as u32;
    t
}

/// A table just made; where its rings start does not count.
fn fresh_tasks(rng: &mut Rng) -> Tasks {
    let n = 1 + rng.below(64);
    let mut t = Tasks::new(n).expect("the size is listed");
    t.small.heads = [rng.below(n), rng.below(n)];
    t
}

fn task_calls(rng: &mut Rng, t: &Tasks) -> Vec<tasks::Call> {
    use tasks::Call::*;
    let mut x = || {
        let slot = rng.below(66);
        TaskId { slot: slot as u16, epoch: t.epochs[slot % 64] }
    };
    let ids = [x(), x(), x(), x(), x()];
    let mut cpu = || if rng.one_in(8) { rng.word() as u8 } else { rng.below(2) as u8 };
    let cpus = [cpu(), cpu(), cpu(), cpu(), cpu(), cpu(), cpu()];
    let kind = rng.below(4) as u8;
    vec![
        Start,
        StartCpu1,
        Admit,
        AdmitOn(cpus[0]),
        Mark(ids[0], any_bool(rng)),
        Wake(ids[1]),
        Collect,
        Steal(cpus[1]),
        Switch(rng.below(4) as u8),
        SwitchOn(cpus[2], kind),
        CurrentOn(cpus[3]),
        Current,
        IdleOf(cpus[4]),
        HasReadyOn(cpus[5]),
        HasReady,
        Cpu1Started,
        State(ids[2]),
        HomeOf(ids[3]),
        LiveId(rng.below(70)),
        IsStealeable(ids[4]),
        CanSteal(cpus[6]),
        Overwrites,
        BlockedCount,
        BlockEvents,
        LiveCount,
        PeakSlots,
    ]
}

fn try_tasks(rng: &mut Rng, t: &Tasks, count: &mut Count) {
    let is_sound = sound::tasks(t);
    insist(bredumalt::tasks::sound(t) == is_sound, || format!("tasks::sound is not {is_sound} of {t:?}"));
    let (kind, cpu) = (4 + rng.below(252) as u8, rng.below(3) as u8);
    nameless(t, format!("a switch of kind {kind}"), |t| bredumalt::tasks::switch_on(t, cpu, kind));
    let (mark, slot) = (no_flag(rng), rng.below(64));
    let x = TaskId { slot: slot as u16, epoch: t.epochs[slot] };
    nameless(t, format!("a mark of {mark}"), |t| bredumalt::tasks::set_stealeable(t, x, mark));
    let size = any_size(rng);
    made(t, size, listed(size).then(|| Tasks::new(size).expect("the size is listed")), bredumalt::tasks::init);
    let calls = task_calls(rng, t);
    for &call in &calls {
        let (after, answer) = on_copy(t, &call, |t| tasks::call(t, call));
        judge(t, is_sound, &call, &after, answer, sound::tasks);
        insist(!tasks::reads(call) || after == *t, || format!("{call} only reads, and changed the table"));
    }
    count.tables += 1;
    count.sound += is_sound as u64;
    count.calls += calls.len() as u64 + 4;
}

// ---- the small tables

fn any_waits(rng: &mut Rng, small: bool) -> WaitTable {
    let x = |rng: &mut Rng| {
        let t = any_id(rng);
        if small { TaskId { slot: t.slot % 66, epoch: t.epoch % 3 } } else { t }
    };
    let flag = |rng: &mut Rng| if small { any_flag(rng) } else { rng.word() as u8 };
    WaitTable {
        waiters: Waiters {
            all: std::array::from_fn(|_| Waiter {
                live: flag(rng),
                cookie: Cookie(if small { rng.below(40) as u32 } else { rng.word() as u32 }),
                task: x(rng),
            }),
        },
        pending: std::array::from_fn(|_| flag(rng)),
        pending_slots: std::array::from_fn(|i| if small { i as u16 } else { rng.word() as u16 }),
        pending_epochs: std::array::from_fn(|_| rng.word() as u16),
    }
}

fn damage_waits(rng: &mut Rng, t: &mut WaitTable) {
    let (i, j, at) = (rng.below(8), rng.below(8), rng.below(64));
    let w = &mut t.waiters.all;
    match rng.below(7) {
        0 => twist_flag(rng, &mut w[i].live),
        1 => twisted!(rng, w[i].cookie.0, u32),
        2 => twist_id(rng, &mut w[i].task),
        3 => w[i].cookie = w[j].cookie,
        4 => w[i].task = w[j].task,
        5 => twist_flag(rng, &mut t.pending[at]),
        _ if rng.one_in(2) => twisted!(rng, t.pending_slots[at], u16),
        _ => twisted!(rng, t.pending_epochs[at], u16),
    }
}

fn try_waits(rng: &mut Rng, t: &WaitTable, count: &mut Count) {
    use waits::Call::*;
    let is_sound = sound::waits(t);
    insist(irqwait::sound(t) == is_sound, || format!("irqwait::sound is not {is_sound} of {t:?}"));
    let w = t.waiters.all[rng.below(8)];
    let x = if rng.one_in(2) { w.task } else { any_id(rng) };
    let marked = waits::marked(t, rng.below(64));
    let cookie = if rng.one_in(2) { w.cookie.0 } else { rng.word() as u32 };
    for call in
        [Arm(cookie, x), Arm(rng.word() as u32, TaskId { slot: 5, epoch: 9 }), Disarm(x), Signal(cookie), Take(marked), IsPending(marked)]
    {
        let (after, answer) = on_copy(t, &call, |t| waits::call(t, call));
        judge(t, is_sound, &call, &after, answer, sound::waits);
        insist(!matches!(call, IsPending(_)) || after == *t, || format!("{call} only reads, and changed the table"));
        count.calls += 1;
    }
    count.tables += 1;
    count.sound += is_sound as u64;
    count.calls += 1;
}

fn any_deadlines(rng: &mut Rng, small: bool) -> Table {
    let x = |rng: &mut Rng| {
        let t = any_id(rng);
        if small { TaskId { slot: t.slot % 70, epoch: t.epoch % 3 } } else { t }
    };
    let wild = !small && any_bool(rng);
    Table {
        entries: std::array::from_fn(|_| Entry {
            live: if wild { rng.word() as u8 } else { any_flag(rng) },
            task: x(rng),
            deadline: if small { rng.below(100) as u64 } else { rng.word() },
        }),
    }
}

fn damage_deadlines(rng: &mut Rng, t: &mut Table) {
    let (i, j) = (rng.below(16), rng.below(16));
    match rng.below(4) {
        0 => twist_flag(rng, &mut t.entries[i].live),
        1 => twist_id(rng, &mut t.entries[i].task),
        2 => t.entries[i].task = t.entries[j].task,
        _ => twisted!(rng, t.entries[i].deadline, u64),
    }
}

fn try_deadlines(rng: &mut Rng, t: &Table, count: &mut Count) {
    use deadlines::Call::*;
    let is_sound = sound::deadlines(t);
    insist(parktime::sound(t) == is_sound, || format!("parktime::sound is not {is_sound} of {t:?}"));
    let e = t.entries[rng.below(16)];
    let x = if rng.one_in(2) { e.task } else { any_id(rng) };
    let short = rng.below(16);
    for call in [Arm(x, rng.word()), Disarm(x), Poll(e.deadline, 16), Poll(u64::MAX, 20), Poll(e.deadline, short)] {
        let given: [Token; deadlines::PLACES] = std::array::from_fn(deadlines::before);
        let mut out = given;
        let (after, answer) = on_copy(t, &call, |t| deadlines::call(t, call, black_box(&mut out)));
        judge(t, is_sound, &call, &after, answer, sound::deadlines);
        let refused = matches!(answer.reply(), Reply::Refused(_));
        insist(!refused || *black_box(&mut out) == given, || format!("{call} was refused and wrote to its output"));
        insist(!matches!(call, Poll(_, ..16)) || refused, || format!("{call} was not refused"));
        count.calls += 1;
    }
    count.tables += 1;
    count.sound += is_sound as u64;
    count.calls += 1;
}

fn any_wakes(rng: &mut Rng, small: bool) -> WakeQueue {
    let number = |rng: &mut Rng| if small { rng.below(70) } else { rng.word() as usize };
    WakeQueue {
        ends: Ends {
            c: if small { rng.of(&WAKE_SIZES) } else { number(rng) },
            head: number(rng),
            tail: number(rng),
            drops: rng.word() as u32,
        },
        tokens: std::array::from_fn(|_| rng.word() as u32),
    }
}

fn damage_wakes(rng: &mut Rng, q: &mut WakeQueue) {
    match rng.below(5) {
        0 => twisted!(rng, q.ends.c, usize),
        1 => twisted!(rng, q.ends.head, usize),
        2 => twisted!(rng, q.ends.tail, usize),
        3 => twisted!(rng, q.ends.drops, u32),
        _ => twisted!(rng, q.tokens[rng.below(64)], u32),
    }
}

fn try_wakes(rng: &mut Rng, q: &WakeQueue, count: &mut Count) {
    use wakes::Call::*;
    let is_sound = sound::wakes(q);
    insist(wake::sound(q) == is_sound, || format!("wake::sound is not {is_sound} of {q:?}"));
    let size = any_size(rng);
    made(q, size, WAKE_SIZES.contains(&size).then(|| WakeQueue::new(size).expect("the size is listed")), wake::init);
    for call in [Push(rng.word() as u32), Pop, Drops, IsEmpty] {
        let (after, answer) = on_copy(q, &call, |q| wakes::call(q, call));
        judge(q, is_sound, &call, &after, answer, sound::wakes);
        insist(!matches!(call, Drops | IsEmpty) || after == *q, || format!("{call} only reads, and changed the queue"));
        count.calls += 1;
    }
    count.tables += 1;
    count.sound += is_sound as u64;
    count.calls += 2;
}

fn any_ring(rng: &mut Rng, small: bool) -> RunQueue {
    let number = |rng: &mut Rng| if small { rng.below(66) } else { rng.word() as usize };
    RunQueue {
        span: Span { n: number(rng), head: number(rng), len: number(rng) },
        slots: std::array::from_fn(|_| rng.word() as u16),
        epochs: std::array::from_fn(|_| rng.word() as u16),
    }
}

fn damage_ring(rng: &mut Rng, q: &mut RunQueue) {
    match rng.below(5) {
        0 => twisted!(rng, q.span.n, usize),
        1 => twisted!(rng, q.span.head, usize),
        2 => twisted!(rng, q.span.len, usize),
        3 => twisted!(rng, q.slots[rng.below(64)], u16),
        _ => twisted!(rng, q.epochs[rng.below(64)], u16),
    }
}

fn try_ring(rng: &mut Rng, q: &RunQueue, count: &mut Count) {
    use ring::Call::*;
    let is_sound = sound::ring(q);
    insist(runqueue::sound(q) == is_sound, || format!("runqueue::sound is not {is_sound} of {q:?}"));
    let size = any_size(rng);
    made(q, size, listed(size).then(|| RunQueue::new(size).expect("the size is listed")), runqueue::init);
    let (x, at, requeue) = (any_id(rng), rng.below(70), no_flag(rng));
    nameless(q, format!("a requeue of {requeue}"), |q| runqueue::after_yield(q, requeue, x));
    for call in [Enqueue(x), Dequeue, AfterYield(None), AfterYield(Some(x)), Capacity, Len, IsEmpty, IsFull, Front, ReadyAt(at)] {
        let (after, answer) = on_copy(q, &call, |q| ring::call(q, call));
        judge(q, is_sound, &call, &after, answer, sound::ring);
        let reads = !matches!(call, Enqueue(_) | Dequeue | AfterYield(_));
        insist(!reads || after == *q, || format!("{call} only reads, and changed the ring"));
        count.calls += 1;
    }
    count.tables += 1;
    count.sound += is_sound as u64;
    count.calls += 3;
}

// ---- where tables come from

/// A walk of random calls on one kind of table, begun afresh now and then; each step reaches a sound table.
struct Walk<P: Pair> {
    pair: P,
    left: usize,
    bias: usize,
    sizes: Vec<usize>,
}

impl<P: Pair> Walk<P> {
    fn new(sizes: Vec<usize>) -> Self {
        let pair = P::fresh(Setup { size: sizes[0], late: false });
        Walk { pair, left: 0, bias: 0, sizes }
    }

    fn on(&mut self, rng: &mut Rng) -> &P {
        if self.left == 0 {
            self.pair = P::fresh(Setup { size: rng.of(&self.sizes), late: rng.one_in(4) });
            (self.left, self.bias) = (rng.of(&[10, 50, 300]), rng.below(P::BIASES.len()));
        }
        self.left -= 1;
        let call = self.pair.pick(rng, self.bias);
        insist(self.pair.step(call).is_ok(), || format!("{call} differs from the Rust: see the program calls"));
        &self.pair
    }
}

/// None, one, two or three changes; mostly one.
fn damaged<T>(rng: &mut Rng, t: &mut T, damage: impl Fn(&mut Rng, &mut T)) {
    for _ in 0..rng.of(&[0, 1, 1, 1, 1, 2, 2, 3]) {
        damage(rng, t);
    }
}

fn main() {
    let args: Vec<String> = std::env::args().skip(1).collect();
    let number = |i: usize, otherwise| args.get(i).map_or(otherwise, |a| a.parse::<u64>().expect("a number"));
    let (seed, goal) = match args.first().map(String::as_str) {
        Some("short") => (7, 100_000),
        Some("long") => (number(1, 7), number(2, 2_000_000)),
        _ => {
            eprintln!("damage short | damage long SEED [TABLES]");
            exit(2)
        }
    };
    let rng = &mut Rng::new(seed);
    let mut walked_tasks = Walk::<tasks::Both>::new((1..=64).collect());
    let mut walked_waits = Walk::<waits::Both>::new(vec![0]);
    let mut walked_deadlines = Walk::<deadlines::Both>::new(vec![0]);
    let mut walked_wakes = Walk::<wakes::Both>::new(WAKE_SIZES.to_vec());
    let mut walked_rings = Walk::<ring::Both>::new((1..=64).collect());
    let [mut of_tasks, mut of_waits, mut of_deadlines, mut of_wakes, mut of_rings]: [Count; 5] = Default::default();
    for _ in 0..goal / 10 {
        // six task tables for one of each other kind
        for source in 0..6 {
            let mut t = match source {
                0..3 => walked_tasks.on(rng).ours().clone(),
                3 => fitted_tasks(rng),
                4 if rng.one_in(4) => fresh_tasks(rng),
                4 => small_tasks(rng),
                _ if rng.one_in(2) => any_tasks(rng),
                _ => fitted_tasks(rng),
            };
            damaged(rng, &mut t, damage_tasks);
            try_tasks(rng, &t, &mut of_tasks);
        }
        let source = rng.below(4);
        let mut t = if source < 2 { walked_waits.on(rng).ours().clone() } else { any_waits(rng, source == 2) };
        damaged(rng, &mut t, damage_waits);
        try_waits(rng, &t, &mut of_waits);
        let mut t = if source < 2 { walked_deadlines.on(rng).ours().clone() } else { any_deadlines(rng, source == 2) };
        damaged(rng, &mut t, damage_deadlines);
        try_deadlines(rng, &t, &mut of_deadlines);
        let mut q = if source < 2 { walked_wakes.on(rng).ours().clone() } else { any_wakes(rng, source == 2) };
        damaged(rng, &mut q, damage_wakes);
        try_wakes(rng, &q, &mut of_wakes);
        let mut q = if source < 2 { walked_rings.on(rng).ours().clone() } else { any_ring(rng, source == 2) };
        damaged(rng, &mut q, damage_ring);
        try_ring(rng, &q, &mut of_rings);
    }
    let kinds = [("task", of_tasks), ("wait", of_waits), ("deadline", of_deadlines), ("wake", of_wakes), ("ring", of_rings)];
    let total: u64 = kinds.iter().map(|(_, c)| c.tables).sum();
    let each: Vec<String> = kinds.iter().map(|(k, c)| format!("{k} {} ({} sound, {} calls)", c.tables, c.sound, c.calls)).collect();
    println!("1 exactly for what is not sound, and refused tables as they were: {total} tables (seed {seed}): {}", each.join("; "));
}
