//! The twin of the program `cases`: the same groups on the customer's Rust. Lines that begin with `ours` are of refusals that
//! the Rust does not have; they come from document 01's rules, as `oracle::guarded` and `oracle::plain` read them, independently of
//! the Rattle code. So does the script program, which the lines that begin with `script` are outputs of.

mod script;
mod table;

use oracle::for_size;
use oracle::guarded::{self, Refusal};
use oracle::irqwait::WaitTable;
use oracle::parktime::Table;
use oracle::plain::{self, WAKE_SIZES, listed};
use oracle::runqueue::{RunQueue, TaskId};
use oracle::wake::WakeQueue;

type Line = String;

fn word(l: &mut Line, w: impl std::fmt::Display) {
    l.push_str(&format!(" {w}"));
}

fn id(t: TaskId) -> String {
    format!("{}/{}", t.slot(), t.epoch())
}

fn maybe(t: Option<TaskId>) -> String {
    t.map_or("-".into(), id)
}

/// What a call answers, or a mark and the number of its refusal.
fn said<T, E: Into<Refusal>>(answer: Result<T, E>, shown: impl FnOnce(T) -> String) -> String {
    answer.map_or_else(|e| format!("!{}", e.into().0), shown)
}

fn done(answer: Result<(), impl Into<Refusal>>) -> String {
    said(answer, |()| "ok".into())
}

/// A maker's answer: 2 unless the size is listed.
fn made(l: &mut Line, listed: bool) {
    word(l, if listed { "ok" } else { "!2" });
}

/// The answer of each of so many calls on a table that is not sound.
fn unsound(l: &mut Line, calls: usize) {
    for _ in 0..calls {
        word(l, "!1");
    }
}

// ---- ids and the ring

fn packing() -> Line {
    let mut l = Line::from("id pack");
    for (s, e) in [(3, 2), (65535, 65535)] {
        let raw = TaskId::new(s, e).to_raw();
        word(&mut l, raw);
        word(&mut l, id(TaskId::from_raw(raw)));
    }
    word(&mut l, id(TaskId::from_raw(65536)));
    word(&mut l, id(TaskId::from_raw(65535)));
    let idle = oracle::tasks::Tasks::<1>::IDLE;
    word(&mut l, idle.to_raw());
    word(&mut l, idle.slot());
    word(&mut l, idle.epoch());
    l
}

#[derive(Clone)]
struct Ring<const N: usize>(RunQueue<N>);

impl<const N: usize> Ring<N> {
    /// A ring that starts at a place and holds so many zeros.
    fn zeros(head: usize, len: usize) -> Self {
        let zero = TaskId::from_raw(0);
        let mut q = RunQueue::new();
        for _ in 0..head {
            q.enqueue(zero).unwrap();
            q.dequeue();
        }
        for _ in 0..len {
            q.enqueue(zero).unwrap();
        }
        Ring(q)
    }
    fn put(&mut self, l: &mut Line, s: u16, e: u16) {
        word(l, done(self.0.enqueue(TaskId::new(s, e))));
    }
    fn take(&mut self, l: &mut Line) {
        word(l, maybe(self.0.dequeue()));
    }
    fn onward(&mut self, l: &mut Line, who: Option<(u16, u16)>) {
        word(l, said(self.0.after_yield(who.map(|(s, e)| TaskId::new(s, e))), maybe));
    }
    fn tests(&self, l: &mut Line) {
        word(l, self.0.capacity());
        word(l, self.0.len());
        word(l, self.0.is_empty());
        word(l, self.0.is_full());
        word(l, maybe(self.0.front()));
    }
    fn at(&self, l: &mut Line, i: usize) {
        let mut all = Vec::new();
        self.0.for_each_ready(|t| all.push(t));
        word(l, maybe(all.get(i).copied()));
    }
    fn four(&self, l: &mut Line) {
        for i in 0..4 {
            self.at(l, i);
        }
    }
}

fn of_one() -> Line {
    let mut l = Line::from("ring of 1");
    let mut q = Ring::<1>(RunQueue::new());
    q.tests(&mut l);
    q.put(&mut l, 5, 1);
    q.tests(&mut l);
    q.put(&mut l, 6, 1);
    q.onward(&mut l, Some((6, 1)));
    q.take(&mut l);
    q.take(&mut l);
    q.onward(&mut l, None);
    q.onward(&mut l, Some((7, 2)));
    q.tests(&mut l);
    l
}

fn of_three() -> Line {
    let mut l = Line::from("ring of 3");
    let mut q = Ring::<3>(RunQueue::new());
    for s in 1..4 {
        q.put(&mut l, s, 0);
    }
    q.four(&mut l);
    q.take(&mut l);
    q.put(&mut l, 4, 0);
    q.put(&mut l, 5, 0);
    q.four(&mut l);
    q.take(&mut l);
    q.onward(&mut l, Some((6, 9)));
    q.onward(&mut l, Some((7, 9)));
    q.four(&mut l);
    q.take(&mut l);
    q.take(&mut l);
    q.tests(&mut l);
    l
}

fn of_64() -> Line {
    let mut l = Line::from("ring of 64");
    let mut q = Ring::<64>(RunQueue::new());
    for i in 0..63 {
        q.0.enqueue(TaskId::new(i, 65535)).unwrap();
    }
    q.tests(&mut l);
    q.put(&mut l, 63, 1);
    q.put(&mut l, 64, 1);
    q.tests(&mut l);
    q.take(&mut l);
    q.put(&mut l, 65, 1);
    q.put(&mut l, 66, 1);
    for i in [62, 63, 64] {
        q.at(&mut l, i);
    }
    word(&mut l, maybe(q.0.front()));
    l
}

/// Beside 2 we hand back an empty ring of one place.
fn ring_sizes() -> Line {
    let mut l = Line::from("ours ring sizes");
    for n in [0, 1, 64, 65, usize::MAX] {
        made(&mut l, listed(n));
        for_size!(if listed(n) { n } else { 1 }, N => Ring::<N>(RunQueue::new()).tests(&mut l));
    }
    l
}

/// The reads of a ring, and each call that changes it with what it leaves of n, head and length.
fn ring_calls<const N: usize>(l: &mut Line, q: Ring<N>) {
    let numbers = |l: &mut Line, q: Ring<N>| word(l, format!("{N} {} {}", q.0.head(), q.0.len()));
    q.tests(l);
    q.at(l, 0);
    let mut a = q.clone();
    a.put(l, 1, 1);
    numbers(l, a);
    let mut b = q.clone();
    b.take(l);
    numbers(l, b);
    let mut c = q;
    c.onward(l, Some((2, 2)));
    numbers(l, c);
}

fn ring_damaged() -> Line {
    let mut l = Line::from("ours ring damaged");
    for (n, head, len) in [(0, 0, 0), (65, 0, 0), (4, 4, 0), (4, 3, 5), (4, 3, 4), (usize::MAX, usize::MAX, usize::MAX)] {
        let sound = plain::ring_sound(n, head, len);
        word(&mut l, sound);
        if sound {
            for_size!(n, N => ring_calls(&mut l, Ring::<N>::zeros(head, len)));
        } else {
            unsound(&mut l, 6);
            for _ in 0..3 {
                word(&mut l, format!("!1 {n} {head} {len}"));
            }
        }
    }
    l
}

// ---- the wake queue

fn popped(t: Option<u32>) -> String {
    t.map_or("-".into(), |t| t.to_string())
}

fn one_size<const C: usize>() -> Line {
    let mut l = format!("wake of {C}");
    let q = WakeQueue::<C>::new();
    let hold = C as u32 - 2;
    word(&mut l, q.is_empty());
    word(&mut l, popped(q.pop()));
    for i in 1..=hold {
        q.push(i);
    }
    for t in [1000, u32::MAX, 1001] {
        word(&mut l, q.push(t));
    }
    word(&mut l, q.drops());
    word(&mut l, q.is_empty());
    word(&mut l, popped(q.pop()));
    word(&mut l, q.push(1002));
    for _ in 0..hold {
        q.pop();
    }
    word(&mut l, popped(q.pop()));
    word(&mut l, popped(q.pop()));
    word(&mut l, q.drops());
    word(&mut l, q.is_empty());
    l
}

fn wake_drops() -> Line {
    let mut l = Line::from("wake drops");
    let q = WakeQueue::<2>::new();
    q.set_drops(u32::MAX - 1);
    word(&mut l, q.push(1));
    for t in [2, 3, 4] {
        word(&mut l, q.push(t));
        word(&mut l, q.drops());
    }
    word(&mut l, popped(q.pop()));
    word(&mut l, q.drops());
    l
}

/// Beside 2 we hand back an empty queue of two places.
fn wake_sizes() -> Line {
    let mut l = Line::from("ours wake sizes");
    for c in [0, 1, 2, 3, 4, 5, 7, 8, 9, 15, 16, 17, 31, 32, 33, 63, 64, 65, 128, usize::MAX] {
        made(&mut l, WAKE_SIZES.contains(&c));
    }
    const LEAST: usize = WAKE_SIZES[0];
    word(&mut l, LEAST);
    word(&mut l, WakeQueue::<LEAST>::new().is_empty());
    l
}

/// The reads of an empty queue with both indexes at a place, and each call that changes it with what it leaves of it.
fn wake_calls<const C: usize>(l: &mut Line, at: usize, drops: u32) {
    let mut q = WakeQueue::<C>::new();
    q.set_drops(drops);
    for _ in 0..at {
        q.push(0);
        q.pop();
    }
    let numbers = |l: &mut Line, q: &mut WakeQueue<C>| {
        let (_, head, tail) = q.places();
        word(l, format!("{C} {head} {tail} {}", q.drops()));
    };
    word(l, q.drops());
    word(l, q.is_empty());
    let mut a = q.copy();
    word(l, a.push(1));
    numbers(l, &mut a);
    word(l, popped(q.pop()));
    numbers(l, &mut q);
}

fn wake_damaged() -> Line {
    let mut l = Line::from("ours wake damaged");
    let drops = 9;
    for (c, head, tail) in [(3, 0, 0), (0, 0, 0), (4, 4, 0), (4, 0, 4), (4, 3, 3), (usize::MAX, 0, 0)] {
        let sound = plain::wakes_sound(c, head, tail);
        word(&mut l, sound);
        if sound {
            assert!(c == 4 && head == tail, "the one sound queue here is empty and has four places");
            wake_calls::<4>(&mut l, head, drops);
        } else {
            unsound(&mut l, 2);
            for _ in 0..2 {
                word(&mut l, format!("!1 {c} {head} {tail} {drops}"));
            }
        }
    }
    l
}

// ---- interrupt waits

struct Waits(WaitTable, Line);

impl Waits {
    fn new(name: &str) -> Self {
        Self(WaitTable::new(), name.into())
    }
    fn arm(&mut self, c: u32, s: u16, e: u16) {
        let r = self.0.arm(c, TaskId::new(s, e));
        word(&mut self.1, done(r));
    }
    fn disarm(&mut self, s: u16, e: u16) {
        self.0.disarm_task(TaskId::new(s, e));
        word(&mut self.1, "ok");
    }
    fn signal(&mut self, c: u32) {
        let r = self.0.signal(c);
        word(&mut self.1, maybe(r));
    }
    fn take(&mut self, s: u16, e: u16) {
        let r = self.0.take_pending(TaskId::new(s, e));
        word(&mut self.1, r);
    }
    fn pending(&mut self, s: u16, e: u16) {
        let r = self.0.is_pending(TaskId::new(s, e));
        word(&mut self.1, r);
    }
}

fn wait_arm() -> Line {
    let mut t = Waits::new("wait arm");
    for (c, s, e) in [
        (30, 63, 0),
        (31, 64, 0),
        (31, 65535, 65535),
        (30, 64, 0),
        (31, 3, 0),
        (31, 63, 0),
        (30, 3, 0),
        (30, 63, 0),
        (32, 63, 0),
        (32, 63, 1),
    ] {
        t.arm(c, s, e);
    }
    t.signal(32);
    t.pending(63, 1);
    t.pending(63, 0);
    t.pending(64, 0);
    t.take(65535, 65535);
    t.1
}

fn wait_full() -> Line {
    let mut t = Waits::new("wait full");
    for i in 0..6 {
        t.arm(i as u32, i, 0);
    }
    t.arm(u32::MAX, 6, 65535);
    t.arm(7, 7, 0);
    t.arm(8, 8, 0);
    t.arm(7, 0, 0);
    t.signal(3);
    t.disarm(1, 0);
    t.arm(9, 9, 0);
    t.arm(10, 10, 0);
    t.arm(11, 11, 0);
    t.arm(10, 9, 0);
    t.arm(9, 10, 0);
    t.disarm(50, 0);
    t.signal(77);
    t.signal(u32::MAX);
    t.1
}

fn wait_marks() -> Line {
    let mut t = Waits::new("wait marks");
    t.arm(1, 2, 0);
    t.signal(1);
    t.take(2, 1);
    t.pending(2, 0);
    t.arm(1, 2, 1);
    t.signal(1);
    t.take(2, 0);
    t.pending(2, 1);
    t.take(2, 1);
    t.take(2, 1);
    t.signal(1);
    t.take(64, 0);
    t.1
}

/// Each of these six tables breaks one clause: every call answers 1, and entries 0 and 1 and mark 5 come back as they were. An entry is
/// its flag, its cookie and its task, which is of epoch 0, by its slot; a mark is its flag and its task.
fn wait_damaged() -> Line {
    let mut l = Line::from("ours wait damaged");
    for (entries, mark) in [
        ([(1, 7, 2), (1, 7, 3)], (0, 0)),
        ([(1, 7, 2), (1, 8, 2)], (0, 0)),
        ([(1, 7, 2), (1, 8, 64)], (0, 0)),
        ([(1, 7, 2), (3, 8, 3)], (0, 0)),
        ([(0, 0, 0); 2], (1, 6)),
        ([(0, 0, 0); 2], (2, 5)),
    ] {
        let mut marks = [(0, (0, 0)); 64];
        marks[5] = (mark.0, (mark.1, 0));
        let sound = plain::waits_sound(&entries.map(|(live, cookie, slot)| (live, cookie, (slot, 0))), &marks);
        assert!(!sound, "{entries:?} {mark:?} is sound");
        word(&mut l, sound);
        unsound(&mut l, 5);
        for (live, cookie, slot) in entries {
            word(&mut l, format!("{live} {cookie} {}", id(TaskId::new(slot, 0))));
        }
        word(&mut l, format!("{} {}", mark.0, id(TaskId::new(mark.1, 0))));
    }
    l
}

// ---- deadlines

struct Parks(Table, Line);

impl Parks {
    fn new(name: &str) -> Self {
        Self(Table::new(), name.into())
    }
    fn arm(&mut self, s: u16, e: u16, d: u64) {
        let r = self.0.arm(TaskId::new(s, e), d);
        word(&mut self.1, done(r));
    }
    fn disarm(&mut self, s: u16, e: u16) {
        self.0.disarm(TaskId::new(s, e));
        word(&mut self.1, "ok");
    }
    /// A poll with an output of so many places, each of them [`BEFORE`] until it is written to.
    fn polled<const PLACES: usize>(&mut self, now: u64) -> [u32; PLACES] {
        let mut out = [BEFORE; PLACES];
        let r = guarded::poll(&mut self.0, now, &mut out);
        word(&mut self.1, said(r, |n| n.to_string()));
        out
    }
    fn poll(&mut self, now: u64) {
        let out = self.polled::<17>(now);
        ids(&mut self.1, &out[..3]);
    }
}

const BEFORE: u32 = 9;

fn ids(l: &mut Line, raw: &[u32]) {
    for &raw in raw {
        word(l, id(TaskId::from_raw(raw)));
    }
}

fn park_poll() -> Line {
    let mut t = Parks::new("park poll");
    t.poll(u64::MAX);
    t.arm(1, 0, 100);
    for now in [99, 100, 101] {
        t.poll(now);
    }
    t.arm(65535, 65535, 100);
    t.arm(2, 0, 101);
    t.arm(3, 0, 99);
    t.arm(2, 1, 0);
    for now in [100, 0, 101] {
        t.poll(now);
    }
    t.arm(4, 0, u64::MAX);
    t.poll(u64::MAX - 1);
    t.poll(u64::MAX);
    t.1
}

fn park_full() -> Line {
    let mut t = Parks::new("park full");
    for s in 20..35 {
        t.0.arm(TaskId::new(s, 7), s as u64).unwrap();
    }
    t.arm(1, 0, 500);
    t.arm(2, 0, 500);
    t.arm(1, 0, 600);
    t.arm(22, 7, 700);
    t.disarm(25, 7);
    t.disarm(25, 7);
    t.disarm(21, 7);
    t.arm(3, 0, 1);
    t.arm(4, 0, 2);
    t.arm(5, 0, 3);
    for now in [3, 600, 700] {
        t.poll(now);
    }
    t.1
}

/// Outputs of 15, 16 and 17 places: a few of their places after the poll.
fn park_outputs() -> Line {
    let mut t = Parks::new("ours park outputs");
    t.arm(6, 1, 100);
    let out = t.polled::<15>(100);
    word(&mut t.1, format!("{} {}", out[0], out[14]));
    let out = t.polled::<16>(100);
    word(&mut t.1, format!("{} {} {}", out[0], out[1], out[15]));
    t.arm(6, 2, 100);
    t.poll(100);
    t.1
}

/// A task with two deadlines, and a flag that is none: arm, disarm and two polls answer 1, and outputs and entries come back as they
/// were. An entry is its flag, its task and its deadline.
fn park_damaged() -> Line {
    let mut l = Line::from("ours park damaged");
    for entries in [[(1, (4, 4), 10), (1, (4, 4), 11)], [(1, (4, 4), 10), (2, (5, 4), 11)]] {
        let sound = plain::deadlines_sound(&entries.map(|(live, task, _)| (live, task)));
        assert!(!sound, "{entries:?} is sound");
        word(&mut l, sound);
        unsound(&mut l, 3);
        ids(&mut l, &[BEFORE; 3]);
        unsound(&mut l, 1);
        word(&mut l, format!("{BEFORE} {BEFORE}"));
        for (live, (slot, epoch), deadline) in entries {
            word(&mut l, format!("{live} {} {deadline}", id(TaskId::new(slot, epoch))));
        }
    }
    l
}

fn main() {
    for line in [
        packing(),
        of_one(),
        of_three(),
        of_64(),
        ring_sizes(),
        ring_damaged(),
        one_size::<2>(),
        one_size::<4>(),
        one_size::<8>(),
        one_size::<16>(),
        one_size::<32>(),
        one_size::<64>(),
        wake_drops(),
        wake_sizes(),
        wake_damaged(),
        wait_arm(),
        wait_full(),
        wait_marks(),
        wait_damaged(),
        park_poll(),
        park_full(),
        park_outputs(),
        park_damaged(),
    ]
    .into_iter()
    .chain(table::lines())
    .chain(script::lines())
    {
        println!("{line}");
    }
}
