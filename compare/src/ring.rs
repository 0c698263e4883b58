//! The FIFO ring of ready tasks on both sides.

use crate::pair::{Pair, Setup};
use crate::rng::Rng;
use crate::{id, named, reply, same, their};
use bredumalt::{Answer, Reply, RunQueue, TaskId, runqueue};
use oracle::for_size;
use oracle::guarded::Refusal;
use oracle::runqueue::RunQueue as Theirs;
use std::fmt;
use std::hash::{DefaultHasher, Hash};

#[derive(Clone, Copy, Debug)]
pub enum Call {
    Enqueue(TaskId),
    Dequeue,
    AfterYield(Option<TaskId>),
    Capacity,
    Len,
    IsEmpty,
    IsFull,
    Front,
    ReadyAt(usize),
}

use Call::*;

impl fmt::Display for Call {
    fn fmt(&self, f: &mut fmt::Formatter) -> fmt::Result {
        match *self {
            Enqueue(t) => write!(f, "enqueue {t}"),
            AfterYield(t) => write!(f, "after_yield {}", t.map_or("-".into(), |t| t.to_string())),
            other => write!(f, "{other:?}"),
        }
    }
}

/// The customer's ring, whatever its size.
trait Queue {
    fn call(&mut self, c: Call) -> Result<Reply, Refusal>;
    fn contents(&self) -> Vec<TaskId>;
    fn copy(&self) -> Box<dyn Queue>;
    fn all(&self, h: &mut DefaultHasher);
}

impl<const N: usize> Queue for Theirs<N> {
    fn call(&mut self, c: Call) -> Result<Reply, Refusal> {
        Ok(match c {
            Enqueue(x) => {
                self.enqueue(their(x))?;
                Reply::Done
            }
            Dequeue => named(self.dequeue()),
            AfterYield(x) => named(self.after_yield(x.map(their))?),
            Capacity => Reply::Number(self.capacity() as u64),
            Len => Reply::Number(self.len() as u64),
            IsEmpty => Reply::Told(self.is_empty()),
            IsFull => Reply::Told(self.is_full()),
            Front => named(self.front()),
            // the Rust hands out its entries one by one
            ReadyAt(i) => Reply::Named(self.contents().get(i).copied()),
        })
    }
    fn contents(&self) -> Vec<TaskId> {
        let mut all = Vec::new();
        self.for_each_ready(|x| all.push(id(x)));
        all
    }
    fn copy(&self) -> Box<dyn Queue> {
        Box::new(self.clone())
    }
    fn all(&self, h: &mut DefaultHasher) {
        (self.places(), self.head(), self.len()).hash(h)
    }
}

fn contents(q: &RunQueue) -> Vec<TaskId> {
    let s = q.span;
    (0..s.len).map(|i| (s.head + i) % s.n).map(|p| TaskId { slot: q.slots[p], epoch: q.epochs[p] }).collect()
}

pub fn call(q: &mut RunQueue, c: Call) -> Answer {
    // beside an absent id stands one that must not count
    let other = TaskId { slot: 9, epoch: 9 };
    match c {
        Enqueue(x) => runqueue::enqueue(q, x),
        Dequeue => runqueue::dequeue(q),
        AfterYield(x) => runqueue::after_yield(q, x.is_some(), x.unwrap_or(other)),
        Capacity => runqueue::capacity(q),
        Len => runqueue::len(q),
        IsEmpty => runqueue::is_empty(q),
        IsFull => runqueue::is_full(q),
        Front => runqueue::front(q),
        ReadyAt(i) => runqueue::ready_at(q, i),
    }
}

pub struct Both {
    theirs: Box<dyn Queue>,
    ours: RunQueue,
}

impl Both {
    pub fn ours(&self) -> &RunQueue {
        &self.ours
    }
}

impl Pair for Both {
    type Call = Call;
    const NAME: &'static str = "ring";
    const BIASES: &'static [&'static str] = &["even", "full", "empty"];

    fn fresh(setup: Setup) -> Self {
        let ours = RunQueue::new(setup.size).expect("the size is listed");
        Both { theirs: for_size!(setup.size, N => Box::new(Theirs::<N>::new())), ours }
    }

    fn step(&mut self, c: Call) -> Result<(), String> {
        let expected = reply(self.theirs.call(c));
        same("answer", expected, call(&mut self.ours, c).reply())?;
        same("contents", self.theirs.contents(), contents(&self.ours))
    }

    fn pick(&self, rng: &mut Rng, bias: usize) -> Call {
        let weights = [[6, 5, 5, 3], [12, 4, 8, 3], [5, 6, 4, 3]][bias];
        let x = TaskId { slot: rng.word() as u16, epoch: rng.word() as u16 };
        match rng.weighted(&weights) {
            0 => Enqueue(x),
            1 => Dequeue,
            2 => AfterYield((!rng.one_in(3)).then_some(x)),
            _ => {
                let n = self.ours.span.n;
                let at = rng.of(&[0, n - 1, n, usize::MAX, x.slot as usize % (n + 1)]);
                rng.of(&[Capacity, Len, IsEmpty, IsFull, Front, ReadyAt(at), ReadyAt(at)])
            }
        }
    }

    fn copy(&mut self) -> Self {
        Both { theirs: self.theirs.copy(), ours: self.ours.clone() }
    }

    fn all(&mut self, h: &mut DefaultHasher) {
        self.theirs.all(h);
        let q = &self.ours;
        (q.span.n, q.span.head, q.span.len, q.slots, q.epochs).hash(h);
    }

    fn every(&self) -> Vec<Call> {
        let ids = [(1, 0), (65535, 2)].map(|(slot, epoch)| TaskId { slot, epoch });
        let mut calls = vec![Dequeue, AfterYield(None), Capacity, Len, IsEmpty, IsFull, Front];
        calls.extend(ids.map(Enqueue));
        calls.extend(ids.map(|x| AfterYield(Some(x))));
        calls.extend((0..=self.ours.span.n).map(ReadyAt));
        calls
    }
}
