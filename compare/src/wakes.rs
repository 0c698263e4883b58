//! The queue of wake tokens on both sides.

use crate::pair::{Pair, Setup};
use crate::rng::Rng;
use crate::same;
use bredumalt::{Answer, Reply, Token, WakeQueue, wake};
use oracle::plain::WAKE_SIZES;
use oracle::wake::WakeQueue as Theirs;
use std::fmt;
use std::hash::{DefaultHasher, Hash};

#[derive(Clone, Copy, Debug)]
pub enum Call {
    Push(u32),
    Pop,
    Drops,
    IsEmpty,
}

use Call::*;

impl fmt::Display for Call {
    fn fmt(&self, f: &mut fmt::Formatter) -> fmt::Result {
        match self {
            Push(t) => write!(f, "push {t}"),
            Pop => write!(f, "pop"),
            other => write!(f, "{other:?}"),
        }
    }
}

/// The customer's queue, whatever its C.
trait Queue {
    fn call(&mut self, c: Call) -> Reply;
    fn contents(&mut self) -> Vec<u32>;
    fn drops(&self) -> u32;
    fn set_drops(&mut self, v: u32);
    fn copy(&mut self) -> Box<dyn Queue>;
    fn all(&mut self, h: &mut DefaultHasher);
}

impl<const C: usize> Queue for Theirs<C> {
    fn call(&mut self, c: Call) -> Reply {
        match c {
            Push(t) => Reply::Told(self.push(t)),
            Pop => Reply::Value(self.pop().map(u64::from)),
            Drops => Reply::Number(Theirs::drops(self) as u64),
            IsEmpty => Reply::Told(self.is_empty()),
        }
    }
    fn contents(&mut self) -> Vec<u32> {
        Theirs::contents(self)
    }
    fn drops(&self) -> u32 {
        Theirs::drops(self)
    }
    fn set_drops(&mut self, v: u32) {
        Theirs::set_drops(self, v)
    }
    fn copy(&mut self) -> Box<dyn Queue> {
        Box::new(Theirs::copy(self))
    }
    fn all(&mut self, h: &mut DefaultHasher) {
        (self.places(), Theirs::drops(self)).hash(h)
    }
}

/// What our queue holds, from the oldest on.
fn contents(q: &WakeQueue) -> Vec<u32> {
    let e = q.ends;
    (0..(e.head + e.c - e.tail) % e.c).map(|i| q.tokens[(e.tail + i) % e.c]).collect()
}

pub fn call(q: &mut WakeQueue, c: Call) -> Answer {
    match c {
        Push(t) => wake::push(q, Token(t)),
        Pop => wake::pop(q),
        Drops => wake::drops(q),
        IsEmpty => wake::is_empty(q),
    }
}

pub struct Both {
    theirs: Box<dyn Queue>,
    ours: WakeQueue,
}

impl Both {
    pub fn ours(&self) -> &WakeQueue {
        &self.ours
    }
}

impl Pair for Both {
    type Call = Call;
    const NAME: &'static str = "wake queue";
    const BIASES: &'static [&'static str] = &["even", "full", "empty"];

    fn listed(size: usize) -> bool {
        WAKE_SIZES.contains(&size)
    }

    fn fresh(setup: Setup) -> Self {
        let mut theirs: Box<dyn Queue> = match setup.size {
            2 => Box::new(Theirs::<2>::new()),
            4 => Box::new(Theirs::<4>::new()),
            8 => Box::new(Theirs::<8>::new()),
            16 => Box::new(Theirs::<16>::new()),
            32 => Box::new(Theirs::<32>::new()),
            64 => Box::new(Theirs::<64>::new()),
            c => panic!("no wake queue has {c} places"),
        };
        let mut ours = WakeQueue::new(setup.size).expect("the size is listed");
        if setup.late {
            theirs.set_drops(u32::MAX - 2);
            ours.ends.drops = u32::MAX - 2;
        }
        Both { theirs, ours }
    }

    fn step(&mut self, c: Call) -> Result<(), String> {
        let expected = self.theirs.call(c);
        same("answer", expected, call(&mut self.ours, c).reply())?;
        same("drops", self.theirs.drops(), self.ours.ends.drops)?;
        same("contents", self.theirs.contents(), contents(&self.ours))
    }

    fn pick(&self, rng: &mut Rng, bias: usize) -> Call {
        let weights = [[4, 3, 1, 1], [12, 6, 1, 1], [3, 4, 1, 1]][bias];
        match rng.weighted(&weights) {
            0 if rng.one_in(8) => Push(rng.of(&[0, 1, u32::MAX])),
            0 => Push(rng.word() as u32),
            1 => Pop,
            2 => Drops,
            _ => IsEmpty,
        }
    }

    fn copy(&mut self) -> Self {
        Both { theirs: self.theirs.copy(), ours: self.ours.clone() }
    }

    fn all(&mut self, h: &mut DefaultHasher) {
        self.theirs.all(h);
        let e = self.ours.ends;
        (e.c, e.head, e.tail, e.drops, self.ours.tokens).hash(h);
    }

    fn every(&self) -> Vec<Call> {
        vec![Push(1), Push(u32::MAX), Pop, Drops, IsEmpty]
    }
}
