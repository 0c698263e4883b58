//! The sixteen deadlines on both sides.

use crate::pair::{Pair, Setup};
use crate::rng::Rng;
use crate::{flagged, id, reply, same, their};
use bredumalt::{Answer, Reply, Table, TaskId, Token, parktime};
use oracle::guarded::{self, Refusal};
use oracle::parktime::Table as Theirs;
use std::fmt;
use std::hash::{DefaultHasher, Hash};

#[derive(Clone, Copy, Debug)]
pub enum Call {
    Arm(TaskId, u64),
    Disarm(TaskId),
    /// Poll at a time, with an output of so many places.
    Poll(u64, usize),
}

use Call::*;

impl fmt::Display for Call {
    fn fmt(&self, f: &mut fmt::Formatter) -> fmt::Result {
        match *self {
            Arm(t, d) => write!(f, "park {t} {d}"),
            Disarm(t) => write!(f, "unpark {t}"),
            Poll(now, places) => write!(f, "poll {now} ({places} places)"),
        }
    }
}

/// The longest output tried, and what it holds before a poll.
pub const PLACES: usize = 20;

pub fn before(i: usize) -> Token {
    Token(0xabcd_0000 + i as u32)
}

fn theirs_call(t: &mut Theirs, c: Call, out: &mut [u32]) -> Result<Reply, Refusal> {
    Ok(match c {
        Arm(x, d) => {
            t.arm(their(x), d)?;
            Reply::Done
        }
        Disarm(x) => {
            t.disarm(their(x));
            Reply::Done
        }
        Poll(now, places) => Reply::Number(guarded::poll(t, now, &mut out[..places])? as u64),
    })
}

pub fn call(t: &mut Table, c: Call, out: &mut [Token]) -> Answer {
    match c {
        Arm(x, d) => parktime::arm(t, x, d),
        Disarm(x) => parktime::disarm(t, x),
        Poll(now, places) => parktime::poll(t, now, &mut out[..places]),
    }
}

pub struct Both {
    theirs: Theirs,
    ours: Table,
}

impl Both {
    pub fn ours(&self) -> &Table {
        &self.ours
    }
}

impl Pair for Both {
    type Call = Call;
    const NAME: &'static str = "deadlines";
    const BIASES: &'static [&'static str] = &["even", "full", "few"];

    fn fresh(_: Setup) -> Self {
        Both { theirs: Theirs::new(), ours: Table::new() }
    }

    fn step(&mut self, c: Call) -> Result<(), String> {
        let mut out: [Token; PLACES] = std::array::from_fn(before);
        let mut expected = out.map(|token| token.0);
        let answered = reply(theirs_call(&mut self.theirs, c, &mut expected));
        let answer = call(&mut self.ours, c, &mut out);
        same("answer", answered, answer.reply())?;
        same("output", expected, out.map(|token| token.0))?;
        for (i, e) in self.ours.entries.iter().enumerate() {
            let what = format!("entry {i}");
            same(&what, self.theirs.entry(i).map(|(x, d)| (id(x), d)), flagged(&what, e.live, (e.task, e.deadline))?)?;
        }
        Ok(())
    }

    fn pick(&self, rng: &mut Rng, bias: usize) -> Call {
        let (weights, many) = [([5, 2, 2], 24), ([16, 1, 1], 40), ([4, 2, 2], 4)][bias];
        let x = match rng.below(12) {
            0 => TaskId { slot: rng.word() as u16, epoch: rng.word() as u16 },
            1 => TaskId { slot: rng.of(&[0, 65535]), epoch: rng.of(&[0, 65535]) },
            _ => TaskId { slot: rng.below(many) as u16, epoch: rng.below(2) as u16 },
        };
        let time = match rng.below(10) {
            0 => rng.of(&[0, u64::MAX, u64::MAX - 1, 1 << 32]),
            1 => rng.word(),
            _ => rng.below(60) as u64,
        };
        match rng.weighted(&weights) {
            0 => Arm(x, time),
            1 => Disarm(x),
            _ => Poll(time, if rng.one_in(6) { rng.below(PLACES + 1) } else { 16 }),
        }
    }

    fn copy(&mut self) -> Self {
        Both { theirs: self.theirs.clone(), ours: self.ours.clone() }
    }

    fn all(&mut self, h: &mut DefaultHasher) {
        for i in 0..16 {
            self.theirs.entry(i).hash(h);
            let e = self.ours.entries[i];
            (e.live, e.task.slot, e.task.epoch, e.deadline).hash(h);
        }
    }

    fn every(&self) -> Vec<Call> {
        let mut calls = vec![Poll(0, 16), Poll(1, 16), Poll(2, 17), Poll(2, 15)];
        for slot in 0..3 {
            let x = TaskId { slot, epoch: 0 };
            calls.extend([Arm(x, 1), Arm(x, 2), Disarm(x)]);
        }
        calls
    }
}
