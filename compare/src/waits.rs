//! The table of interrupt waits on both sides.

use crate::pair::{Pair, Setup};
use crate::rng::Rng;
use crate::{flagged, id, named, reply, same, their};
use bredumalt::{Answer, Cookie, Reply, TaskId, WaitTable, irqwait};
use oracle::guarded::Refusal;
use oracle::irqwait::WaitTable as Theirs;
use std::fmt;
use std::hash::{DefaultHasher, Hash};

#[derive(Clone, Copy, Debug)]
pub enum Call {
    Arm(u32, TaskId),
    Disarm(TaskId),
    Signal(u32),
    Take(TaskId),
    IsPending(TaskId),
}

use Call::*;

impl fmt::Display for Call {
    fn fmt(&self, f: &mut fmt::Formatter) -> fmt::Result {
        match *self {
            Arm(c, t) => write!(f, "irq {c} {t}"),
            Disarm(t) => write!(f, "unirq {t}"),
            Signal(c) => write!(f, "signal {c}"),
            Take(t) => write!(f, "take {t}"),
            IsPending(t) => write!(f, "is pending {t}"),
        }
    }
}

fn theirs_call(t: &mut Theirs, c: Call) -> Result<Reply, Refusal> {
    Ok(match c {
        Arm(c, x) => {
            t.arm(c, their(x))?;
            Reply::Done
        }
        Disarm(x) => {
            t.disarm_task(their(x));
            Reply::Done
        }
        Signal(c) => named(t.signal(c)),
        Take(x) => Reply::Told(t.take_pending(their(x))),
        IsPending(x) => Reply::Told(t.is_pending(their(x))),
    })
}

/// The id that stands beside the mark of a slot.
pub fn marked(t: &WaitTable, slot: usize) -> TaskId {
    TaskId { slot: t.pending_slots[slot], epoch: t.pending_epochs[slot] }
}

/// Entries and marks, each in its place.
fn compare(r: &Theirs, t: &WaitTable) -> Result<(), String> {
    for (i, w) in t.waiters.all.iter().enumerate() {
        let what = format!("entry {i}");
        same(&what, r.entry(i).map(|(c, x)| (c, id(x))), flagged(&what, w.live, (w.cookie.0, w.task))?)?;
    }
    for slot in 0..64 {
        let (theirs, flag) = (r.mark(slot).map(id), t.pending[slot]);
        if flag > 1 || theirs != (flag == 1).then_some(marked(t, slot)) {
            let what = format!("mark of slot {slot}");
            same(&what, theirs, flagged(&what, flag, marked(t, slot))?)?;
        }
    }
    Ok(())
}

pub fn call(t: &mut WaitTable, c: Call) -> Answer {
    match c {
        Arm(c, x) => irqwait::arm(t, Cookie(c), x),
        Disarm(x) => irqwait::disarm_task(t, x),
        Signal(c) => irqwait::signal(t, Cookie(c)),
        Take(x) => irqwait::take_pending(t, x),
        IsPending(x) => irqwait::is_pending(t, x),
    }
}

pub struct Both {
    theirs: Theirs,
    ours: WaitTable,
}

impl Both {
    pub fn ours(&self) -> &WaitTable {
        &self.ours
    }
}

/// Few ids and cookies, so that calls meet, and their edges.
fn some_id(rng: &mut Rng, slots: usize) -> TaskId {
    let epoch = if rng.one_in(4) { rng.of(&[1, 65535]) } else { 0 };
    match rng.below(12) {
        0 => TaskId { slot: rng.of(&[63, 64, 65, 65535]), epoch },
        1 => TaskId { slot: rng.word() as u16, epoch: rng.word() as u16 },
        _ => TaskId { slot: rng.below(slots) as u16, epoch },
    }
}

fn some_cookie(rng: &mut Rng, cookies: usize) -> u32 {
    match rng.below(12) {
        0 => rng.of(&[0, u32::MAX]),
        1 => rng.word() as u32,
        _ => 30 + rng.below(cookies) as u32,
    }
}

impl Pair for Both {
    type Call = Call;
    const NAME: &'static str = "wait table";
    const BIASES: &'static [&'static str] = &["even", "full", "marks", "few"];

    fn fresh(_: Setup) -> Self {
        Both { theirs: Theirs::new(), ours: WaitTable::new() }
    }

    fn step(&mut self, c: Call) -> Result<(), String> {
        let expected = reply(theirs_call(&mut self.theirs, c));
        same("answer", expected, call(&mut self.ours, c).reply())?;
        compare(&self.theirs, &self.ours)
    }

    fn pick(&self, rng: &mut Rng, bias: usize) -> Call {
        let (weights, many) = [([5, 2, 4, 3, 1], 20), ([12, 1, 1, 1, 1], 40), ([6, 1, 6, 3, 2], 64), ([5, 2, 4, 3, 1], 4)][bias];
        match rng.weighted(&weights) {
            0 => Arm(some_cookie(rng, many), some_id(rng, many)),
            1 => Disarm(some_id(rng, many)),
            2 => Signal(some_cookie(rng, many)),
            3 => Take(some_id(rng, many)),
            _ => IsPending(some_id(rng, many)),
        }
    }

    fn copy(&mut self) -> Self {
        Both { theirs: self.theirs.clone(), ours: self.ours.clone() }
    }

    fn all(&mut self, h: &mut DefaultHasher) {
        format!("{:?}", self.theirs).hash(h);
        for w in self.ours.waiters.all {
            (w.live, w.cookie, w.task).hash(h);
        }
        (self.ours.pending, self.ours.pending_slots, self.ours.pending_epochs).hash(h);
    }

    /// Two cookies, two slots, one of them with two tenants.
    fn every(&self) -> Vec<Call> {
        let ids = [(2, 0), (2, 1), (63, 65535), (64, 0)].map(|(slot, epoch)| TaskId { slot, epoch });
        let mut calls = vec![Signal(30), Signal(31)];
        for x in ids {
            calls.extend([Arm(30, x), Arm(31, x), Disarm(x), Take(x), IsPending(x)]);
        }
        calls
    }
}
