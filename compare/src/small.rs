//! What random calls on one table do not reach: ids, `lifecycle`, the calls that make tables, the end of `overwrites`.

use crate::rng::Rng;
use crate::tasks::{Call, call};
use crate::{id, same};
use bredumalt::{Answer, Reply, RunQueue, Table, TaskId, Tasks, Token, Verdict, WaitTable, WakeQueue, ids};
use bredumalt::{irqwait, parktime, runqueue, tasks, wake};
use oracle::lifecycle::{CancelVerdict, ForceError, ForceVerdict, ReapError, ReapVerdict, cancel, force, reap};
use oracle::plain::{self, WAKE_SIZES};
use oracle::runqueue::TaskId as TheirId;
use oracle::tasks::{State, Switch, Tasks as TheirTasks};
use std::panic::{AssertUnwindSafe, catch_unwind};

/// Both ways of packing, at the edges and at random.
pub fn packing(rng: &mut Rng, times: u64) -> Result<u64, String> {
    for i in 0..times {
        let raw = match i {
            0..65536 => i as u32,
            65536..131072 => (i as u32) << 16,
            _ => rng.word() as u32,
        };
        let theirs = TheirId::from_raw(raw);
        same(&format!("from_raw of {raw}"), id(theirs), ids::from_raw(Token(raw)))?;
        same(&format!("to_raw of {theirs:?}"), theirs.to_raw(), ids::to_raw(id(theirs)).0)?;
    }
    Ok(2 * times)
}

/// A verdict, or the refusal in its place, by its number.
fn number(verdict: Result<Verdict, bredumalt::Refusal>) -> u8 {
    verdict.map_or_else(|refusal| refusal.number(), |verdict| verdict.number())
}

/// Every state code, those of no state included (an id that is not known), with every byte for the flag.
pub fn lifecycle() -> Result<u64, String> {
    for code in 0..=255 {
        let state = [State::Empty, State::Ready, State::Running, State::Blocked].get(code as usize).copied();
        for idle in [false, true] {
            let verdict = match reap(idle, state) {
                ReapVerdict::Cancel => 1,
                ReapVerdict::Refuse(ReapError::Idle) => 5,
                ReapVerdict::Refuse(ReapError::BadId) => 6,
                ReapVerdict::Refuse(ReapError::NotBlocked) => 7,
            };
            same(&format!("reap {idle} {state:?}"), verdict, number(bredumalt::lifecycle::reap(idle, code)))?;
            let verdict = match force(idle, state) {
                ForceVerdict::FlagAndCancel => 2,
                ForceVerdict::FlagAndNudge => 3,
                ForceVerdict::Refuse(ForceError::Idle) => 5,
                ForceVerdict::Refuse(ForceError::BadId) => 6,
                ForceVerdict::Refuse(ForceError::Empty) => 8,
            };
            same(&format!("force {idle} {state:?}"), verdict, number(bredumalt::lifecycle::force(idle, code)))?;
        }
        // a byte that is no flag is 12, whatever the state
        for flag in 2..=255 {
            let got = (bredumalt::lifecycle::reap(flag, code), bredumalt::lifecycle::force(flag, code));
            same(&format!("reap and force with a flag of {flag}"), (12, 12), (number(got.0), number(got.1)))?;
        }
        let verdict = match cancel(state) {
            CancelVerdict::MarkAndWake => 4,
            CancelVerdict::Refuse => 0,
        };
        same(&format!("cancel {state:?}"), verdict, number(bredumalt::lifecycle::cancel(code)))?;
    }
    Ok(256 * (2 * 256 + 1))
}

/// The end of `overwrites`, which is outside the domain: at an exit that displaces a parked id ours stays there, and the Rust panics,
/// since this crate is built with overflow checks. (Without them it wraps: see `oracle/src/bin/differences.rs`.)
pub fn end_of_overwrites() -> Result<u64, String> {
    let mut theirs = TheirTasks::<3>::new();
    theirs.start();
    theirs.admit();
    theirs.admit();
    theirs.switch(Switch::Yield);
    theirs.switch(Switch::Exit);
    theirs.set_overwrites(u32::MAX);
    let panics = catch_unwind(AssertUnwindSafe(|| theirs.switch(Switch::Exit))).is_err();
    let mut ours = Tasks::new(3).expect("the size is listed");
    for c in [Call::Start, Call::Admit, Call::Admit, Call::Switch(0), Call::Switch(3)] {
        call(&mut ours, c).done().expect("the calls are in order");
    }
    ours.small.overwrites = u32::MAX;
    let answer = call(&mut ours, Call::Switch(3));
    let released = matches!(answer.reply(), Reply::Switch { release: Some(TaskId { slot: 1, epoch: 0 }), .. });
    let stays = released && ours.small.overwrites == u32::MAX;
    if panics && stays { Ok(2) } else { Err(format!("at the end of overwrites: the Rust panics: {panics}; ours stays: {stays}")) }
}

/// Makers: 2 exactly for a size that is not listed, and then the zeros that lay there stay; a table that is made is sound. (That it is the
/// Rust's first table, the runs show at their first call; that it is so whatever lay there, the program damage does.)
pub fn makers(rng: &mut Rng) -> Result<u64, String> {
    let mut sizes: Vec<usize> = (0..300).collect();
    sizes.extend((8..64).flat_map(|bit| [1 << bit, (1 << bit) + 1, (1usize << bit) + 32]));
    sizes.extend((0..1000).map(|_| rng.word() as usize));
    let refused = |a: Answer| a.reply() == Reply::Refused(2);
    for &size in &sizes {
        let (listed, places) = (plain::listed(size), WAKE_SIZES.contains(&size));
        let (mut t, mut q, mut w) = (Tasks::ZERO, RunQueue::ZERO, WakeQueue::ZERO);
        same(&format!("tasks::init {size} refused"), !listed, refused(tasks::init(&mut t, size)))?;
        same(&format!("runqueue::init {size} refused"), !listed, refused(runqueue::init(&mut q, size)))?;
        same(&format!("wake::init {size} refused"), !places, refused(wake::init(&mut w, size)))?;
        same(&format!("init {size} sound"), (listed, listed, places), (tasks::sound(&t), runqueue::sound(&q), wake::sound(&w)))?;
        let left = (t == Tasks::ZERO, q == RunQueue::ZERO, w == WakeQueue::ZERO);
        same(&format!("init {size} left what lay there"), (!listed, !listed, !places), left)?;
    }
    same("irqwait::init sound", true, irqwait::sound(&WaitTable::new()))?;
    same("parktime::init sound", true, parktime::sound(&Table::new()))?;
    Ok(3 * sizes.len() as u64 + 2)
}
