//! Two sides of each kind of table, the customer's Rust and our exported calls, made to do the same calls and compared after each. Ours
//! are made on the table where it lies.
//! What is compared, and by which runs, is told in docs/ORACLE.md.

pub mod deadlines;
pub mod pair;
pub mod ring;
pub mod rng;
pub mod small;
pub mod sound;
pub mod tasks;
pub mod waits;
pub mod wakes;

use bredumalt::{Reply, TaskId};
use oracle::guarded::Refusal;
use oracle::runqueue::TaskId as TheirId;

/// The customer's id as ours.
pub fn id(t: TheirId) -> TaskId {
    TaskId { slot: t.slot() as u16, epoch: t.epoch() }
}

/// Our id as the customer's.
pub fn their(t: TaskId) -> TheirId {
    TheirId::new(t.slot, t.epoch)
}

/// An id that may be absent, as an answer.
pub fn named(t: Option<TheirId>) -> Reply {
    Reply::Named(t.map(id))
}

/// What a call of the customer's answers, a refusal by its number.
pub fn reply(answer: Result<Reply, Refusal>) -> Reply {
    answer.unwrap_or_else(|Refusal(no)| Reply::Refused(no))
}

/// What a flag says is there, or not; a byte that is neither 0 nor 1 is a difference.
pub fn flagged<T>(what: &str, flag: u8, value: T) -> Result<Option<T>, String> {
    match flag {
        0 => Ok(None),
        1 => Ok(Some(value)),
        other => Err(format!("{what}: ours has a flag of {other}")),
    }
}

/// Tells the two values where they differ.
pub fn same<T: PartialEq + std::fmt::Debug>(what: &str, theirs: T, ours: T) -> Result<(), String> {
    if theirs == ours { Ok(()) } else { Err(format!("{what}: the Rust has {theirs:?}, ours has {ours:?}")) }
}
