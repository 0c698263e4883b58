//! Task ids and the FIFO ring of ready tasks.
pub use crate::TaskId;

use super::{or_stop, refused};
use crate::{Refusal, runqueue as call};

/// An id by calls, as the old type has it. They are `const`, so the packing stands here too: that of `ids`, to which a test holds it.
impl TaskId {
    pub const fn slot(self) -> usize {
        self.slot as usize
    }

    pub const fn epoch(self) -> u16 {
        self.epoch
    }

    /// epoch * 65,536 + slot
    pub const fn to_raw(self) -> u32 {
        self.epoch as u32 * 65_536 + self.slot as u32
    }

    pub const fn from_raw(raw: u32) -> Self {
        TaskId { slot: (raw % 65_536) as u16, epoch: (raw / 65_536) as u16 }
    }
}

/// No place is free.
#[derive(Clone, Copy, Debug, PartialEq, Eq)]
pub struct Full;

/// A ring of `CAP` places, 1 to 64. The old one could have none; here that does not compile:
///
/// ```compile_fail,E0080
/// static RING: bredumalt::harbor::runqueue::RunQueue<0> = bredumalt::harbor::runqueue::RunQueue::new();
/// ```
#[repr(transparent)]
#[derive(Clone, Debug)]
pub struct RunQueue<const CAP: usize> {
    table: crate::RunQueue,
}

impl<const CAP: usize> RunQueue<CAP> {
    pub const fn new() -> Self {
        const { assert!(CAP >= 1 && CAP <= 64, "a ring has 1 to 64 places") }
        let mut table = crate::RunQueue::ZERO;
        table.span.n = CAP;
        RunQueue { table }
    }

    /// The ring as the proved calls have it.
    pub const fn table(&self) -> &crate::RunQueue {
        &self.table
    }

    pub const fn capacity(&self) -> usize {
        CAP
    }

    #[track_caller]
    pub fn len(&self) -> usize {
        or_stop(call::len(&self.table).count()) as usize
    }

    #[track_caller]
    pub fn is_empty(&self) -> bool {
        or_stop(call::is_empty(&self.table).told())
    }

    #[track_caller]
    pub fn is_full(&self) -> bool {
        or_stop(call::is_full(&self.table).told())
    }

    /// Puts a task at the tail.
    #[track_caller]
    pub fn enqueue(&mut self, id: TaskId) -> Result<(), Full> {
        if_room(call::enqueue(&mut self.table, id).done())
    }

    /// Takes the head.
    #[track_caller]
    pub fn dequeue(&mut self) -> Option<TaskId> {
        or_stop(call::dequeue(&mut self.table).named())
    }

    /// The head, left where it is.
    #[track_caller]
    pub fn front(&self) -> Option<TaskId> {
        or_stop(call::front(&self.table).named())
    }

    /// Hands out what is queued, from head to tail.
    #[track_caller]
    pub fn for_each_ready(&self, mut f: impl FnMut(TaskId)) {
        for at in 0..self.len() {
            if let Some(id) = or_stop(call::ready_at(&self.table, at).named()) {
                f(id);
            }
        }
    }

    /// Puts the id that is given at the tail, then takes the head. `Full` is decided before a place becomes free.
    #[track_caller]
    pub fn after_yield(&mut self, requeue: Option<TaskId>) -> Result<Option<TaskId>, Full> {
        let id = requeue.unwrap_or(TaskId::IDLE); // not read where there is none
        if_room(call::after_yield(&mut self.table, requeue.is_some(), id).named())
    }
}

impl<const CAP: usize> Default for RunQueue<CAP> {
    fn default() -> Self {
        Self::new()
    }
}

#[track_caller]
fn if_room<T>(answered: Result<T, Refusal>) -> Result<T, Full> {
    match answered {
        Ok(answer) => Ok(answer),
        Err(Refusal::Full) => Err(Full),
        Err(why) => refused(why),
    }
}
