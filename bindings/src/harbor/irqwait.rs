//! Interrupt waits and pending marks.
use super::runqueue::TaskId;
use super::{or_stop, refused};
use crate::{Cookie, Refusal, irqwait as call};

/// How many tasks can wait at a time.
pub const MAX_WAITERS: usize = 8;

/// Tasks of slots below this can wait.
pub const MAX_TASK_IDS: usize = 64;

/// Why a task can't wait for an interrupt.
#[derive(Clone, Copy, Debug, PartialEq, Eq)]
pub enum ArmError {
    /// Its slot is 64 or more.
    BadTask,
    /// Another waits for the interrupt.
    CookieBusy,
    /// It waits for an interrupt already.
    TaskBusy,
    /// No entry is free.
    Full,
}

#[repr(transparent)]
#[derive(Clone, Debug)]
pub struct WaitTable {
    table: crate::WaitTable,
}

impl WaitTable {
    pub const fn new() -> Self {
        WaitTable { table: crate::WaitTable::ZERO }
    }

    /// The table as the proved calls have it.
    pub const fn table(&self) -> &crate::WaitTable {
        &self.table
    }

    /// The task waits for the interrupt.
    #[track_caller]
    pub fn arm(&mut self, cookie: u32, task: TaskId) -> Result<(), ArmError> {
        match call::arm(&mut self.table, Cookie(cookie), task).done() {
            Ok(()) => Ok(()),
            Err(Refusal::BadTask) => Err(ArmError::BadTask),
            Err(Refusal::CookieBusy) => Err(ArmError::CookieBusy),
            Err(Refusal::TaskBusy) => Err(ArmError::TaskBusy),
            Err(Refusal::Full) => Err(ArmError::Full),
            Err(why) => refused(why),
        }
    }

    /// The task waits for nothing any more.
    #[track_caller]
    pub fn disarm_task(&mut self, task: TaskId) {
        or_stop(call::disarm_task(&mut self.table, task).done())
    }

    /// The interrupt has come: its waiter, which is freed and marked.
    #[track_caller]
    pub fn signal(&mut self, cookie: u32) -> Option<TaskId> {
        or_stop(call::signal(&mut self.table, Cookie(cookie)).named())
    }

    /// Takes the task's mark.
    #[track_caller]
    pub fn take_pending(&mut self, task: TaskId) -> bool {
        or_stop(call::take_pending(&mut self.table, task).told())
    }

    /// Whether the task has a mark to take.
    #[track_caller]
    pub fn is_pending(&self, task: TaskId) -> bool {
        or_stop(call::is_pending(&self.table, task).told())
    }
}

impl Default for WaitTable {
    fn default() -> Self {
        Self::new()
    }
}
