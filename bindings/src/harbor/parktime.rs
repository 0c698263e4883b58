//! Deadlines of parked tasks.
use super::runqueue::TaskId;
use super::{or_stop, refused};
use crate::{Refusal, Token, parktime as call};

/// How many deadlines there can be at a time.
pub const MAX_ARMED: usize = 16;

/// Why a task can't have a deadline.
#[derive(Clone, Copy, Debug, PartialEq, Eq)]
pub enum ArmError {
    /// It has none yet, and no entry is free.
    Full,
}

#[repr(transparent)]
#[derive(Clone, Debug)]
pub struct Table {
    table: crate::Table,
}

impl Table {
    pub const fn new() -> Self {
        Table { table: crate::Table::ZERO }
    }

    /// The table as the proved calls have it.
    pub const fn table(&self) -> &crate::Table {
        &self.table
    }

    /// Sets the task's deadline, in the place of the one that it has.
    #[track_caller]
    pub fn arm(&mut self, task: TaskId, deadline: u64) -> Result<(), ArmError> {
        match call::arm(&mut self.table, task, deadline).done() {
            Ok(()) => Ok(()),
            Err(Refusal::Full) => Err(ArmError::Full),
            Err(why) => refused(why),
        }
    }

    /// Drops the task's deadline, if it has one.
    #[track_caller]
    pub fn disarm(&mut self, task: TaskId) {
        or_stop(call::disarm(&mut self.table, task).done())
    }

    /// Drops every deadline that is at most `now` and writes whose they were to the start of `out`: how many.
    #[track_caller]
    pub fn poll(&mut self, now: u64, out: &mut [TaskId; MAX_ARMED]) -> usize {
        let mut due = [Token(0); MAX_ARMED];
        let count = or_stop(call::poll(&mut self.table, now, &mut due).count()) as usize;
        for (place, token) in out.iter_mut().zip(due).take(count) {
            *place = TaskId::from_raw(token.0);
        }
        count
    }
}

impl Default for Table {
    fn default() -> Self {
        Self::new()
    }
}
