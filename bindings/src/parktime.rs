//! Deadlines of parked tasks. Refuses with 1 a table that is not sound.
use crate::{Answer, Table, TaskId, Token, sys};

/// No deadlines.
pub fn init(table: &mut Table) {
    *table = sys::bredumalt_parktime_new_at();
}

/// Whether the table is sound: flags 0 or 1, and no task has two deadlines.
#[must_use]
pub fn sound(table: &Table) -> bool {
    sys::bredumalt_parktime_sound_at(table.clone()) == 1
}

/// Sets the task's deadline, in the place of the one that it has; 11 with no free entry.
pub fn arm(table: &mut Table, task: TaskId, deadline: u64) -> Answer {
    let got = sys::bredumalt_parktime_arm_at(table.clone(), task, deadline);
    *table = got.table;
    got.answer
}

/// Drops the task's deadline, if it has one.
pub fn disarm(table: &mut Table, task: TaskId) -> Answer {
    let got = sys::bredumalt_parktime_disarm_at(table.clone(), task);
    *table = got.table;
    got.answer
}

/// Drops every deadline that is at most `now` and writes the packed ids of its tasks to the start of `out`, in entry order: how many,
/// a number; 7 where `out` has under 16 places.
pub fn poll(table: &mut Table, now: u64, out: &mut [Token]) -> Answer {
    // SAFETY: pointer and length are of one slice, which is ours alone until the call returns, and nothing is kept behind it. A Token is
    // the one u32 that it holds.
    let got = unsafe { sys::bredumalt_parktime_poll_at(table.clone(), now, out.as_mut_ptr().cast::<u32>(), out.len()) };
    *table = got.table;
    got.answer
}
