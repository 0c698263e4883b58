//! Interrupt waits and pending marks. Refuses with 1 a table that is not sound.
use crate::{Answer, Cookie, TaskId, WaitTable, sys};

// The three arrays of marks, lent one by one, then the waiters, which come back.
macro_rules! change {
    ($call:ident, $t:ident $(, $operand:expr)*) => {{
        let got = sys::$call(&mut $t.pending, &mut $t.pending_slots, &mut $t.pending_epochs, $t.waiters $(, $operand)*);
        $t.waiters = got.waiters;
        got.answer
    }};
}

/// A table in which nobody waits and nothing is pending.
pub fn init(table: &mut WaitTable) {
    table.waiters = sys::bredumalt_irqwait_new_at(&mut table.pending, &mut table.pending_slots, &mut table.pending_epochs);
}

/// Whether the table is sound: flags 0 or 1, cookies distinct, ids distinct with slots below 64, each mark under its own slot.
#[must_use]
pub fn sound(table: &WaitTable) -> bool {
    sys::bredumalt_irqwait_sound_at(&table.pending, &table.pending_slots, &table.pending_epochs, table.waiters) == 1
}

/// The task waits for the interrupt; 8 for a slot of 64 or more, 9 or 10 where the cookie or the task is busy, 11 with no free entry.
pub fn arm(table: &mut WaitTable, cookie: Cookie, task: TaskId) -> Answer {
    change!(bredumalt_irqwait_arm_at, table, cookie, task)
}

/// The task waits for nothing any more.
pub fn disarm_task(table: &mut WaitTable, task: TaskId) -> Answer {
    change!(bredumalt_irqwait_disarm_task_at, table, task)
}

/// The interrupt has come: its waiter's id or none; the waiter's entry is freed and its slot marked.
pub fn signal(table: &mut WaitTable, cookie: Cookie) -> Answer {
    change!(bredumalt_irqwait_signal_at, table, cookie)
}

/// Takes the task's mark: true, or false where it has none.
pub fn take_pending(table: &mut WaitTable, task: TaskId) -> Answer {
    change!(bredumalt_irqwait_take_pending_at, table, task)
}

/// Whether the task has a mark to take: true or false.
pub fn is_pending(table: &WaitTable, task: TaskId) -> Answer {
    sys::bredumalt_irqwait_is_pending_at(&table.pending, &table.pending_slots, &table.pending_epochs, table.waiters, task)
}
