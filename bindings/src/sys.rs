//! The exported functions as they are, for a caller that keeps its arrays apart. Numbers that name nothing, and arrays with any bits, are
//! refused and not misread, so all but one may be called from safe code.
use crate::{Answer, Cookie, Ends, Small, Span, Table, TaskId, Token, Waiters};

/// A task table's small part, beside what the call answers. 112 bytes.
#[repr(C)]
#[derive(Clone, Copy, Debug, PartialEq, Eq)]
#[must_use]
pub struct SmallAnswer {
    pub small: Small,
    pub answer: Answer,
}

/// A ring's span, beside what the call answers. 56 bytes.
#[repr(C)]
#[derive(Clone, Copy, Debug, PartialEq, Eq)]
#[must_use]
pub struct SpanAnswer {
    pub span: Span,
    pub answer: Answer,
}

/// A wake queue's ends, beside what the call answers. 64 bytes.
#[repr(C)]
#[derive(Clone, Copy, Debug, PartialEq, Eq)]
#[must_use]
pub struct EndsAnswer {
    pub ends: Ends,
    pub answer: Answer,
}

/// A wait table's waiters, beside what the call answers. 128 bytes.
#[repr(C)]
#[derive(Clone, Copy, Debug, PartialEq, Eq)]
#[must_use]
pub struct WaitersAnswer {
    pub waiters: Waiters,
    pub answer: Answer,
}

/// The deadlines, beside what the call answers. 288 bytes.
#[repr(C)]
#[derive(Clone, Debug, PartialEq, Eq)]
#[must_use]
pub struct DeadlinesAnswer {
    pub table: Table,
    pub answer: Answer,
}

// SAFETY: the structs have the layouts that the archive has (tests/layout.rs), and the prototypes are the header's (tests/header.rs). A
// reference lends what it points to until the call returns; nothing is kept behind it. Every function takes any bits.
unsafe extern "C" {
    pub safe fn bredumalt_ids_to_raw(id: TaskId) -> Token;
    pub safe fn bredumalt_ids_from_raw(raw: Token) -> TaskId;
    pub safe fn bredumalt_lifecycle_reap(is_idle: u8, state: u8) -> u8;
    pub safe fn bredumalt_lifecycle_force(is_idle: u8, state: u8) -> u8;
    pub safe fn bredumalt_lifecycle_cancel(state: u8) -> u8;
    pub safe fn bredumalt_runqueue_new_at(slots: &mut [u16; 64], epochs: &mut [u16; 64], span: Span, n: usize) -> SpanAnswer;
    pub safe fn bredumalt_runqueue_sound_at(span: Span) -> u8;
    pub safe fn bredumalt_runqueue_capacity_at(span: Span) -> Answer;
    pub safe fn bredumalt_runqueue_len_at(span: Span) -> Answer;
    pub safe fn bredumalt_runqueue_is_empty_at(span: Span) -> Answer;
    pub safe fn bredumalt_runqueue_is_full_at(span: Span) -> Answer;
    pub safe fn bredumalt_runqueue_ready_at_at(slots: &[u16; 64], epochs: &[u16; 64], span: Span, index: usize) -> Answer;
    pub safe fn bredumalt_runqueue_enqueue_at(slots: &mut [u16; 64], epochs: &mut [u16; 64], span: Span, id: TaskId) -> SpanAnswer;
    pub safe fn bredumalt_runqueue_dequeue_at(slots: &mut [u16; 64], epochs: &mut [u16; 64], span: Span) -> SpanAnswer;
    pub safe fn bredumalt_runqueue_after_yield_at(
        slots: &mut [u16; 64],
        epochs: &mut [u16; 64],
        span: Span,
        requeue: u8,
        id: TaskId,
    ) -> SpanAnswer;
    pub safe fn bredumalt_wake_new_at(tokens: &mut [u32; 64], ends: Ends, c: usize) -> EndsAnswer;
    pub safe fn bredumalt_wake_sound_at(ends: Ends) -> u8;
    pub safe fn bredumalt_wake_drops_at(ends: Ends) -> Answer;
    pub safe fn bredumalt_wake_is_empty_at(ends: Ends) -> Answer;
    pub safe fn bredumalt_wake_push_at(tokens: &mut [u32; 64], ends: Ends, token: Token) -> EndsAnswer;
    pub safe fn bredumalt_wake_pop_at(tokens: &mut [u32; 64], ends: Ends) -> EndsAnswer;
    pub safe fn bredumalt_irqwait_new_at(pending: &mut [u8; 64], slots: &mut [u16; 64], epochs: &mut [u16; 64]) -> Waiters;
    pub safe fn bredumalt_irqwait_sound_at(pending: &[u8; 64], slots: &[u16; 64], epochs: &[u16; 64], waiters: Waiters) -> u8;
    pub safe fn bredumalt_irqwait_arm_at(
        pending: &mut [u8; 64],
        slots: &mut [u16; 64],
        epochs: &mut [u16; 64],
        waiters: Waiters,
        cookie: Cookie,
        task: TaskId,
    ) -> WaitersAnswer;
    pub safe fn bredumalt_irqwait_disarm_task_at(
        pending: &mut [u8; 64],
        slots: &mut [u16; 64],
        epochs: &mut [u16; 64],
        waiters: Waiters,
        task: TaskId,
    ) -> WaitersAnswer;
    pub safe fn bredumalt_irqwait_signal_at(
        pending: &mut [u8; 64],
        slots: &mut [u16; 64],
        epochs: &mut [u16; 64],
        waiters: Waiters,
        cookie: Cookie,
    ) -> WaitersAnswer;
    pub safe fn bredumalt_irqwait_take_pending_at(
        pending: &mut [u8; 64],
        slots: &mut [u16; 64],
        epochs: &mut [u16; 64],
        waiters: Waiters,
        task: TaskId,
    ) -> WaitersAnswer;
    pub safe fn bredumalt_irqwait_is_pending_at(
        pending: &[u8; 64],
        slots: &[u16; 64],
        epochs: &[u16; 64],
        waiters: Waiters,
        task: TaskId,
    ) -> Answer;
    pub safe fn bredumalt_parktime_new_at() -> Table;
    pub safe fn bredumalt_parktime_sound_at(table: Table) -> u8;
    pub safe fn bredumalt_parktime_arm_at(table: Table, task: TaskId, deadline: u64) -> DeadlinesAnswer;
    pub safe fn bredumalt_parktime_disarm_at(table: Table, task: TaskId) -> DeadlinesAnswer;
    pub unsafe fn bredumalt_parktime_poll_at(table: Table, now: u64, out: *mut u32, len: usize) -> DeadlinesAnswer;
    pub safe fn bredumalt_tasks_new_at(
        states: &mut [u8; 64],
        epochs: &mut [u16; 64],
        homes: &mut [u8; 64],
        marks: &mut [u8; 64],
        ring_slots: &mut [u16; 128],
        ring_epochs: &mut [u16; 128],
        small: Small,
        n: usize,
    ) -> SmallAnswer;
    pub safe fn bredumalt_tasks_sound_at(
        states: &[u8; 64],
        epochs: &[u16; 64],
        homes: &[u8; 64],
        marks: &[u8; 64],
        ring_slots: &[u16; 128],
        ring_epochs: &[u16; 128],
        small: Small,
    ) -> u8;
    pub safe fn bredumalt_tasks_start_at(
        states: &mut [u8; 64],
        epochs: &mut [u16; 64],
        homes: &mut [u8; 64],
        marks: &mut [u8; 64],
        ring_slots: &mut [u16; 128],
        ring_epochs: &mut [u16; 128],
        small: Small,
    ) -> SmallAnswer;
    pub safe fn bredumalt_tasks_start_cpu1_at(
        states: &mut [u8; 64],
        epochs: &mut [u16; 64],
        homes: &mut [u8; 64],
        marks: &mut [u8; 64],
        ring_slots: &mut [u16; 128],
        ring_epochs: &mut [u16; 128],
        small: Small,
    ) -> SmallAnswer;
    pub safe fn bredumalt_tasks_admit_on_at(
        states: &mut [u8; 64],
        epochs: &mut [u16; 64],
        homes: &mut [u8; 64],
        marks: &mut [u8; 64],
        ring_slots: &mut [u16; 128],
        ring_epochs: &mut [u16; 128],
        small: Small,
        cpu: u8,
    ) -> SmallAnswer;
    pub safe fn bredumalt_tasks_wake_at(
        states: &mut [u8; 64],
        epochs: &mut [u16; 64],
        homes: &mut [u8; 64],
        marks: &mut [u8; 64],
        ring_slots: &mut [u16; 128],
        ring_epochs: &mut [u16; 128],
        small: Small,
        id: TaskId,
    ) -> SmallAnswer;
    pub safe fn bredumalt_tasks_collect_at(
        states: &mut [u8; 64],
        epochs: &mut [u16; 64],
        homes: &mut [u8; 64],
        marks: &mut [u8; 64],
        ring_slots: &mut [u16; 128],
        ring_epochs: &mut [u16; 128],
        small: Small,
    ) -> SmallAnswer;
    pub safe fn bredumalt_tasks_try_steal_into_at(
        states: &mut [u8; 64],
        epochs: &mut [u16; 64],
        homes: &mut [u8; 64],
        marks: &mut [u8; 64],
        ring_slots: &mut [u16; 128],
        ring_epochs: &mut [u16; 128],
        small: Small,
        thief: u8,
    ) -> SmallAnswer;
    pub safe fn bredumalt_tasks_set_stealeable_at(
        states: &mut [u8; 64],
        epochs: &mut [u16; 64],
        homes: &mut [u8; 64],
        marks: &mut [u8; 64],
        ring_slots: &mut [u16; 128],
        ring_epochs: &mut [u16; 128],
        small: Small,
        id: TaskId,
        mark: u8,
    ) -> SmallAnswer;
    pub safe fn bredumalt_tasks_switch_on_at(
        states: &mut [u8; 64],
        epochs: &mut [u16; 64],
        homes: &mut [u8; 64],
        marks: &mut [u8; 64],
        ring_slots: &mut [u16; 128],
        ring_epochs: &mut [u16; 128],
        small: Small,
        cpu: u8,
        kind: u8,
    ) -> SmallAnswer;
    pub safe fn bredumalt_tasks_current_on_at(
        states: &[u8; 64],
        epochs: &[u16; 64],
        homes: &[u8; 64],
        marks: &[u8; 64],
        ring_slots: &[u16; 128],
        ring_epochs: &[u16; 128],
        small: Small,
        cpu: u8,
    ) -> Answer;
    pub safe fn bredumalt_tasks_idle_of_at(
        states: &[u8; 64],
        epochs: &[u16; 64],
        homes: &[u8; 64],
        marks: &[u8; 64],
        ring_slots: &[u16; 128],
        ring_epochs: &[u16; 128],
        small: Small,
        cpu: u8,
    ) -> Answer;
    pub safe fn bredumalt_tasks_has_ready_on_at(
        states: &[u8; 64],
        epochs: &[u16; 64],
        homes: &[u8; 64],
        marks: &[u8; 64],
        ring_slots: &[u16; 128],
        ring_epochs: &[u16; 128],
        small: Small,
        cpu: u8,
    ) -> Answer;
    pub safe fn bredumalt_tasks_cpu1_started_at(
        states: &[u8; 64],
        epochs: &[u16; 64],
        homes: &[u8; 64],
        marks: &[u8; 64],
        ring_slots: &[u16; 128],
        ring_epochs: &[u16; 128],
        small: Small,
    ) -> Answer;
    pub safe fn bredumalt_tasks_state_at(
        states: &[u8; 64],
        epochs: &[u16; 64],
        homes: &[u8; 64],
        marks: &[u8; 64],
        ring_slots: &[u16; 128],
        ring_epochs: &[u16; 128],
        small: Small,
        id: TaskId,
    ) -> Answer;
    pub safe fn bredumalt_tasks_home_of_at(
        states: &[u8; 64],
        epochs: &[u16; 64],
        homes: &[u8; 64],
        marks: &[u8; 64],
        ring_slots: &[u16; 128],
        ring_epochs: &[u16; 128],
        small: Small,
        id: TaskId,
    ) -> Answer;
    pub safe fn bredumalt_tasks_live_id_at(
        states: &[u8; 64],
        epochs: &[u16; 64],
        homes: &[u8; 64],
        marks: &[u8; 64],
        ring_slots: &[u16; 128],
        ring_epochs: &[u16; 128],
        small: Small,
        slot: usize,
    ) -> Answer;
    pub safe fn bredumalt_tasks_is_stealeable_at(
        states: &[u8; 64],
        epochs: &[u16; 64],
        homes: &[u8; 64],
        marks: &[u8; 64],
        ring_slots: &[u16; 128],
        ring_epochs: &[u16; 128],
        small: Small,
        id: TaskId,
    ) -> Answer;
    pub safe fn bredumalt_tasks_can_steal_into_at(
        states: &[u8; 64],
        epochs: &[u16; 64],
        homes: &[u8; 64],
        marks: &[u8; 64],
        ring_slots: &[u16; 128],
        ring_epochs: &[u16; 128],
        small: Small,
        thief: u8,
    ) -> Answer;
    pub safe fn bredumalt_tasks_overwrites_at(
        states: &[u8; 64],
        epochs: &[u16; 64],
        homes: &[u8; 64],
        marks: &[u8; 64],
        ring_slots: &[u16; 128],
        ring_epochs: &[u16; 128],
        small: Small,
    ) -> Answer;
    pub safe fn bredumalt_tasks_blocked_count_at(
        states: &[u8; 64],
        epochs: &[u16; 64],
        homes: &[u8; 64],
        marks: &[u8; 64],
        ring_slots: &[u16; 128],
        ring_epochs: &[u16; 128],
        small: Small,
    ) -> Answer;
    pub safe fn bredumalt_tasks_block_events_at(
        states: &[u8; 64],
        epochs: &[u16; 64],
        homes: &[u8; 64],
        marks: &[u8; 64],
        ring_slots: &[u16; 128],
        ring_epochs: &[u16; 128],
        small: Small,
    ) -> Answer;
    pub safe fn bredumalt_tasks_live_count_at(
        states: &[u8; 64],
        epochs: &[u16; 64],
        homes: &[u8; 64],
        marks: &[u8; 64],
        ring_slots: &[u16; 128],
        ring_epochs: &[u16; 128],
        small: Small,
    ) -> Answer;
    pub safe fn bredumalt_tasks_peak_slots_at(
        states: &[u8; 64],
        epochs: &[u16; 64],
        homes: &[u8; 64],
        marks: &[u8; 64],
        ring_slots: &[u16; 128],
        ring_epochs: &[u16; 128],
        small: Small,
    ) -> Answer;
}
