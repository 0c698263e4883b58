//! What a supervisor may do to a task, by its state; no state where the id is not known.
use super::tasks::State;
use super::{or_stop, refused};
use crate::{Refusal, Verdict, lifecycle as call};

/// Why a task's wait may not be ended for good.
#[derive(Clone, Copy, Debug, PartialEq, Eq)]
pub enum ReapError {
    /// It is an idle task.
    Idle,
    /// Its id is not known.
    BadId,
    /// It waits for nothing; or its slot is Empty.
    NotBlocked,
}

/// Why a task may not be ended.
#[derive(Clone, Copy, Debug, PartialEq, Eq)]
pub enum ForceError {
    /// It is an idle task.
    Idle,
    /// Its id is not known.
    BadId,
    /// Its slot is Empty.
    Empty,
}

/// What `reap` says.
#[derive(Clone, Copy, Debug, PartialEq, Eq)]
pub enum ReapVerdict {
    /// Cancel its wait.
    Cancel,
    Refuse(ReapError),
}

/// What `force` says.
#[derive(Clone, Copy, Debug, PartialEq, Eq)]
pub enum ForceVerdict {
    /// Flag it to end, and cancel its wait.
    FlagAndCancel,
    /// Flag it to end, and tell its CPU.
    FlagAndNudge,
    Refuse(ForceError),
}

/// What `cancel` says.
#[derive(Clone, Copy, Debug, PartialEq, Eq)]
pub enum CancelVerdict {
    /// Mark its wait as cancelled, and wake it.
    MarkAndWake,
    Refuse,
}

/// Ends a task that waits.
#[track_caller]
pub fn reap(is_idle: bool, state: Option<State>) -> ReapVerdict {
    match or_stop(call::reap(is_idle, code(state))) {
        Verdict::Cancel => ReapVerdict::Cancel,
        Verdict::Idle => ReapVerdict::Refuse(ReapError::Idle),
        Verdict::BadId => ReapVerdict::Refuse(ReapError::BadId),
        Verdict::NotBlocked => ReapVerdict::Refuse(ReapError::NotBlocked),
        _ => none_such(),
    }
}

/// Ends a task whatever it does.
#[track_caller]
pub fn force(is_idle: bool, state: Option<State>) -> ForceVerdict {
    match or_stop(call::force(is_idle, code(state))) {
        Verdict::FlagAndCancel => ForceVerdict::FlagAndCancel,
        Verdict::FlagAndNudge => ForceVerdict::FlagAndNudge,
        Verdict::Idle => ForceVerdict::Refuse(ForceError::Idle),
        Verdict::BadId => ForceVerdict::Refuse(ForceError::BadId),
        Verdict::Empty => ForceVerdict::Refuse(ForceError::Empty),
        _ => none_such(),
    }
}

/// Ends a wait, but not the task.
#[track_caller]
pub fn cancel(state: Option<State>) -> CancelVerdict {
    match or_stop(call::cancel(code(state))) {
        Verdict::MarkAndWake => CancelVerdict::MarkAndWake,
        Verdict::Nothing => CancelVerdict::Refuse,
        _ => none_such(),
    }
}

fn code(state: Option<State>) -> u8 {
    state.map_or(call::UNKNOWN, State::number)
}

// A verdict that the call does not give.
#[track_caller]
fn none_such() -> ! {
    refused(Refusal::BadLine)
}
