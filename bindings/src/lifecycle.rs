//! What a supervisor may do to a task, by its state: a `State`, or `UNKNOWN` (as any other number) where the id is not known. Whether it
//! is an idle task is a flag: a `bool`, or the byte 0 or 1; any other byte is refused with 12.
use crate::{Refusal, Verdict, sys};

/// A state's code where the id is not known.
pub const UNKNOWN: u8 = 4;

/// Ends a task that waits: `Cancel`, `Idle`, `BadId` or `NotBlocked`.
pub fn reap(is_idle: impl Into<u8>, state: impl Into<u8>) -> Result<Verdict, Refusal> {
    read(sys::bredumalt_lifecycle_reap(is_idle.into(), state.into()))
}

/// Ends a task whatever it does: `FlagAndCancel`, `FlagAndNudge`, `Idle`, `BadId` or `Empty`.
pub fn force(is_idle: impl Into<u8>, state: impl Into<u8>) -> Result<Verdict, Refusal> {
    read(sys::bredumalt_lifecycle_force(is_idle.into(), state.into()))
}

/// Ends a wait, but not the task: `MarkAndWake` or `Nothing`.
pub fn cancel(state: impl Into<u8>) -> Result<Verdict, Refusal> {
    read(sys::bredumalt_lifecycle_cancel(state.into()))
}

// The numbers of verdicts end before 12, which is a refusal's.
fn read(number: u8) -> Result<Verdict, Refusal> {
    Verdict::from_number(number).ok_or(Refusal::BadLine)
}
