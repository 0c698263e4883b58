//! What calls answer: numbers as they cross the boundary, and ways to read them.
use crate::{Refusal, State, TaskId, Token};

/// What a call answers: the refusal first (`Refusal`, or 0), then the kind of answer (`answer`), then its values; what a kind does not
/// use is 0. 32 bytes.
///
/// `reply` reads any answer. The others read the answer of a call whose kind is known, for use with `?`; an answer of another kind is
/// false, 0, none or stay to them.
#[repr(C)]
#[derive(Clone, Copy, Debug, PartialEq, Eq)]
#[must_use = "the call may have been refused"]
pub struct Answer {
    pub refusal: u8,
    pub kind: u8,
    pub flag: u8,
    pub number: u64,
    pub first: TaskId,
    pub second: TaskId,
    pub third: TaskId,
}

/// Kinds of answer: what of an answer that is no refusal may be read.
pub mod answer {
    /// Nothing to tell. The kind of a refusal too.
    pub const DONE: u8 = 0;
    /// True or false: `flag`.
    pub const TOLD: u8 = 1;
    /// `number`.
    pub const NUMBER: u8 = 2;
    /// An id, `first`; or none, and then `flag` is 0.
    pub const NAMED: u8 = 3;
    /// `number`; or none, and then `flag` is 0.
    pub const VALUE: u8 = 4;
    /// The current task stays.
    pub const STAY: u8 = 5;
    /// From `first` to `second`, with `third` to release; or none to release, and then `flag` is 0.
    pub const SWITCH: u8 = 6;
}

/// An answer, read: the kinds of `Answer` as an enum.
#[derive(Clone, Copy, Debug, PartialEq, Eq)]
#[must_use = "the call may have been refused"]
pub enum Reply {
    /// Document 01's number (`Refusal`). Every table and every lent buffer is as it was.
    Refused(u8),
    Done,
    Told(bool),
    Number(u64),
    Named(Option<TaskId>),
    Value(Option<u64>),
    Stay,
    Switch {
        from: TaskId,
        to: TaskId,
        release: Option<TaskId>,
    },
}

/// Who runs after a switch.
#[derive(Clone, Copy, Debug, PartialEq, Eq)]
#[must_use = "the CPU has to go on with the task that was chosen"]
pub enum Decision {
    /// The current task goes on.
    Stay,
    /// `to` runs now. `release` was parked and is displaced: its stack may be freed.
    Switch { from: TaskId, to: TaskId, release: Option<TaskId> },
}

impl Answer {
    /// Reads the numbers, as `crates/numbers/specs/Reading.antt` does on paper, where it is proved that every reply is read back as it was.
    pub fn reply(self) -> Reply {
        let there = self.flag != 0;
        match (self.refusal, self.kind) {
            (0, answer::TOLD) => Reply::Told(there),
            (0, answer::NUMBER) => Reply::Number(self.number),
            (0, answer::NAMED) => Reply::Named(there.then_some(self.first)),
            (0, answer::VALUE) => Reply::Value(there.then_some(self.number)),
            (0, answer::STAY) => Reply::Stay,
            (0, answer::SWITCH) => Reply::Switch { from: self.first, to: self.second, release: there.then_some(self.third) },
            (0, _) => Reply::Done,
            (number, _) => Reply::Refused(number),
        }
    }

    /// Of any call: whether it did what it was asked. (A number that document 01 does not list, which no call gives, is read as 1.)
    pub fn done(self) -> Result<(), Refusal> {
        if self.refusal == 0 { Ok(()) } else { Err(Refusal::from_number(self.refusal).unwrap_or(Refusal::BadTable)) }
    }

    /// Of a call that answers true or false.
    pub fn told(self) -> Result<bool, Refusal> {
        self.done().map(|()| self.reply() == Reply::Told(true))
    }

    /// Of a call that answers with a number.
    pub fn count(self) -> Result<u64, Refusal> {
        self.done().map(|()| if let Reply::Number(number) = self.reply() { number } else { 0 })
    }

    /// Of a call that answers with an id or none.
    pub fn named(self) -> Result<Option<TaskId>, Refusal> {
        self.done().map(|()| if let Reply::Named(id) = self.reply() { id } else { None })
    }

    /// Of a call that always answers with an id: a CPU's current or idle task, which is 0/0 before its start.
    pub fn id(self) -> Result<TaskId, Refusal> {
        self.named().map(|id| id.unwrap_or(TaskId::IDLE))
    }

    /// Of a call that answers with a value or none.
    pub fn value(self) -> Result<Option<u64>, Refusal> {
        self.done().map(|()| if let Reply::Value(number) = self.reply() { number } else { None })
    }

    /// Of `wake::pop`.
    pub fn token(self) -> Result<Option<Token>, Refusal> {
        self.value().map(|number| number.map(|number| Token(number as u32)))
    }

    /// Of `tasks::state`.
    pub fn state(self) -> Result<Option<State>, Refusal> {
        self.value().map(|code| code.and_then(|code| State::from_number(code as u8)))
    }

    /// Of `tasks::switch` and `tasks::switch_on`.
    pub fn decision(self) -> Result<Decision, Refusal> {
        self.done().map(|()| match self.reply() {
            Reply::Switch { from, to, release } => Decision::Switch { from, to, release },
            _ => Decision::Stay,
        })
    }
}
