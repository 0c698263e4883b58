//! What tasks, interrupts and answers are called by.
use core::fmt;

/// A task: a slot, and which of its tenants. 4 bytes.
#[repr(C)]
#[derive(Clone, Copy, Debug, PartialEq, Eq, Hash, PartialOrd, Ord)]
pub struct TaskId {
    pub slot: u16,
    pub epoch: u16,
}

impl TaskId {
    /// The idle task of CPU 0.
    pub const IDLE: TaskId = TaskId { slot: 0, epoch: 0 };

    pub const fn new(slot: u16, epoch: u16) -> Self {
        TaskId { slot, epoch }
    }
}

/// slot/epoch
impl fmt::Display for TaskId {
    fn fmt(&self, f: &mut fmt::Formatter) -> fmt::Result {
        write!(f, "{}/{}", self.slot, self.epoch)
    }
}

impl From<Token> for TaskId {
    fn from(raw: Token) -> Self {
        crate::ids::from_raw(raw)
    }
}

/// The name of an interrupt. A type of its own, as in the proved calls: no token is taken for it. 4 bytes.
#[repr(C)]
#[derive(Clone, Copy, Debug, PartialEq, Eq, Hash, PartialOrd, Ord)]
pub struct Cookie(pub u32);

impl fmt::Display for Cookie {
    fn fmt(&self, f: &mut fmt::Formatter) -> fmt::Result {
        self.0.fmt(f)
    }
}

/// A packed id, epoch x 65,536 + slot, as it travels through the wake queue and comes out of a poll. 4 bytes.
#[repr(C)]
#[derive(Clone, Copy, Debug, PartialEq, Eq, Hash, PartialOrd, Ord)]
pub struct Token(pub u32);

impl fmt::Display for Token {
    fn fmt(&self, f: &mut fmt::Formatter) -> fmt::Result {
        self.0.fmt(f)
    }
}

impl From<TaskId> for Token {
    fn from(id: TaskId) -> Self {
        crate::ids::to_raw(id)
    }
}

/// An enum whose cases cross the boundary by number, each with the text that it is shown by.
macro_rules! numbered {
    ($(#[$about:meta])* pub enum $name:ident { $( $(#[$doc:meta])* $case:ident = $number:literal => $text:literal, )* }) => {
        $(#[$about])*
        #[repr(u8)]
        #[derive(Clone, Copy, Debug, PartialEq, Eq, Hash, PartialOrd, Ord)]
        pub enum $name {
            $( $(#[$doc])* $case = $number, )*
        }

        impl $name {
            /// The number by which it crosses the boundary.
            pub const fn number(self) -> u8 {
                self as u8
            }

            /// The one of this number, if there is one.
            pub const fn from_number(number: u8) -> Option<Self> {
                match number {
                    $( $number => Some($name::$case), )*
                    _ => None,
                }
            }
        }

        impl From<$name> for u8 {
            fn from(name: $name) -> u8 {
                name.number()
            }
        }

        impl fmt::Display for $name {
            fn fmt(&self, f: &mut fmt::Formatter) -> fmt::Result {
                f.pad(match self {
                    $( $name::$case => $text, )*
                })
            }
        }
    };
}

numbered! {
    /// How the current task gives its CPU up.
    pub enum Kind {
        Yield = 0 => "yield",
        Preempt = 1 => "preempt",
        Block = 2 => "block",
        Exit = 3 => "exit",
    }
}

numbered! {
    /// What the task of a slot does.
    pub enum State {
        Empty = 0 => "Empty",
        Ready = 1 => "Ready",
        Running = 2 => "Running",
        Blocked = 3 => "Blocked",
    }
}

numbered! {
    /// Why a call is refused: document 01's numbers and names. Every table and every lent buffer is as it was, but for `init`.
    pub enum Refusal {
        /// A table handed in is not sound.
        BadTable = 1 => "the table is not sound",
        /// A table is to be made in a size that is not listed.
        BadSize = 2 => "no table has that size",
        /// A changing call other than `start` before `start`.
        NotStarted = 3 => "the task table is not started",
        /// A second `start`.
        Again = 4 => "the task table is started already",
        /// `current_on`, `idle_of` or `has_ready_on` with a CPU above 1.
        BadCpu = 5 => "there is no such CPU",
        /// A switch on CPU 1 before `start_cpu1`.
        CpuOff = 6 => "CPU 1 is not started",
        /// A poll's output has under 16 places.
        ShortOut = 7 => "the output has under 16 places",
        /// A slot of 64 or more is to wait for an interrupt.
        BadTask = 8 => "no task of such a slot can wait for an interrupt",
        /// A task waits for the interrupt already.
        CookieBusy = 9 => "a task waits for the interrupt already",
        /// The task waits for an interrupt already.
        TaskBusy = 10 => "the task waits for an interrupt already",
        /// No entry of the table, or no place of the ring, is free.
        Full = 11 => "no place is free",
        /// A number that names nothing: a kind of switch, a flag.
        BadLine = 12 => "a number names nothing",
        /// Only the program `events` gives this.
        TooLong = 13 => "the input is too long",
    }
}

impl core::error::Error for Refusal {}

numbered! {
    /// What is to be done to a task, and from `Idle` on why nothing may be.
    pub enum Verdict {
        Nothing = 0 => "nothing",
        /// Cancel its wait.
        Cancel = 1 => "cancel its wait",
        /// Flag it to end, and cancel its wait.
        FlagAndCancel = 2 => "flag it to end, and cancel its wait",
        /// Flag it to end, and tell its CPU.
        FlagAndNudge = 3 => "flag it to end, and tell its CPU",
        /// Mark its wait as cancelled, and wake it.
        MarkAndWake = 4 => "mark its wait as cancelled, and wake it",
        /// It is an idle task.
        Idle = 5 => "it is an idle task",
        /// Its id is not known.
        BadId = 6 => "its id is not known",
        /// It waits for nothing.
        NotBlocked = 7 => "it waits for nothing",
        /// Its slot is Empty.
        Empty = 8 => "its slot is Empty",
    }
}
