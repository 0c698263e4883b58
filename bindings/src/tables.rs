//! The tables, as they lie in memory on both sides of the boundary. None of them is `Copy`, so that no call can be made on a copy by
//! accident. A flag is a byte, 0 or 1; any other byte is damage, and the table is refused with 1.
use crate::{Cookie, Refusal, TaskId, irqwait, parktime, runqueue, tasks, wake};

/// A task table without its arrays. 80 bytes.
#[repr(C)]
#[derive(Clone, Copy, Debug, PartialEq, Eq)]
pub struct Small {
    pub n: usize,
    pub heads: [usize; 2],
    pub lens: [usize; 2],
    pub currents: [TaskId; 2],
    pub idles: [TaskId; 2],
    pub parked: u8,
    pub parked_id: TaskId,
    pub overwrites: u32,
    pub block_events: u32,
    pub peak: u32,
}

/// A task table. Of the 64 places for slots the first n count; the ring of CPU c stands at c * 64. 912 bytes.
#[repr(C)]
#[derive(Clone, Debug, PartialEq, Eq)]
pub struct Tasks {
    pub small: Small,
    pub states: [u8; 64],
    pub epochs: [u16; 64],
    pub homes: [u8; 64],
    pub marks: [u8; 64],
    pub ring_slots: [u16; 128],
    pub ring_epochs: [u16; 128],
}

impl Tasks {
    /// All zero, for memory that has to hold something before `tasks::init`: not sound, so every call refuses it.
    pub const ZERO: Tasks = Tasks {
        small: Small {
            n: 0,
            heads: [0; 2],
            lens: [0; 2],
            currents: [TaskId::IDLE; 2],
            idles: [TaskId::IDLE; 2],
            parked: 0,
            parked_id: TaskId::IDLE,
            overwrites: 0,
            block_events: 0,
            peak: 0,
        },
        states: [0; 64],
        epochs: [0; 64],
        homes: [0; 64],
        marks: [0; 64],
        ring_slots: [0; 128],
        ring_epochs: [0; 128],
    };

    /// A table of `n` slots, 1 to 64, not started.
    pub fn new(n: usize) -> Result<Tasks, Refusal> {
        let mut t = Tasks::ZERO;
        tasks::init(&mut t, n).done()?;
        Ok(t)
    }
}

/// A ring without its entries. 24 bytes.
#[repr(C)]
#[derive(Clone, Copy, Debug, PartialEq, Eq)]
pub struct Span {
    pub n: usize,
    pub head: usize,
    pub len: usize,
}

/// A ring of ready tasks. Of the 64 places the first n count. 280 bytes.
#[repr(C)]
#[derive(Clone, Debug, PartialEq, Eq)]
pub struct RunQueue {
    pub span: Span,
    pub slots: [u16; 64],
    pub epochs: [u16; 64],
}

impl RunQueue {
    /// All zero, for memory that has to hold something before `runqueue::init`: not sound, so every call refuses it.
    pub const ZERO: RunQueue = RunQueue { span: Span { n: 0, head: 0, len: 0 }, slots: [0; 64], epochs: [0; 64] };

    /// An empty ring of `n` places, 1 to 64.
    pub fn new(n: usize) -> Result<RunQueue, Refusal> {
        let mut q = RunQueue::ZERO;
        runqueue::init(&mut q, n).done()?;
        Ok(q)
    }
}

/// A wake queue without its tokens. 32 bytes.
#[repr(C)]
#[derive(Clone, Copy, Debug, PartialEq, Eq)]
pub struct Ends {
    pub c: usize,
    pub head: usize,
    pub tail: usize,
    pub drops: u32,
}

/// The queue of wake tokens. Of the 64 places the first c count. 288 bytes.
#[repr(C)]
#[derive(Clone, Debug, PartialEq, Eq)]
pub struct WakeQueue {
    pub ends: Ends,
    pub tokens: [u32; 64],
}

impl WakeQueue {
    /// All zero, for memory that has to hold something before `wake::init`: not sound, so every call refuses it.
    pub const ZERO: WakeQueue = WakeQueue { ends: Ends { c: 0, head: 0, tail: 0, drops: 0 }, tokens: [0; 64] };

    /// An empty queue of `c` places: 2, 4, 8, 16, 32 or 64, of which one stays free.
    pub fn new(c: usize) -> Result<WakeQueue, Refusal> {
        let mut q = WakeQueue::ZERO;
        wake::init(&mut q, c).done()?;
        Ok(q)
    }
}

/// One task that waits for an interrupt. 12 bytes.
#[repr(C)]
#[derive(Clone, Copy, Debug, PartialEq, Eq)]
pub struct Waiter {
    pub live: u8,
    pub cookie: Cookie,
    pub task: TaskId,
}

/// A wait table without its marks. 96 bytes.
#[repr(C)]
#[derive(Clone, Copy, Debug, PartialEq, Eq)]
pub struct Waiters {
    pub all: [Waiter; 8],
}

/// Interrupt waits, and for each slot whether an interrupt has come for a task of it: a flag, and the whole id. 416 bytes.
#[repr(C)]
#[derive(Clone, Debug, PartialEq, Eq)]
pub struct WaitTable {
    pub waiters: Waiters,
    pub pending: [u8; 64],
    pub pending_slots: [u16; 64],
    pub pending_epochs: [u16; 64],
}

impl WaitTable {
    /// All zero: nobody waits and nothing is pending.
    pub const ZERO: WaitTable = WaitTable {
        waiters: Waiters { all: [Waiter { live: 0, cookie: Cookie(0), task: TaskId::IDLE }; 8] },
        pending: [0; 64],
        pending_slots: [0; 64],
        pending_epochs: [0; 64],
    };

    /// A table in which nobody waits and nothing is pending.
    pub fn new() -> WaitTable {
        let mut t = WaitTable::ZERO;
        irqwait::init(&mut t);
        t
    }
}

impl Default for WaitTable {
    fn default() -> Self {
        WaitTable::new()
    }
}

/// One deadline. 16 bytes.
#[repr(C)]
#[derive(Clone, Copy, Debug, PartialEq, Eq)]
pub struct Entry {
    pub live: u8,
    pub task: TaskId,
    pub deadline: u64,
}

/// The sixteen deadlines. 256 bytes.
#[repr(C)]
#[derive(Clone, Debug, PartialEq, Eq)]
pub struct Table {
    pub entries: [Entry; 16],
}

impl Table {
    /// All zero: no deadlines.
    pub const ZERO: Table = Table { entries: [Entry { live: 0, task: TaskId::IDLE, deadline: 0 }; 16] };

    /// No deadlines.
    pub fn new() -> Table {
        let mut t = Table::ZERO;
        parktime::init(&mut t);
        t
    }
}

impl Default for Table {
    fn default() -> Self {
        Table::new()
    }
}
