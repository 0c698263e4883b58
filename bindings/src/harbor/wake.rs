//! The queue of wake tokens, from interrupts to the main loop.
use super::or_stop;
use crate::{Answer, Token, WakeQueue as WakeTable, wake as call};
use core::cell::UnsafeCell;
use core::fmt;
use core::hint::spin_loop;
use core::sync::atomic::{AtomicBool, Ordering};

/// A queue of `N` places: 2, 4, 8, 16, 32 or 64, of which one stays free. Another number does not compile:
///
/// ```compile_fail,E0080
/// static QUEUE: bredumalt::harbor::wake::WakeQueue<128> = bredumalt::harbor::wake::WakeQueue::new();
/// ```
///
/// Any number of callers may push and pop, from anywhere; each call waits for its turn (`super::Lock`).
#[repr(C)]
pub struct WakeQueue<const N: usize> {
    table: UnsafeCell<WakeTable>,
    /// Whether a call is being made.
    busy: AtomicBool,
}

// SAFETY: `table` is reached through `&self` in `with` alone, by one caller at a time.
unsafe impl<const N: usize> Sync for WakeQueue<N> {}

impl<const N: usize> WakeQueue<N> {
    pub const fn new() -> Self {
        const { assert!(N >= 2 && N <= 64 && N.is_power_of_two(), "a wake queue has 2, 4, 8, 16, 32 or 64 places") }
        let mut table = WakeTable::ZERO;
        table.ends.c = N;
        WakeQueue { table: UnsafeCell::new(table), busy: AtomicBool::new(false) }
    }

    /// The queue as the proved calls have it.
    pub fn table(&mut self) -> &WakeTable {
        self.table.get_mut()
    }

    /// Puts a token behind the others: false where the queue is full, and the drop is counted.
    #[track_caller]
    pub fn push(&self, token: u32) -> bool {
        or_stop(self.with(|table| call::push(table, Token(token))).told())
    }

    /// Takes the oldest token.
    #[track_caller]
    pub fn pop(&self) -> Option<u32> {
        or_stop(self.with(call::pop).token()).map(|token| token.0)
    }

    /// How many pushes found the queue full.
    #[track_caller]
    pub fn drops(&self) -> u32 {
        or_stop(self.with(|table| call::drops(table)).count()) as u32
    }

    #[track_caller]
    pub fn is_empty(&self) -> bool {
        or_stop(self.with(|table| call::is_empty(table)).told())
    }

    // A refusal is looked at by the caller of this, with the lock released: the hook does not return.
    #[track_caller]
    fn with(&self, made: impl FnOnce(&mut WakeTable) -> Answer) -> Answer {
        let lock = super::lock();
        let was = (lock.acquire)();
        while self.busy.swap(true, Ordering::Acquire) {
            spin_loop();
        }
        // SAFETY: `busy` was false and is set, so nobody else is here until it is cleared, and what the last one wrote is seen.
        let answer = made(unsafe { &mut *self.table.get() });
        self.busy.store(false, Ordering::Release);
        (lock.release)(was);
        answer
    }
}

impl<const N: usize> Default for WakeQueue<N> {
    fn default() -> Self {
        Self::new()
    }
}

/// Its size alone: to show what it holds would take the lock.
impl<const N: usize> fmt::Debug for WakeQueue<N> {
    fn fmt(&self, f: &mut fmt::Formatter) -> fmt::Result {
        write!(f, "WakeQueue<{N}>")
    }
}
