//! The scheduling core of Bredumalt over its C boundary.
//!
//! Two ways to call it. `Scheduler` owns the four tables of a board and has a method for each call, with answers by their types. Below
//! that stands a function for each exported call, on one table, in the modules `ids`, `runqueue`, `wake`, `irqwait`, `parktime`, `tasks`
//! and `lifecycle`: it changes the table where it lies and gives an `Answer`, which is numbers.
//!
//! A kernel written for the customer's own modules takes `harbor` instead, which has them under the same names and signatures.
//!
//! Every call is total and takes any bits. A table that is not sound is refused with 1, and a number that names nothing with 12; a call
//! that refuses leaves every table and every lent buffer as it was. So the fields of tables are open. Trusted here is that a call is
//! handed the fields of its table, and that its small part is stored back. What the answers and the tables are is proved on the other
//! side of the boundary, in the crate `bredumalt` of Rattle.
//!
//! What the archive needs of the firmware, its stack included, stands at the top of `include/bredumalt.h`.
#![no_std]
#![deny(unsafe_op_in_unsafe_fn, missing_debug_implementations)]

#[cfg(not(all(target_arch = "x86_64", target_pointer_width = "64", not(any(windows, target_os = "uefi")))))]
compile_error!("the archive of bredumalt is for x86-64 with the System V calling convention");

mod answers;
mod names;
mod scheduler;
mod tables;

pub mod harbor;
pub mod ids;
pub mod irqwait;
pub mod lifecycle;
pub mod parktime;
pub mod runqueue;
pub mod sys;
pub mod tasks;
pub mod wake;

pub use answers::{Answer, Decision, Reply, answer};
pub use names::{Cookie, Kind, Refusal, State, TaskId, Token, Verdict};
pub use scheduler::{Due, Scheduler};
pub use tables::{Ends, Entry, RunQueue, Small, Span, Table, Tasks, WaitTable, Waiter, Waiters, WakeQueue};
