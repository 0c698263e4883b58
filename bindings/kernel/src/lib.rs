//! What stands in the place of the customer's crate of this name, as far as it is the six modules.
#![no_std]

#[cfg(not(feature = "theirs"))]
pub use bredumalt::harbor::{irqwait, lifecycle, parktime, runqueue, tasks, wake};
#[cfg(feature = "theirs")]
pub use customer::{irqwait, lifecycle, parktime, runqueue, tasks, wake};
