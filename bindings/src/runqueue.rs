//! The FIFO ring of ready tasks. Refuses with 1 a ring that is not sound.
use crate::{Answer, RunQueue, TaskId, sys};

/// Makes an empty ring of `n` places, 1 to 64, whatever was there; 2 for another `n`.
pub fn init(queue: &mut RunQueue, n: usize) -> Answer {
    let got = sys::bredumalt_runqueue_new_at(&mut queue.slots, &mut queue.epochs, queue.span, n);
    queue.span = got.span;
    got.answer
}

/// Whether the ring is sound: 1 to 64 places, head below their number, length at most their number.
#[must_use]
pub fn sound(queue: &RunQueue) -> bool {
    sys::bredumalt_runqueue_sound_at(queue.span) == 1
}

/// How many places the ring has: a number.
pub fn capacity(queue: &RunQueue) -> Answer {
    sys::bredumalt_runqueue_capacity_at(queue.span)
}

/// How many tasks are queued: a number.
pub fn len(queue: &RunQueue) -> Answer {
    sys::bredumalt_runqueue_len_at(queue.span)
}

/// Whether none is queued: true or false.
pub fn is_empty(queue: &RunQueue) -> Answer {
    sys::bredumalt_runqueue_is_empty_at(queue.span)
}

/// Whether every place is taken: true or false.
pub fn is_full(queue: &RunQueue) -> Answer {
    sys::bredumalt_runqueue_is_full_at(queue.span)
}

/// The head, left where it is: an id or none.
pub fn front(queue: &RunQueue) -> Answer {
    ready_at(queue, 0)
}

/// The task at a place counted from the head: an id or none.
pub fn ready_at(queue: &RunQueue, index: usize) -> Answer {
    sys::bredumalt_runqueue_ready_at_at(&queue.slots, &queue.epochs, queue.span, index)
}

/// Puts a task at the tail; 11 where the ring is full.
pub fn enqueue(queue: &mut RunQueue, id: TaskId) -> Answer {
    let got = sys::bredumalt_runqueue_enqueue_at(&mut queue.slots, &mut queue.epochs, queue.span, id);
    queue.span = got.span;
    got.answer
}

/// Takes the head: an id or none.
pub fn dequeue(queue: &mut RunQueue) -> Answer {
    let got = sys::bredumalt_runqueue_dequeue_at(&mut queue.slots, &mut queue.epochs, queue.span);
    queue.span = got.span;
    got.answer
}

/// Puts `id` at the tail if `requeue` is set, then takes the head: an id or none; 11 where it must go to a full ring. `requeue` is a
/// `bool`, or the byte 0 or 1; 12 for any other byte, whatever the ring.
pub fn after_yield(queue: &mut RunQueue, requeue: impl Into<u8>, id: TaskId) -> Answer {
    let got = sys::bredumalt_runqueue_after_yield_at(&mut queue.slots, &mut queue.epochs, queue.span, requeue.into(), id);
    queue.span = got.span;
    got.answer
}
