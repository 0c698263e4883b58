//! The queue of wake tokens. Refuses with 1 a queue that is not sound.
use crate::{Answer, Token, WakeQueue, sys};

/// Makes an empty queue of `c` places: 2, 4, 8, 16, 32 or 64, of which one stays free, whatever was there; 2 for another `c`.
pub fn init(queue: &mut WakeQueue, c: usize) -> Answer {
    let got = sys::bredumalt_wake_new_at(&mut queue.tokens, queue.ends, c);
    queue.ends = got.ends;
    got.answer
}

/// Whether the queue is sound: a listed size, both indexes below it.
#[must_use]
pub fn sound(queue: &WakeQueue) -> bool {
    sys::bredumalt_wake_sound_at(queue.ends) == 1
}

/// How many pushes found the queue full: a number.
pub fn drops(queue: &WakeQueue) -> Answer {
    sys::bredumalt_wake_drops_at(queue.ends)
}

/// Whether no token is held: true or false.
pub fn is_empty(queue: &WakeQueue) -> Answer {
    sys::bredumalt_wake_is_empty_at(queue.ends)
}

/// Puts a token behind the others: true, or false where the queue is full and the drop is counted.
pub fn push(queue: &mut WakeQueue, token: Token) -> Answer {
    let got = sys::bredumalt_wake_push_at(&mut queue.tokens, queue.ends, token);
    queue.ends = got.ends;
    got.answer
}

/// Takes the oldest token: a value or none (`Answer::token`).
pub fn pop(queue: &mut WakeQueue) -> Answer {
    let got = sys::bredumalt_wake_pop_at(&mut queue.tokens, queue.ends);
    queue.ends = got.ends;
    got.answer
}
