//! Task ids and their packed form. `From` does the same.
use crate::{TaskId, Token, sys};

/// The packed id: epoch * 65,536 + slot.
#[must_use]
pub fn to_raw(id: TaskId) -> Token {
    sys::bredumalt_ids_to_raw(id)
}

/// The id that a packed one stands for.
#[must_use]
pub fn from_raw(raw: Token) -> TaskId {
    sys::bredumalt_ids_from_raw(raw)
}
