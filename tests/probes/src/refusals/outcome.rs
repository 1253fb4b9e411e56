//! How a row ends.

use crate::rattle::alloc::AllocError;

/// Whether an allocation failed in a row.
#[derive(Clone, Copy, PartialEq, Eq)]
pub enum Memory {
    Given,
    Refused,
}

/// What is wrong in a row.
#[derive(Clone, Copy)]
pub struct Wrong(pub &'static str);

/// At most one allocation of a run fails, so a second error is wrong.
impl From<AllocError> for Wrong {
    fn from(_error: AllocError) -> Wrong {
        Wrong("an error after the first one")
    }
}

/// Returns `Wrong` with this text if the fact doesn't hold.
pub fn must(holds: bool, otherwise: &'static str) -> Result<(), Wrong> {
    if holds { Ok(()) } else { Err(Wrong(otherwise)) }
}
