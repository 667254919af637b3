//! Memory, asked for so that a system that has none is a refusal and no abort.

use crate::refusal::{Place, Refusal, Result};

/// Makes a room so long. False where it is that long already, or there is no memory for it.
pub(crate) fn widen<T: Copy + Default>(room: &mut Vec<T>, size: usize) -> bool {
    let more = size.saturating_sub(room.len());
    let had = more > 0 && room.try_reserve_exact(more).is_ok();
    if had {
        room.resize(size, T::default());
    }
    had
}

/// Cuts a room to so many places, and gives back what is over.
pub(crate) fn cut<T>(room: &mut Vec<T>, size: usize) {
    room.truncate(size);
    room.shrink_to(size);
}

/// Empty, with memory for so many; 7 where there is none.
pub(crate) fn spare<T>(size: usize) -> Result<Vec<T>> {
    let mut room = Vec::new();
    match room.try_reserve_exact(size) {
        Ok(()) => Ok(room),
        Err(_) => Err(Refusal::new(7, Place::Nowhere)),
    }
}

/// An output of so many places; 7 where there is no memory for it.
pub(crate) fn output<T: Copy + Default>(size: usize) -> Result<Vec<T>> {
    let mut out = Vec::new();
    match size == 0 || widen(&mut out, size) {
        true => Ok(out),
        false => Err(Refusal::new(7, Place::Nowhere)),
    }
}
