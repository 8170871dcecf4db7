//! Rows and buffers lent to the library between two guards, which must come back as they were.

use std::fmt::Debug;

/// An entry of a row or a buffer; ALIEN is a value that tells when it is read or overwritten.
pub trait Entry: Copy + PartialEq + Debug {
    const ALIEN: Self;
}

/// Above every limit, so a sample read outside the row is refused or spoils the sum.
impl Entry for u32 {
    const ALIEN: Self = u32::MAX;
}

impl Entry for u16 {
    const ALIEN: Self = u16::MAX;
}

/// No letter of a text, and neither a good first byte of a record nor a good last one.
impl Entry for u8 {
    const ALIEN: Self = u8::MAX;
}

/// How many entries stand before and behind what is lent.
const GUARDS: usize = 64;

pub struct Guarded<T> {
    entries: Vec<T>,
}

impl<T: Entry> Guarded<T> {
    /// A row to be read.
    pub fn holding(row: &[T]) -> Self {
        let guards = [T::ALIEN; GUARDS];
        Guarded {
            entries: [&guards, row, &guards].concat(),
        }
    }

    /// A buffer to be written, alien throughout.
    pub fn with_room(room: usize) -> Self {
        Guarded::holding(&vec![T::ALIEN; room])
    }

    fn room(&self) -> usize {
        self.entries.len() - 2 * GUARDS
    }

    pub fn lent(&self) -> &[T] {
        &self.entries[GUARDS..][..self.room()]
    }

    pub fn lent_mut(&mut self) -> &mut [T] {
        let room = self.room();
        &mut self.entries[GUARDS..][..room]
    }

    /// What is wrong, unless the lent part begins with these entries and all the rest is alien.
    pub fn differs_from(&self, begins: &[T]) -> Option<String> {
        let wanted = |at: usize| match at.checked_sub(GUARDS) {
            Some(place) => begins.get(place).copied().unwrap_or(T::ALIEN),
            None => T::ALIEN,
        };
        let at = (0..self.entries.len()).find(|&at| self.entries[at] != wanted(at))?;
        let place = at as i64 - GUARDS as i64;
        let (is, wanted, room) = (self.entries[at], wanted(at), self.room());
        Some(format!(
            "entry {place} of {room} lent is {is:?} and must be {wanted:?}"
        ))
    }
}
