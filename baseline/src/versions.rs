//! The records that don't count, by id and sequence: two of one id and one
//! sequence must have the same bytes, though neither counts.

use crate::record::{id_at, sequence_at};

/// More than twice the most records, and a power of two.
const SLOTS: usize = 8192;

#[derive(Clone, Debug)]
pub struct Versions {
    used: bool,
    /// The place of a record, which is never 0; 0 is empty.
    slots: [u16; SLOTS],
}

impl Versions {
    pub const fn new() -> Versions {
        Versions { used: false, slots: [0; SLOTS] }
    }

    /// Most images have one record of each id, or few more: the slots are only
    /// emptied when there is something to put.
    pub fn clear(&mut self) {
        self.used = false;
    }

    /// Where the search for a version begins.
    pub const fn home(id: u32, sequence: u32) -> usize {
        let key = (id as u64) << 32 | sequence as u64;
        (key.wrapping_mul(0x9e37_79b9_7f4a_7c15) >> (64 - SLOTS.ilog2())) as usize
    }

    /// Puts the record at this place, or says where one of its id and sequence
    /// was put before.
    #[inline]
    pub fn put(&mut self, image: &[u8], place: usize) -> Option<usize> {
        if !self.used {
            self.slots.fill(0);
            self.used = true;
        }
        let version = |place: usize| (id_at(image, place), sequence_at(image, place));
        let wanted = version(place);
        let mut slot = Self::home(wanted.0, wanted.1) % SLOTS;
        while self.slots[slot] != 0 {
            let other = usize::from(self.slots[slot]);
            if version(other) == wanted {
                return Some(other);
            }
            slot = (slot + 1) % SLOTS;
        }
        self.slots[slot] = place as u16;
        None
    }
}

impl Default for Versions {
    fn default() -> Self {
        Self::new()
    }
}
