//! Ids in the order of first sight, each with the record that counts, and an
//! index of them.

/// What is known of an id when a record of it is seen.
#[derive(Clone, Copy, Debug, PartialEq, Eq)]
pub enum Seen {
    First,
    /// The record counts from here on; that at this place counted before.
    Newer(usize),
    /// The record that counts, here, has the same sequence.
    Same(usize),
    Older,
    /// There is no place for another id.
    Full,
}

/// SLOTS is a power of two greater than N, so a search meets an empty slot.
#[derive(Clone, Debug)]
pub struct Table<const N: usize, const SLOTS: usize> {
    length: usize,
    ids: [u32; N],
    places: [u32; N],
    sequences: [u32; N],
    /// An entry's number and 1; 0 is empty.
    slots: [u16; SLOTS],
}

impl<const N: usize, const SLOTS: usize> Table<N, SLOTS> {
    pub const fn new() -> Self {
        let (ids, places, sequences) = ([0; N], [0; N], [0; N]);
        Table { length: 0, ids, places, sequences, slots: [0; SLOTS] }
    }

    pub fn clear(&mut self) {
        self.length = 0;
        self.slots.fill(0);
    }

    pub fn ids(&self) -> &[u32] {
        &self.ids[..self.length]
    }

    /// For each id the place of the record that counts.
    pub fn places(&self) -> &[u32] {
        &self.places[..self.length]
    }

    pub fn place(&self, entry: usize) -> usize {
        self.places[entry] as usize
    }

    pub fn sequence(&self, entry: usize) -> u32 {
        self.sequences[entry]
    }

    /// Where the search for an id begins: the highest bits of a product, which
    /// all bits of the id have a part in.
    pub const fn home(id: u32) -> usize {
        (id.wrapping_mul(0x9e37_79b1) >> (32 - SLOTS.ilog2())) as usize
    }

    /// The slot of this id and what it holds, or the empty one where it would be.
    #[inline(always)]
    fn probe(&self, id: u32) -> (usize, usize) {
        let mut slot = Self::home(id) % SLOTS;
        loop {
            let held = usize::from(self.slots[slot]);
            if held == 0 || self.ids[held - 1] == id {
                return (slot, held);
            }
            slot = (slot + 1) % SLOTS;
        }
    }

    pub fn find(&self, id: u32) -> Option<usize> {
        self.probe(id).1.checked_sub(1)
    }

    #[inline(always)]
    pub fn see(&mut self, id: u32, sequence: u32, place: usize) -> Seen {
        let (slot, held) = self.probe(id);
        if held == 0 {
            return self.add(slot, id, sequence, place);
        }
        let entry = held - 1;
        let old = self.place(entry);
        if sequence > self.sequences[entry] {
            self.sequences[entry] = sequence;
            self.places[entry] = place as u32;
            Seen::Newer(old)
        } else if sequence == self.sequences[entry] {
            Seen::Same(old)
        } else {
            Seen::Older
        }
    }

    #[inline(always)]
    fn add(&mut self, slot: usize, id: u32, sequence: u32, place: usize) -> Seen {
        if self.length == N {
            return Seen::Full;
        }
        let entry = self.length;
        self.ids[entry] = id;
        self.sequences[entry] = sequence;
        self.places[entry] = place as u32;
        self.length += 1;
        self.slots[slot] = self.length as u16;
        Seen::First
    }
}

impl<const N: usize, const SLOTS: usize> Default for Table<N, SLOTS> {
    fn default() -> Self {
        Self::new()
    }
}
