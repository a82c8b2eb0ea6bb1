//! "How an area is read."

use crate::layout::{AreaHeader, Record};

/// A record taken, with its offset in the area.
#[derive(Clone, Debug, PartialEq, Eq)]
pub struct Taken {
    pub offset: usize,
    pub record: Record,
}

/// "A maximal run of skipped bytes is a stretch."
#[derive(Clone, Copy, Debug, Default, PartialEq, Eq)]
pub struct Stretch {
    pub offset: usize,
    pub length: usize,
}

impl Stretch {
    pub fn end(&self) -> usize {
        self.offset + self.length
    }
}

#[derive(Clone, Debug, PartialEq, Eq)]
pub struct Reading {
    /// The records taken, in order.
    pub records: Vec<Taken>,
    /// The stretches that are damage, in order; offsets are in the area.
    pub damage: Vec<Stretch>,
    /// Where free space starts; the area's length if there is none.
    pub free: usize,
}

impl Reading {
    /// "An area is clean when it has no damage."
    pub fn is_clean(&self) -> bool {
        self.damage.is_empty()
    }

    pub fn damage_bytes(&self) -> usize {
        self.damage.iter().map(|stretch| stretch.length).sum()
    }

    /// "the offset of the first damage stretch and its length (both 0 if there
    /// is none)" (document 02, T-08).
    pub fn first_damage(&self) -> Stretch {
        self.stretch(0)
    }

    /// Damage stretch number `n`, from 0; "both 0 if there are not so many".
    pub fn stretch(&self, n: usize) -> Stretch {
        self.damage.get(n).copied().unwrap_or_default()
    }
}

/// "Start at 24. If an acceptable record starts here, take it and go on at its
/// end; otherwise skip one byte."
pub fn read(area: &[u8]) -> Reading {
    let mut records = Vec::new();
    let mut stretches = Vec::new();
    let mut at = AreaHeader::SIZE;
    while at < area.len() {
        if let Some(record) = Record::acceptable(&area[at..]) {
            let offset = at;
            at += record.size();
            records.push(Taken { offset, record });
        } else {
            skip(&mut stretches, at);
            at += 1;
        }
    }
    let free = free_space(area, &stretches);
    Reading { records, damage: damage(stretches, free), free }
}

/// The byte here belongs to the stretch that ends here, or begins one.
fn skip(stretches: &mut Vec<Stretch>, at: usize) {
    match stretches.last_mut() {
        Some(last) if last.end() == at => last.length += 1,
        _ => stretches.push(Stretch { offset: at, length: 1 }),
    }
}

/// "The part of the last stretch that is FF up to the area's end is free
/// space": where it starts.
fn free_space(area: &[u8], stretches: &[Stretch]) -> usize {
    let mut free = area.len();
    let Some(last) = stretches.last().filter(|last| last.end() == free) else { return free };
    while free > last.offset && area[free - 1] == 0xff {
        free -= 1;
    }
    free
}

/// "What is left of it, if anything, and every other stretch is damage."
fn damage(stretches: Vec<Stretch>, free: usize) -> Vec<Stretch> {
    stretches
        .into_iter()
        .map(|stretch| Stretch { length: stretch.end().min(free) - stretch.offset, ..stretch })
        .filter(|stretch| stretch.length > 0)
        .collect()
}
