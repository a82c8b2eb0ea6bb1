//! Which inodes are live, dead or orphans.

use crate::layout::{INODES, NONE, ROOT};
use crate::mount::Inodes;
use crate::record::above_at;

#[derive(Clone, Copy, Debug, PartialEq, Eq)]
pub enum Fate {
    Unknown,
    /// On the way up that is being gone.
    Open,
    Live,
    Dead,
    Orphan,
}

/// One step up from an entry: where its chain ends there, or the next entry.
fn step(image: &[u8], inodes: &Inodes, entry: usize) -> Result<usize, Fate> {
    if inodes.ids()[entry] == ROOT {
        return Err(Fate::Live);
    }
    match above_at(image, inodes.place(entry)) {
        NONE => Err(Fate::Dead),
        parent => inodes.find(parent).ok_or(Fate::Orphan),
    }
}

/// The fate of each entry; no chain is gone up twice.
pub fn fates(image: &[u8], inodes: &Inodes) -> [Fate; INODES] {
    let mut fates = [Fate::Unknown; INODES];
    let mut way = [0; INODES];
    for entry in 0..inodes.ids().len() {
        let (steps, fate) = climb(image, inodes, &mut fates, &mut way, entry);
        way[..steps].iter().for_each(|passed: &u16| fates[usize::from(*passed)] = fate);
    }
    fates
}

/// Up to an entry whose fate is known or a chain's end: how many entries were
/// passed, and their fate. One that was passed already makes a loop.
fn climb(
    image: &[u8],
    inodes: &Inodes,
    fates: &mut [Fate; INODES],
    way: &mut [u16; INODES],
    entry: usize,
) -> (usize, Fate) {
    let (mut at, mut steps) = (entry, 0);
    loop {
        match fates[at] {
            Fate::Unknown => fates[at] = Fate::Open,
            Fate::Open => return (steps, Fate::Orphan),
            known => return (steps, known),
        }
        way[steps] = at as u16;
        steps += 1;
        match step(image, inodes, at) {
            Ok(next) => at = next,
            Err(fate) => return (steps, fate),
        }
    }
}

/// The fate of one id.
pub fn fate(image: &[u8], inodes: &Inodes, id: u32) -> Fate {
    let Some(mut at) = inodes.find(id) else { return Fate::Orphan };
    for _ in 0..inodes.ids().len() {
        match step(image, inodes, at) {
            Ok(next) => at = next,
            Err(fate) => return fate,
        }
    }
    Fate::Orphan
}
