//! A file's contents, open and read.

use crate::fate::{fate, Fate};
use crate::layout::{is_file, BLOCKS, NONE};
use crate::lookup::find;
use crate::mount::{try_mount, Volume};
use crate::record::{above_at, data_at, previous_at};
use crate::refusal::Refusal;

/// The entries of a file's blocks from the last back to the first, and its size.
pub struct Chain {
    entries: [u16; BLOCKS],
    length: usize,
    size: usize,
}

impl Chain {
    pub fn entries(&self) -> impl Iterator<Item = usize> + '_ {
        self.entries[..self.length].iter().map(|entry| usize::from(*entry))
    }
}

/// One chain of all the blocks that name the file, or it is broken.
pub fn contents(image: &[u8], volume: &Volume, id: u32) -> Result<Chain, Refusal> {
    let (count, last) = last_block(image, volume, id);
    let mut chain = Chain { entries: [0; BLOCKS], length: 0, size: 0 };
    if count == 0 {
        return Ok(chain);
    }
    let mut next = last;
    for _ in 0..count {
        let entry = next.ok_or(Refusal::Broken)?;
        let place = volume.blocks.place(entry);
        if above_at(image, place) != id {
            return Err(Refusal::Broken);
        }
        chain.entries[chain.length] = entry as u16;
        chain.length += 1;
        chain.size += data_at(image, place).len();
        next = volume.blocks.find(previous_at(image, place));
    }
    // As many steps as blocks, and the end: so each of them once.
    let first = usize::from(chain.entries[count - 1]);
    if previous_at(image, volume.blocks.place(first)) != NONE {
        return Err(Refusal::Broken);
    }
    Ok(chain)
}

/// How many blocks name the file, and one of those that none of them names. If
/// there are two of these, the chain from one never comes to the other.
fn last_block(image: &[u8], volume: &Volume, id: u32) -> (usize, Option<usize>) {
    let mut named = [false; BLOCKS];
    let own = |place: &u32| above_at(image, *place as usize) == id;
    let places = volume.blocks.places();
    let mut count = 0;
    for place in places.iter().filter(|place| own(place)) {
        count += 1;
        if let Some(entry) = volume.blocks.find(previous_at(image, *place as usize)) {
            named[entry] = true;
        }
    }
    let last = (0..places.len()).find(|entry| own(&places[*entry]) && !named[*entry]);
    (count, last)
}

#[derive(Clone, Copy, Debug, Default, PartialEq, Eq)]
pub struct Open {
    pub number: u32,
    pub id: u32,
    pub position: u32,
}

pub fn open(image: &[u8], areas: &[u32], base: &[u8], path: &[u8], volume: &mut Volume) -> Open {
    match find(image, areas, base, path, volume) {
        Ok(id) if is_file(id) => Open { number: 0, id, position: 0 },
        Ok(_) => Open { number: Refusal::WrongKind.number(), ..Open::default() },
        Err(refusal) => Open { number: refusal.number(), ..Open::default() },
    }
}

#[derive(Clone, Copy, Debug, Default, PartialEq, Eq)]
pub struct Read {
    pub number: u32,
    pub given: u32,
    pub headers: u32,
}

pub fn read_at(
    image: &[u8],
    areas: &[u32],
    id: u32,
    position: u32,
    buffer: &mut [u8],
    volume: &mut Volume,
) -> Read {
    match readable(image, areas, id, position as usize, volume) {
        Ok(chain) => give(image, volume, &chain, position as usize, buffer),
        Err(refusal) => Read { number: refusal.number(), ..Read::default() },
    }
}

fn readable(
    image: &[u8],
    areas: &[u32],
    id: u32,
    position: usize,
    volume: &mut Volume,
) -> Result<Chain, Refusal> {
    try_mount(image, areas, volume)?;
    if fate(image, &volume.inodes, id) != Fate::Live {
        return Err(Refusal::Absent);
    }
    if !is_file(id) {
        return Err(Refusal::WrongKind);
    }
    let chain = contents(image, volume, id)?;
    if position > chain.size {
        return Err(Refusal::AfterEnd);
    }
    Ok(chain)
}

/// From the last block back to the one that holds the first byte given.
fn give(image: &[u8], volume: &Volume, chain: &Chain, position: usize, buffer: &mut [u8]) -> Read {
    let given = buffer.len().min(chain.size - position);
    let stop = position + given;
    let (mut end, mut headers) = (chain.size, 0);
    for entry in chain.entries() {
        if end <= position || given == 0 {
            break;
        }
        headers += 1;
        let data = data_at(image, volume.blocks.place(entry));
        let start = end - data.len();
        let (from, to) = (start.max(position), end.min(stop));
        if from < to {
            buffer[from - position..to - position].copy_from_slice(&data[from - start..to - start]);
        }
        end = start;
    }
    Read { number: 0, given: given as u32, headers }
}
