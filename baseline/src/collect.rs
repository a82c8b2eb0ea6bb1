//! Collection.

use crate::area::{COUNT_AT, HEADER, ID_AT, SCRATCH};
use crate::fate::{fates, Fate};
use crate::layout::{is_block, BLOCKS, INODES};
use crate::mount::{try_mount, FileArea, Volume};
use crate::record::{above_at, bytes_at, id_at, sequence_at};
use crate::refusal::{number, Refusal};
use crate::write::erase_and_head;

pub fn collect(image: &mut [u8], areas: &[u32], volume: &mut Volume) -> u32 {
    number(try_collect(image, areas, volume))
}

fn try_collect(image: &mut [u8], areas: &[u32], volume: &mut Volume) -> Result<(), Refusal> {
    try_mount(image, areas, volume)?;
    let source = source(image, volume).ok_or(Refusal::NoSource)?;
    let (start, length) = (source.start as usize, source.length as usize);
    let scratch = volume.scratch_offset as usize;
    image[scratch + HEADER..scratch + length].fill(0xff);
    image[scratch + ID_AT] = image[start + ID_AT];
    copy(image, volume, &source);
    let count = image[start + COUNT_AT].wrapping_add(1);
    erase_and_head(image, (start, length), count, SCRATCH);
    Ok(())
}

/// The first file area as long as scratch that no other such one precedes, or
/// the first such one.
fn source(image: &[u8], volume: &Volume) -> Option<FileArea> {
    let files = volume.files().iter();
    let eligible = files.filter(|area| area.length == volume.scratch_length);
    let count = |area: &FileArea| image[area.start as usize + COUNT_AT];
    let precedes = |a: u8, b: u8| (1..=127).contains(&b.wrapping_sub(a));
    let preceded = |area: &FileArea| eligible.clone().any(|a| precedes(count(a), count(area)));
    let found = eligible.clone().find(|area| !preceded(area));
    found.or_else(|| eligible.clone().next()).copied()
}

fn lies_in(area: &FileArea, place: usize) -> bool {
    (area.start as usize..(area.start + area.length) as usize).contains(&place)
}

/// What keeps the dead of the source area.
struct Kept {
    /// Inodes that another record names, as id from another area, parent or
    /// owner.
    inodes: [bool; INODES],
    /// Blocks of which another area has a record.
    blocks: [bool; BLOCKS],
}

fn kept(image: &[u8], volume: &Volume, source: &FileArea) -> Kept {
    let mut kept = Kept { inodes: [false; INODES], blocks: [false; BLOCKS] };
    for place in volume.places() {
        let place = usize::from(*place);
        let (id, above, inside) =
            (id_at(image, place), above_at(image, place), lies_in(source, place));
        let own = match is_block(id) {
            true => volume.blocks.find(id).map(|entry| &mut kept.blocks[entry]),
            false => volume.inodes.find(id).map(|entry| &mut kept.inodes[entry]),
        };
        if let Some(own) = own {
            *own |= !inside;
        }
        if let Some(entry) = volume.inodes.find(above) {
            kept.inodes[entry] |= !inside || id != above;
        }
    }
    kept
}

/// Copies to scratch the counting records of the source in the order of their
/// first places there, each once.
fn copy(image: &mut [u8], volume: &Volume, source: &FileArea) {
    let (fates, kept) = (fates(image, &volume.inodes), kept(image, volume, source));
    let mut done = Kept { inodes: [false; INODES], blocks: [false; BLOCKS] };
    let mut to = volume.scratch_offset as usize + HEADER;
    for place in volume.places().iter().map(|place| usize::from(*place)) {
        if lies_in(source, place) && is_copied(image, volume, place, &fates, &kept, &mut done) {
            let size = bytes_at(image, place).len();
            image.copy_within(place..place + size, to);
            to += size;
        }
    }
}

/// Whether the record counts, wasn't copied before and isn't dead for good.
fn is_copied(
    image: &[u8],
    volume: &Volume,
    place: usize,
    fates: &[Fate; INODES],
    kept: &Kept,
    done: &mut Kept,
) -> bool {
    let (id, sequence) = (id_at(image, place), sequence_at(image, place));
    let fate = |id: u32| volume.inodes.find(id).map_or(Fate::Orphan, |entry| fates[entry]);
    if is_block(id) {
        let Some(entry) = volume.blocks.find(id) else { return false };
        let counts = volume.blocks.sequence(entry) == sequence;
        let first = counts && !core::mem::replace(&mut done.blocks[entry], true);
        return first && (fate(above_at(image, place)) != Fate::Dead || kept.blocks[entry]);
    }
    let Some(entry) = volume.inodes.find(id) else { return false };
    let counts = volume.inodes.sequence(entry) == sequence;
    let first = counts && !core::mem::replace(&mut done.inodes[entry], true);
    first && (fate(id) != Fate::Dead || kept.inodes[entry])
}
