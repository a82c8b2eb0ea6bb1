//! Format, create, append and unlink.

use crate::area::{self, SCRATCH};
use crate::crc;
use crate::file::contents;
use crate::layout::{
    AREAS, BLOCKS, FIRST_BLOCK, FIRST_FILE, INODES, LAST_DIRECTORY, NONE, RECORDS, ROOT,
};
use crate::lookup::{children, walk};
use crate::mount::{descriptors, try_mount, Volume};
use crate::path::Names;
use crate::record::{
    above_at, id_at, previous_at, sequence_at, BLOCK_HEADER, BLOCK_MAGIC, INODE_HEADER, INODE_MAGIC,
};
use crate::refusal::{number, Refusal};

const APPEND: usize = 8192;
/// The shortest file area makes pieces of 28 bytes.
const PIECES: usize = APPEND.div_ceil(28);

pub fn format(image: &mut [u8], areas: &[u32]) -> u32 {
    number(try_format(image, areas))
}

fn try_format(image: &mut [u8], areas: &[u32]) -> Result<(), Refusal> {
    let descriptors = descriptors(image, areas)?;
    let list = descriptors.listed();
    if list.len() < 2 {
        return Err(Refusal::Areas);
    }
    let longest = list.iter().map(|area| area.1).max();
    let scratch = list.iter().position(|area| Some(area.1) == longest).unwrap_or(0);
    for (index, area) in list.iter().enumerate() {
        let id =
            if index == scratch { SCRATCH } else { (index - usize::from(index > scratch)) as u8 };
        erase_and_head(image, *area, 0, id);
    }
    let first = list[usize::from(scratch == 0)].0;
    put_inode(image, first + area::HEADER, [ROOT, 0, NONE], &[]);
    Ok(())
}

pub fn erase_and_head(image: &mut [u8], (offset, length): (usize, usize), count: u8, id: u8) {
    let area = &mut image[offset..offset + length];
    area.fill(0xff);
    put_words(area, &area::MAGIC);
    put_words(&mut area[16..], &[length as u32]);
    area[20..area::HEADER].copy_from_slice(&[0, count, 0, id]);
}

fn put_words(bytes: &mut [u8], words: &[u32]) {
    for (place, word) in bytes.chunks_exact_mut(4).zip(words) {
        place.copy_from_slice(&word.to_le_bytes());
    }
}

/// The fields are id, sequence and parent.
fn put_inode(image: &mut [u8], place: usize, fields: [u32; 3], name: &[u8]) {
    let record = &mut image[place..place + INODE_HEADER + name.len()];
    put_words(record, &[INODE_MAGIC, fields[0], fields[1], fields[2]]);
    record[16..18].copy_from_slice(&[0, name.len() as u8]);
    put_checked(record, 18, name);
}

/// The fields are id, owner and previous; the sequence is 0.
fn put_block(image: &mut [u8], place: usize, fields: [u32; 3], data: &[u8]) {
    let record = &mut image[place..place + BLOCK_HEADER + data.len()];
    put_words(record, &[BLOCK_MAGIC, fields[0], 0, fields[1], fields[2]]);
    record[20..22].copy_from_slice(&(data.len() as u16).to_le_bytes());
    put_checked(record, 22, data);
}

/// The check, which covers the header before it and the body, and the body.
fn put_checked(record: &mut [u8], at: usize, body: &[u8]) {
    let check = crc::update(crc::update(0, &record[..at]), body);
    record[at..at + 2].copy_from_slice(&check.to_le_bytes());
    record[at + 2..].copy_from_slice(body);
}

/// Which ids of a range are named by accepted records or used by the call
/// itself: a record names three ids at most, so the smallest unused one is no
/// farther than that.
struct Named {
    first: u32,
    words: [u64; WORDS],
}

const WORDS: usize = (3 * RECORDS + PIECES).div_ceil(64);

impl Named {
    fn of(image: &[u8], volume: &Volume, first: u32) -> Named {
        let mut named = Named { first, words: [0; WORDS] };
        for place in volume.places() {
            let place = usize::from(*place);
            let id = id_at(image, place);
            named.mark(id);
            named.mark(above_at(image, place));
            if id >= FIRST_BLOCK {
                named.mark(previous_at(image, place));
            }
        }
        named
    }

    fn mark(&mut self, id: u32) {
        let at = id.wrapping_sub(self.first) as usize;
        if let Some(word) = self.words.get_mut(at / 64) {
            *word |= 1 << (at % 64);
        }
    }

    fn take(&mut self) -> u32 {
        let at = self.words.iter().position(|word| *word != u64::MAX).unwrap_or(0);
        let id = self.first + 64 * at as u32 + self.words[at].trailing_ones();
        self.mark(id);
        id
    }
}

/// The free space of each clean file area, as places in the image.
#[derive(Clone)]
struct Rooms {
    rooms: [(usize, usize); AREAS],
}

impl Rooms {
    fn of(volume: &Volume) -> Rooms {
        let mut rooms = [(0, 0); AREAS];
        for (room, area) in rooms.iter_mut().zip(volume.files()) {
            if area.stretches == 0 {
                *room = ((area.start + area.free) as usize, (area.start + area.length) as usize);
            }
        }
        Rooms { rooms }
    }

    /// The place of the next record of this size.
    fn place(&mut self, size: usize) -> Result<usize, Refusal> {
        let room = self.rooms.iter_mut().find(|room| room.1 - room.0 >= size);
        let room = room.ok_or(Refusal::NoRoom)?;
        room.0 += size;
        Ok(room.0 - size)
    }
}

#[derive(Clone, Copy, Debug, Default, PartialEq, Eq)]
pub struct Create {
    pub number: u32,
    pub id: u32,
}

/// `kind` 0 creates a directory, every other number a file.
pub fn create(
    image: &mut [u8],
    areas: &[u32],
    base: &[u8],
    path: &[u8],
    kind: u32,
    volume: &mut Volume,
) -> Create {
    match try_create(image, areas, base, path, kind, volume) {
        Ok(id) => Create { number: 0, id },
        Err(refusal) => Create { number: refusal.number(), id: 0 },
    }
}

fn try_create(
    image: &mut [u8],
    areas: &[u32],
    base: &[u8],
    path: &[u8],
    kind: u32,
    volume: &mut Volume,
) -> Result<u32, Refusal> {
    try_mount(image, areas, volume)?;
    let names = Names::of(base, path)?;
    let (name, above) = names.split_last().ok_or(Refusal::BadRequest)?;
    let parent = walk(image, volume, &above)?;
    if parent > LAST_DIRECTORY {
        return Err(Refusal::WrongKind);
    }
    if children(image, volume, parent, name).next().is_some() {
        return Err(Refusal::NameTaken);
    }
    if volume.inodes.ids().len() == INODES {
        return Err(Refusal::Tables);
    }
    let first = if kind == 0 { ROOT } else { FIRST_FILE };
    let id = Named::of(image, volume, first).take();
    let place = Rooms::of(volume).place(INODE_HEADER + name.len())?;
    put_inode(image, place, [id, 0, parent], name);
    Ok(id)
}

pub fn append(
    image: &mut [u8],
    areas: &[u32],
    base: &[u8],
    path: &[u8],
    data: &[u8],
    volume: &mut Volume,
) -> u32 {
    number(try_append(image, areas, base, path, data, volume))
}

fn try_append(
    image: &mut [u8],
    areas: &[u32],
    base: &[u8],
    path: &[u8],
    data: &[u8],
    volume: &mut Volume,
) -> Result<(), Refusal> {
    try_mount(image, areas, volume)?;
    let names = Names::of(base, path)?;
    if data.len() > APPEND {
        return Err(Refusal::BadRequest);
    }
    let owner = walk(image, volume, &names)?;
    if owner <= LAST_DIRECTORY {
        return Err(Refusal::WrongKind);
    }
    let last = contents(image, volume, owner)?.entries().next();
    let previous = last.map_or(NONE, |entry| volume.blocks.ids()[entry]);
    let pieces = data.chunks(volume.greatest_block());
    if volume.blocks.ids().len() + pieces.len() > BLOCKS {
        return Err(Refusal::Tables);
    }
    // All pieces or none: each must have its place before one is written.
    let mut rooms = Rooms::of(volume);
    let mut tried = rooms.clone();
    pieces.clone().try_for_each(|piece| tried.place(BLOCK_HEADER + piece.len()).map(|_| ()))?;
    put_pieces(image, volume, pieces, owner, previous, &mut rooms)
}

fn put_pieces(
    image: &mut [u8],
    volume: &Volume,
    pieces: core::slice::Chunks<u8>,
    owner: u32,
    mut previous: u32,
    rooms: &mut Rooms,
) -> Result<(), Refusal> {
    let mut named = Named::of(image, volume, FIRST_BLOCK);
    for piece in pieces {
        let id = named.take();
        let place = rooms.place(BLOCK_HEADER + piece.len())?;
        put_block(image, place, [id, owner, previous], piece);
        previous = id;
    }
    Ok(())
}

pub fn unlink(
    image: &mut [u8],
    areas: &[u32],
    base: &[u8],
    path: &[u8],
    volume: &mut Volume,
) -> u32 {
    number(try_unlink(image, areas, base, path, volume))
}

fn try_unlink(
    image: &mut [u8],
    areas: &[u32],
    base: &[u8],
    path: &[u8],
    volume: &mut Volume,
) -> Result<(), Refusal> {
    try_mount(image, areas, volume)?;
    let names = Names::of(base, path)?;
    names.split_last().ok_or(Refusal::BadRequest)?;
    let id = walk(image, volume, &names)?;
    let entry = volume.inodes.find(id).ok_or(Refusal::Absent)?;
    let sequence = sequence_at(image, volume.inodes.place(entry));
    let next = sequence.checked_add(1).ok_or(Refusal::LastSequence)?;
    let place = Rooms::of(volume).place(INODE_HEADER)?;
    put_inode(image, place, [id, next, NONE], &[]);
    Ok(())
}
