//! Format, create, append and unlink.

use std::collections::BTreeSet;

use crate::file::contents;
use crate::layout::{
    is_directory, AreaHeader, Block, Inode, FIRST_BLOCK, FIRST_DIRECTORY, FIRST_FILE, NONE, ROOT,
};
use crate::lookup::{children, walk, DIRECTORY};
use crate::mount::{descriptors, mount, Descriptor, FileArea, FileSystem};
use crate::path;
use crate::refusal::{number, Refusal};
use crate::Create;

/// "over 8,192 bytes to append", or to overwrite (T-05).
pub const APPEND: usize = 8192;

/// "Format (checks 1, then 3 if fewer than two entries)".
pub fn format(image: &mut [u8], areas: &[u32]) -> u32 {
    number(try_format(image, areas))
}

fn try_format(image: &mut [u8], areas: &[u32]) -> Result<(), Refusal> {
    let descriptors = descriptors(image, areas)?;
    if descriptors.len() < 2 {
        return Err(Refusal::Areas);
    }
    let scratch = longest(&descriptors);
    erase_and_head(image, &descriptors[scratch], 0, AreaHeader::SCRATCH);
    let mut files = descriptors.clone();
    files.remove(scratch);
    for (id, at) in files.iter().enumerate() {
        erase_and_head(image, at, 0, id as u8);
    }
    // "The root record (sequence 0) goes to the first file area."
    let root = Inode::new(ROOT, 0, NONE, b"").bytes();
    put(image, files[0].start + AreaHeader::SIZE, &root);
    Ok(())
}

/// "The longest, first among equals, is scratch".
fn longest(descriptors: &[Descriptor]) -> usize {
    let length = descriptors.iter().map(|at| at.len()).max();
    descriptors.iter().position(|at| Some(at.len()) == length).unwrap_or(0)
}

/// "erases ... to FF, writes headers".
pub fn erase_and_head(image: &mut [u8], at: &Descriptor, count: u8, id: u8) {
    image[at.clone()].fill(0xff);
    let header = AreaHeader { length: at.len() as u32, count, id };
    put(image, at.start, &header.bytes());
}

pub fn put(image: &mut [u8], offset: usize, bytes: &[u8]) {
    image[offset..offset + bytes.len()].copy_from_slice(bytes);
}

/// What accepted records name "as id, parent, owner or previous", new records
/// of the same call included.
struct Named(BTreeSet<u32>);

impl Named {
    fn of(fs: &FileSystem) -> Named {
        Named(fs.accepted().flat_map(|record| record.named()).collect())
    }

    /// "the smallest id of their range that no accepted record names".
    fn take(&mut self, first: u32) -> u32 {
        let mut id = first;
        while self.0.contains(&id) {
            id += 1;
        }
        self.0.insert(id);
        id
    }
}

/// The free space of one clean file area, as a part of the image.
struct Room {
    at: usize,
    end: usize,
}

/// The records of one call with their places in the image, "all pieces or
/// none".
pub struct Plan {
    rooms: Vec<Room>,
    puts: Vec<(usize, Vec<u8>)>,
}

impl Plan {
    pub fn new(fs: &FileSystem) -> Plan {
        let clean = fs.file_areas.iter().filter(|area| area.reading.is_clean());
        let room =
            |area: &FileArea| Room { at: area.at.start + area.reading.free, end: area.at.end };
        Plan { rooms: clean.map(room).collect(), puts: Vec::new() }
    }

    /// "Each record goes to the first clean file area, in descriptor order,
    /// with room, at the start of its free space", or 15.
    pub fn add(&mut self, record: Vec<u8>) -> Result<(), Refusal> {
        let room = self.rooms.iter_mut().find(|room| room.end - room.at >= record.len());
        let Some(room) = room else { return Err(Refusal::NoRoom) };
        let at = room.at;
        room.at += record.len();
        self.puts.push((at, record));
        Ok(())
    }

    pub fn write(self, image: &mut [u8]) {
        for (at, record) in self.puts {
            put(image, at, &record);
        }
    }
}

/// "Create is told file or directory and answers the new id". Kind 0 is a
/// directory, every other number a file.
pub fn create(image: &mut [u8], areas: &[u32], base: &[u8], path: &[u8], kind: u32) -> Create {
    match try_create(image, areas, base, path, kind) {
        Ok(id) => Create { number: 0, id },
        Err(refusal) => Create { number: refusal.number(), id: 0 },
    }
}

fn try_create(
    image: &mut [u8],
    areas: &[u32],
    base: &[u8],
    path: &[u8],
    kind: u32,
) -> Result<u32, Refusal> {
    let fs = mount(image, areas)?;
    let names = path::names(base, path)?;
    let Some((name, above)) = names.split_last() else { return Err(Refusal::BadRequest) };
    let parent = walk(&fs, above)?;
    name_is_new(&fs, parent, name)?;
    fs.tables_hold(1, 0)?;
    let first = if kind == DIRECTORY { FIRST_DIRECTORY } else { FIRST_FILE };
    let id = Named::of(&fs).take(first);
    let mut plan = Plan::new(&fs);
    plan.add(Inode::new(id, 0, parent, name).bytes())?;
    plan.write(image);
    Ok(id)
}

/// "a name asked for below a file is 11 ... create's last name included; ...
/// for that name, in a directory, only 12 is asked."
pub fn name_is_new(fs: &FileSystem, parent: u32, name: &[u8]) -> Result<(), Refusal> {
    if !is_directory(parent) {
        return Err(Refusal::WrongKind);
    }
    if !children(fs, parent, name).is_empty() {
        return Err(Refusal::NameTaken);
    }
    Ok(())
}

/// "Append cuts the data into pieces of the greatest block size, the last one
/// shorter, each naming the one before".
pub fn append(image: &mut [u8], areas: &[u32], base: &[u8], path: &[u8], data: &[u8]) -> u32 {
    number(try_append(image, areas, base, path, data))
}

fn try_append(
    image: &mut [u8],
    areas: &[u32],
    base: &[u8],
    path: &[u8],
    data: &[u8],
) -> Result<(), Refusal> {
    let fs = mount(image, areas)?;
    let (owner, blocks) = file_to_write(&fs, base, path, data)?;
    let last = blocks.last().map_or(NONE, |block| block.id);
    let pieces: Vec<&[u8]> = data.chunks(fs.greatest_block()).collect();
    fs.tables_hold(0, pieces.len())?;
    let (mut named, mut plan) = (Named::of(&fs), Plan::new(&fs));
    let mut previous = last;
    // "all pieces or none": nothing is written before each has its place.
    for piece in pieces {
        let id = named.take(FIRST_BLOCK);
        plan.add(Block::new(id, 0, owner, previous, piece).bytes())?;
        previous = id;
    }
    plan.write(image);
    Ok(())
}

/// The file that data is to be written to, and its blocks, after 8 to 11 and 13:
/// "open and append of a directory are 11".
pub fn file_to_write(
    fs: &FileSystem,
    base: &[u8],
    path: &[u8],
    data: &[u8],
) -> Result<(u32, Vec<Block>), Refusal> {
    let names = path::names(base, path)?;
    if data.len() > APPEND {
        return Err(Refusal::BadRequest);
    }
    let file = walk(fs, &names)?;
    if is_directory(file) {
        return Err(Refusal::WrongKind);
    }
    Ok((file, contents(fs, file)?))
}

/// "Unlink writes a deletion record, sequence plus one, no name".
pub fn unlink(image: &mut [u8], areas: &[u32], base: &[u8], path: &[u8]) -> u32 {
    number(try_unlink(image, areas, base, path))
}

fn try_unlink(image: &mut [u8], areas: &[u32], base: &[u8], path: &[u8]) -> Result<(), Refusal> {
    let fs = mount(image, areas)?;
    let names = path::names(base, path)?;
    if names.is_empty() {
        return Err(Refusal::BadRequest);
    }
    let id = walk(&fs, &names)?;
    let sequence = fs.inode(id).map_or(0, |inode| inode.sequence);
    let next = sequence.checked_add(1).ok_or(Refusal::LastSequence)?;
    let mut plan = Plan::new(&fs);
    plan.add(Inode::new(id, next, NONE, b"").bytes())?;
    plan.write(image);
    Ok(())
}
