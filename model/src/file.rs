//! "A live file's contents", open and read.

use std::collections::{BTreeMap, BTreeSet};

use crate::layout::{is_file, Block, NONE};
use crate::lookup::find;
use crate::mount::{mount, Fate, FileSystem};
use crate::refusal::Refusal;
use crate::{Handle, Open, Read};

/// The blocks of a live file, "joined from the NONE end", or 13.
pub fn contents(fs: &FileSystem, id: u32) -> Result<Vec<Block>, Refusal> {
    let blocks: Vec<&Block> = fs.blocks().filter(|block| block.owner == id).collect();
    if blocks.is_empty() {
        return Ok(Vec::new());
    }
    chain(&blocks).ok_or(Refusal::Broken)
}

/// "one chain by "previous", one block named by none of them, ending in NONE,
/// using all of them", in file order.
fn chain(blocks: &[&Block]) -> Option<Vec<Block>> {
    let by_id: BTreeMap<u32, &Block> = blocks.iter().map(|block| (block.id, *block)).collect();
    let named: BTreeSet<u32> = blocks.iter().map(|block| block.previous).collect();
    let unnamed: Vec<&&Block> = blocks.iter().filter(|block| !named.contains(&block.id)).collect();
    let [last] = unnamed[..] else { return None };
    let mut chain = vec![(*last).clone()];
    while chain.len() < blocks.len() {
        let previous = chain[chain.len() - 1].previous;
        let block = by_id.get(&previous)?;
        chain.push((*block).clone());
    }
    chain.reverse();
    // A chain that came to a block twice would not end.
    (chain[0].previous == NONE).then_some(chain)
}

/// "Open gives position 0; open ... of a directory" is 11.
pub fn open(image: &[u8], areas: &[u32], base: &[u8], path: &[u8]) -> Open {
    match find(image, areas, base, path) {
        Ok(id) if is_file(id) => Open { number: 0, id, position: 0 },
        Ok(_) => Open { number: Refusal::WrongKind.number(), ..Open::default() },
        Err(refusal) => Open { number: refusal.number(), ..Open::default() },
    }
}

/// The blocks a read is from, after 9, 11, 13 and 14.
fn readable(fs: &FileSystem, id: u32, position: u32) -> Result<Vec<Block>, Refusal> {
    if fs.fate(id) != Fate::Live {
        return Err(Refusal::Absent);
    }
    if !is_file(id) {
        return Err(Refusal::WrongKind);
    }
    let blocks = contents(fs, id)?;
    if position as usize > size(&blocks) {
        return Err(Refusal::AfterEnd);
    }
    Ok(blocks)
}

pub fn size(blocks: &[Block]) -> usize {
    blocks.iter().map(|block| block.data.len()).sum()
}

/// "those from the last block back to the one holding the first byte given":
/// all blocks that end after the position.
fn headers(blocks: &[Block], position: usize) -> usize {
    let mut end = 0;
    let ends_after = |block: &&Block| {
        end += block.data.len();
        end > position
    };
    blocks.iter().filter(ends_after).count()
}

/// "A read gives as many bytes as the buffer and the file allow, in the front
/// of the buffer".
pub fn read_at(image: &[u8], areas: &[u32], id: u32, position: u32, buffer: &mut [u8]) -> Read {
    let found = mount(image, areas).and_then(|fs| readable(&fs, id, position));
    let blocks = match found {
        Ok(blocks) => blocks,
        Err(refusal) => return Read { number: refusal.number(), ..Read::default() },
    };
    let data: Vec<u8> = blocks.iter().flat_map(|block| block.data.clone()).collect();
    let rest = &data[position as usize..];
    let given = rest.len().min(buffer.len());
    buffer[..given].copy_from_slice(&rest[..given]);
    let headers = if given == 0 { 0 } else { headers(&blocks, position as usize) };
    Read { number: 0, given: given as u32, headers: headers as u32 }
}

/// "a file handle holds an id and a position, and a read moves the position in
/// place."
pub fn read(image: &[u8], areas: &[u32], handle: &mut Handle, buffer: &mut [u8]) -> Read {
    let answer = read_at(image, areas, handle.id, handle.position, buffer);
    handle.position += answer.given;
    answer
}
