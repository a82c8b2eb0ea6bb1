//! Images about the greatest block size (document 02, T-03): areas of lengths at
//! the edges of its rule, and blocks as document 01 had them written.

use super::images::{place, shape, write_headers};
use super::random::Random;
use crate::forge::Flash;
use crate::layout::{Block, Inode, BLOCK_DATA, FIRST_BLOCK, FIRST_FILE, NONE, ROOT};
use crate::mount::greatest_block;

/// The shortest areas.
pub const SHORT: [usize; 4] = [128, 129, 130, 131];
/// About the areas of the customer who asked, and the first that give 2,048.
const LONG: [usize; 9] = [4096, 4143, 4144, 4145, 4165, 4166, 4167, 4168, 4169];

/// Areas of one length, an even one mostly, so that two blocks can fill one;
/// sometimes another is a little longer.
fn at_the_edges(r: &mut Random) -> (Flash, usize) {
    let length = match r.below(10) {
        0..=3 => r.pick(&[128, 130]),
        4 | 5 => r.pick(&SHORT),
        6 => 4144,
        _ => r.pick(&LONG),
    };
    let most = if length < LONG[0] { 8 } else { 5 };
    let mut lengths = vec![length; r.between(2, most)];
    if r.chance(20) {
        lengths[0] += r.between(1, 60);
    }
    (place(r, &lengths), length)
}

/// A formatted volume, with a file into which some full blocks were appended.
pub fn edges(r: &mut Random) -> Flash {
    let (mut flash, length) = at_the_edges(r);
    let Flash { image, areas, .. } = &mut flash;
    crate::format(image, areas);
    crate::create(image, areas, b"", b"/a", 1);
    for k in 0..r.below(areas.len()) {
        let full = numbered(k, greatest_block(length));
        crate::append(image, areas, b"", b"/a", &full);
    }
    flash
}

/// "the smaller of 2,048 and half the shortest file area's length, rounded down,
/// less 24": the greatest block size of document 01.
fn earlier_greatest_block(shortest: usize) -> usize {
    (shortest / 2 - Block::HEADER).min(BLOCK_DATA)
}

/// A volume whose file was written by the rule of document 01: full blocks and a
/// last one, each in the first area with room. Mostly some room is left.
pub fn earlier(r: &mut Random) -> Flash {
    let mut flash = if r.chance(50) { at_the_edges(r).0 } else { shape(r) };
    let scratch = write_headers(r, &mut flash);
    let files: Vec<usize> = (0..flash.areas.len() / 2).filter(|area| *area != scratch).collect();
    let shortest = files.iter().map(|area| flash.length(*area)).min().unwrap_or(SHORT[0]);
    let size = earlier_greatest_block(shortest);
    let mut records = vec![Inode::new(ROOT, 0, NONE, b"").bytes()];
    records.push(Inode::new(FIRST_FILE, 0, ROOT, b"a").bytes());
    let data = numbered(0, size * r.between(1, files.len()) + r.below(size));
    let mut previous = NONE;
    for (piece, id) in data.chunks(size).zip(FIRST_BLOCK..) {
        records.push(Block::new(id, 0, FIRST_FILE, previous, piece).bytes());
        previous = id;
    }
    // A record without room ends the file.
    let _ = records.iter().all(|record| files.iter().any(|area| flash.put(*area, record)));
    flash
}

/// So many bytes, told apart by a number; drawing each would use up a script.
pub fn numbered(number: usize, length: usize) -> Vec<u8> {
    (0..length).map(|i| (i % 251 + number) as u8).collect()
}
