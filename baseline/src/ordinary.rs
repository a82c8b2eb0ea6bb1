//! The ordinary baseline: a table of 256 entries, and a jump that looks at each
//! byte.

use crate::crc::update;
use crate::record::{BLOCK_HEADER, BLOCK_MAGIC, INODE_HEADER, INODE_MAGIC};
use crate::style::Style;

pub struct Ordinary;

/// The first byte of each magic.
const INODE_FIRST: u8 = INODE_MAGIC.to_le_bytes()[0];
const BLOCK_FIRST: u8 = BLOCK_MAGIC.to_le_bytes()[0];

impl Style for Ordinary {
    #[inline]
    fn inode_check(header: &[u8; INODE_HEADER], name: &[u8]) -> u16 {
        let [covered @ .., _, _] = header;
        update(update(0, covered), name)
    }

    #[inline]
    fn block_check(header: &[u8; BLOCK_HEADER], data: &[u8]) -> u16 {
        let [covered @ .., _, _] = header;
        update(update(0, covered), data)
    }

    /// Jumps over bytes that cannot begin a magic.
    #[inline]
    fn next_start(area: &[u8], at: usize, end: usize) -> usize {
        let begins_magic = |byte: &u8| matches!(*byte, INODE_FIRST | BLOCK_FIRST);
        area[at..end].iter().position(begins_magic).map_or(end, |passed| at + passed)
    }
}
