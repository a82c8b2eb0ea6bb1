//! What the two baselines differ in. All else they share.

use crate::record::{BLOCK_HEADER, INODE_HEADER};

pub trait Style {
    /// The check over an inode's header up to its last field, the check, and
    /// over the name.
    fn inode_check(header: &[u8; INODE_HEADER], name: &[u8]) -> u16;

    /// The check over a block's header up to its last field, the check, and
    /// over the data.
    fn block_check(header: &[u8; BLOCK_HEADER], data: &[u8]) -> u16;

    /// The first place from `at` on where a record may start, `end` if there
    /// is none.
    fn next_start(area: &[u8], at: usize, end: usize) -> usize;
}
