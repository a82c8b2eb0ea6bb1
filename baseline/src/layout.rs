//! Ids and fields, little-endian.

pub const NONE: u32 = 0xffff_ffff;
pub const ROOT: u32 = 0;
pub const LAST_DIRECTORY: u32 = 0x0fff_ffff;
pub const FIRST_FILE: u32 = 0x1000_0000;
pub const LAST_FILE: u32 = 0x7fff_ffff;
pub const FIRST_BLOCK: u32 = 0x8000_0000;

/// The longest image, and the most records that it has room for.
pub const IMAGE: usize = 65_536;
pub const RECORDS: usize = IMAGE / 20;
pub const AREAS: usize = 16;
pub const INODES: usize = 256;
pub const BLOCKS: usize = 1024;

pub fn is_file(id: u32) -> bool {
    (FIRST_FILE..=LAST_FILE).contains(&id)
}

pub fn is_block(id: u32) -> bool {
    (FIRST_BLOCK..NONE).contains(&id)
}

#[inline(always)]
pub fn word(bytes: &[u8], at: usize) -> u32 {
    u32::from_le_bytes([bytes[at], bytes[at + 1], bytes[at + 2], bytes[at + 3]])
}

#[inline(always)]
pub fn half(bytes: &[u8], at: usize) -> u16 {
    u16::from_le_bytes([bytes[at], bytes[at + 1]])
}
