//! The tuned baseline: up to 16 bytes of the check in a step, by as many tables,
//! and 16 places at once asked for a magic.

use crate::crc::eight_bits;
use crate::layout::word;
use crate::mount::{try_mount_by, Volume};
use crate::record::{BLOCK_HEADER, BLOCK_MAGIC, INODE_HEADER, INODE_MAGIC};
use crate::refusal::number;
use crate::style::Style;

pub struct Tuned;

/// As the ordinary `mount`.
pub fn mount(image: &[u8], areas: &[u32], volume: &mut Volume) -> u32 {
    number(try_mount_by::<Tuned>(image, areas, volume))
}

impl Style for Tuned {
    #[inline]
    fn inode_check(header: &[u8; INODE_HEADER], name: &[u8]) -> u16 {
        let [_, _, _, _, fields @ .., _, _] = header;
        update(step(AFTER_INODE_MAGIC, fields), name)
    }

    #[inline]
    fn block_check(header: &[u8; BLOCK_HEADER], data: &[u8]) -> u16 {
        let [_, _, _, _, fields @ .., low, high, _, _] = header;
        update(step(step(AFTER_BLOCK_MAGIC, fields), &[*low, *high]), data)
    }

    /// The first place where a whole magic stands.
    fn next_start(area: &[u8], at: usize, end: usize) -> usize {
        let at = without_magic(area, at, end);
        let is_magic = |at: &usize| {
            let magic = area.get(*at..*at + 4).map(|bytes| word(bytes, 0));
            magic == Some(INODE_MAGIC) || magic == Some(BLOCK_MAGIC)
        };
        (at..end).find(is_magic).unwrap_or(end)
    }
}

const MOST: usize = 16;

/// Table k: the register after a byte and k zero bytes, from 0.
static AFTER: [[u16; 256]; MOST] = tables();

const fn tables() -> [[u16; 256]; MOST] {
    let mut tables = [[0; 256]; MOST];
    let mut i = 0;
    while i < MOST * 256 {
        let (k, byte) = (i / 256, i % 256);
        let r = if k == 0 { (byte as u16) << 8 } else { tables[k - 1][byte] };
        tables[k][byte] = eight_bits(r);
        i += 1;
    }
    tables
}

/// The check begins with a magic, of which there are two.
const AFTER_INODE_MAGIC: u16 = after_magic(INODE_MAGIC);
const AFTER_BLOCK_MAGIC: u16 = after_magic(BLOCK_MAGIC);

const fn after_magic(magic: u32) -> u16 {
    let bytes = magic.to_le_bytes();
    let mut r = 0;
    let mut k = 0;
    while k < 4 {
        r = eight_bits(r ^ (bytes[k] as u16) << 8);
        k += 1;
    }
    r
}

/// N bytes at once, 2 to 16 of them: the lookups don't wait for each other.
#[inline(always)]
fn step<const N: usize>(r: u16, bytes: &[u8; N]) -> u16 {
    let [high, low] = r.to_be_bytes();
    let mut sum = 0;
    for k in 0..N {
        let of_register = match k {
            0 => high,
            1 => low,
            _ => 0,
        };
        sum ^= AFTER[N - 1 - k][usize::from(bytes[k] ^ of_register)];
    }
    sum
}

fn one(r: u16, byte: &u8) -> u16 {
    r << 8 ^ AFTER[0][usize::from((r >> 8) as u8 ^ byte)]
}

#[inline(always)]
fn steps<const N: usize>(r: u16, bytes: &[u8]) -> (u16, &[u8]) {
    let (steps, rest) = bytes.as_chunks::<N>();
    (steps.iter().fold(r, step::<N>), rest)
}

/// The register after these bytes.
#[inline]
fn update(r: u16, bytes: &[u8]) -> u16 {
    let (r, rest) = steps::<16>(r, bytes);
    let (r, rest) = steps::<8>(r, rest);
    let (r, rest) = steps::<4>(r, rest);
    let (r, rest) = steps::<2>(r, rest);
    rest.iter().fold(r, one)
}

/// So many places are asked at once: where a magic is found, they are gone
/// through one by one.
const LANES: usize = 16;

/// Jumps over bytes as long as no magic begins at any of the next ones.
#[inline]
fn without_magic(area: &[u8], mut at: usize, end: usize) -> usize {
    while at < end {
        let Some(window) = area[at..].first_chunk() else { return at };
        if begins_magic(window) {
            return at;
        }
        at += LANES;
    }
    at
}

/// Whether a magic begins at one of the first lanes. No branch inside, so that
/// the lanes are compared together.
#[inline]
fn begins_magic(window: &[u8; LANES + 3]) -> bool {
    let (inode, block) = (INODE_MAGIC.to_le_bytes(), BLOCK_MAGIC.to_le_bytes());
    let mut found = false;
    for i in 0..LANES {
        let is = |magic: &[u8; 4]| {
            (window[i] == magic[0])
                & (window[i + 1] == magic[1])
                & (window[i + 2] == magic[2])
                & (window[i + 3] == magic[3])
        };
        found |= is(&inode) | is(&block);
    }
    found
}
