//! Names that stand in an image, and records with a reserved byte that is not 0: display aids.
//!
//! The call that lists what is live tells no ids, and its lines do not always part a name from its
//! depth and size. So for paths names are looked for in the bytes, wherever something begins like an
//! inode's record: neither checks nor sequence numbers are looked at, so what is found may be
//! damaged, old or part of a file. Every live inode is among it, since a record begins there.
//! These are candidates only: what is live, where it stands and what it holds is asked of the calls.
//!
//! Of records with a reserved byte that is not 0 the check is looked at, and no other rule.

use nffs::Area;
use std::collections::BTreeSet;

const INODE_MAGIC: [u8; 4] = 0x925f_8bc0_u32.to_le_bytes();
const BLOCK_MAGIC: [u8; 4] = 0x53ba_23b9_u32.to_le_bytes();
const HEADER_SIZE: usize = 20;
/// The bytes of its header that an inode's check covers; behind them it stands itself.
const COVERED: usize = 18;

/// A name that something like a record gives an id.
#[derive(Clone, PartialEq, Eq, PartialOrd, Ord)]
pub struct Candidate {
    pub parent: u32,
    pub name: Vec<u8>,
    pub id: u32,
}

/// All candidates of some areas, each once, in order of parent and name.
pub fn candidates(image: &[u8], areas: &[Area]) -> BTreeSet<Candidate> {
    places(image, areas).filter_map(|(_, bytes)| candidate(bytes)).collect()
}

/// Whether no id begins two records; false too where it only looks like it.
pub fn is_each_once(image: &[u8], areas: &[Area]) -> bool {
    let mut ids = BTreeSet::new();
    let id = |(_, bytes): (usize, &[u8])| match bytes {
        [a, b, c, d, id @ ..] if [INODE_MAGIC, BLOCK_MAGIC].contains(&[*a, *b, *c, *d]) => {
            id.first_chunk().map(|id| u32::from_le_bytes(*id))
        }
        _ => None,
    };
    places(image, areas).filter_map(id).all(|id| ids.insert(id))
}

/// What begins like an inode's record, with a right check and a reserved byte that is not 0.
pub struct ReservedRecord {
    pub offset: usize,
    pub reserved: u8,
    pub id: u32,
    pub parent: u32,
    pub name: Vec<u8>,
}

/// The records that are not acceptable since version 0.4.0, for their reserved byte at least: no rule
/// on ids, parents and names is looked at, and by one of these no version may have read them. Their
/// check is right: without it a record that was torn behind its magic would look like one.
pub fn reserved_records(image: &[u8], areas: &[Area]) -> Vec<ReservedRecord> {
    let one = |(offset, bytes): (usize, &[u8])| {
        let (header, name) = inode(bytes)?;
        let found = ReservedRecord {
            offset,
            reserved: header[16],
            id: field(header, 4),
            parent: field(header, 12),
            name: name.to_vec(),
        };
        (header[16] != 0 && has_right_check(header, name)).then_some(found)
    };
    places(image, areas).filter_map(one).collect()
}

fn has_right_check(header: &[u8], name: &[u8]) -> bool {
    let covered = header[..COVERED].iter().chain(name);
    covered.fold(0, check).to_le_bytes() == header[COVERED..]
}

/// CRC-16/XMODEM, with a byte more.
fn check(crc: u16, byte: &u8) -> u16 {
    let step = |crc: u16| (crc << 1) ^ if crc & 0x8000 == 0 { 0 } else { 0x1021 };
    (0..8).fold(crc ^ (u16::from(*byte) << 8), |crc, _| step(crc))
}

/// Each place of some areas, and what is left of the area from there on.
fn places<'a>(image: &'a [u8], areas: &'a [Area]) -> impl Iterator<Item = (usize, &'a [u8])> {
    let bytes_of = |area: &Area| {
        let start = area.offset as usize;
        (start, image.get(start..start + area.length as usize).unwrap_or_default())
    };
    let places_of = |(start, bytes): (usize, &'a [u8])| {
        (0..bytes.len()).map(move |place| (start + place, &bytes[place..]))
    };
    areas.iter().map(bytes_of).flat_map(places_of)
}

/// Header and name of what begins like an inode's record.
fn inode(bytes: &[u8]) -> Option<(&[u8], &[u8])> {
    let (header, rest) = bytes.split_at_checked(HEADER_SIZE)?;
    let name = rest.get(..usize::from(header[17]))?;
    (header[..4] == INODE_MAGIC).then_some((header, name))
}

fn field(header: &[u8], at: usize) -> u32 {
    u32::from_le_bytes([header[at], header[at + 1], header[at + 2], header[at + 3]])
}

fn candidate(bytes: &[u8]) -> Option<Candidate> {
    let (header, name) = inode(bytes)?;
    let named = !name.is_empty() && !name.contains(&b'/') && !name.contains(&0);
    named.then(|| Candidate {
        parent: field(header, 12),
        name: name.to_vec(),
        id: field(header, 4),
    })
}

#[cfg(test)]
mod tests {
    #[test]
    fn the_published_check_value() {
        assert_eq!(b"123456789".iter().fold(0, super::check), 0x31c3);
    }
}
