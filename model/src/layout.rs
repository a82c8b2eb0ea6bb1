//! "Layouts": ids, area headers, inodes, blocks and the acceptable record.

use crate::crc::crc16;

/// "NONE ffffffff".
pub const NONE: u32 = 0xffff_ffff;
/// "the root (id 0)".
pub const ROOT: u32 = 0;
/// "n from 1 to 2,048"; "reading allows 2,048 always" (document 02, T-03).
pub const BLOCK_DATA: usize = 2048;

/// "directories 0 to 0fffffff".
pub fn is_directory(id: u32) -> bool {
    id <= 0x0fff_ffff
}

/// "files 10000000 to 7fffffff".
pub fn is_file(id: u32) -> bool {
    (0x1000_0000..=0x7fff_ffff).contains(&id)
}

/// "blocks 80000000 to fffffffe".
pub fn is_block(id: u32) -> bool {
    (0x8000_0000..=0xffff_fffe).contains(&id)
}

pub const FIRST_DIRECTORY: u32 = 0;
pub const FIRST_FILE: u32 = 0x1000_0000;
pub const FIRST_BLOCK: u32 = 0x8000_0000;

/// "Multi-byte fields are little-endian". The caller knows the field is there.
fn u32_at(bytes: &[u8], at: usize) -> u32 {
    u32::from_le_bytes([bytes[at], bytes[at + 1], bytes[at + 2], bytes[at + 3]])
}

fn u16_at(bytes: &[u8], at: usize) -> u16 {
    u16::from_le_bytes([bytes[at], bytes[at + 1]])
}

/// What every valid header and every acceptable inode has in its reserved byte:
/// "Records and area headers whose reserved byte isn't 0 are no longer
/// acceptable or valid" (document 02, T-14); "writers store 0".
pub const RESERVED: u8 = 0;

/// "area header: magic 4x4, length 4, version 1, collection count 1,
/// reserved 1, area id 1". Magic, version and reserved byte are the same in
/// every valid one.
#[derive(Clone, Copy, Debug, PartialEq, Eq)]
pub struct AreaHeader {
    pub length: u32,
    pub count: u8,
    pub id: u8,
}

impl AreaHeader {
    pub const SIZE: usize = 24;
    pub const MAGIC: [u32; 4] = [0xb98a_31e2, 0x7fb0_428c, 0xace0_8253, 0xb185_fc8e];
    pub const VERSION: u8 = 0;
    /// "Id 255 is scratch; any other is a file area."
    pub const SCRATCH: u8 = 255;
    /// Where count, reserved byte and id stand.
    pub const COUNT_AT: usize = 21;
    pub const RESERVED_AT: usize = 22;
    pub const ID_AT: usize = 23;

    pub fn bytes(&self) -> Vec<u8> {
        let mut bytes = Vec::new();
        for magic in Self::MAGIC {
            bytes.extend(magic.to_le_bytes());
        }
        bytes.extend(self.length.to_le_bytes());
        bytes.extend([Self::VERSION, self.count, RESERVED, self.id]);
        bytes
    }

    /// "A valid area header has the four magics, version 0 and a length equal
    /// to its descriptor's", and its reserved byte is 0 (T-14), scratch's too.
    /// `area` is what the descriptor describes.
    pub fn valid(area: &[u8]) -> Option<AreaHeader> {
        let magics = (0..4).all(|i| u32_at(area, 4 * i) == Self::MAGIC[i]);
        let length = u32_at(area, 16);
        let (version, reserved) = (area[20], area[Self::RESERVED_AT]);
        if !magics || version != Self::VERSION || length as usize != area.len() {
            return None;
        }
        let header = AreaHeader { length, count: area[Self::COUNT_AT], id: area[Self::ID_AT] };
        (reserved == RESERVED).then_some(header)
    }

    pub fn is_scratch(&self) -> bool {
        self.id == Self::SCRATCH
    }
}

/// "inode: magic 4, id 4, sequence 4, parent 4, reserved 1, name length 1,
/// check 2, then name". Magic and reserved byte are the same in every
/// acceptable one.
#[derive(Clone, Debug, PartialEq, Eq)]
pub struct Inode {
    pub id: u32,
    pub sequence: u32,
    pub parent: u32,
    pub name: Vec<u8>,
}

impl Inode {
    pub const MAGIC: u32 = 0x925f_8bc0;
    pub const HEADER: usize = 20;
    pub const CHECK: usize = 18;
    /// Where the reserved byte stands.
    pub const RESERVED_AT: usize = 16;

    pub fn new(id: u32, sequence: u32, parent: u32, name: &[u8]) -> Inode {
        Inode { id, sequence, parent, name: name.to_vec() }
    }

    pub fn bytes(&self) -> Vec<u8> {
        let mut bytes = Vec::new();
        for field in [Self::MAGIC, self.id, self.sequence, self.parent] {
            bytes.extend(field.to_le_bytes());
        }
        bytes.extend([RESERVED, self.name.len() as u8]);
        with_check(bytes, &self.name)
    }

    /// The inode at the front of `rest`, where its magic is, of which only
    /// "header and body lie inside the area", that the check is right and that
    /// the reserved byte is 0 (T-14) is known.
    fn parse(rest: &[u8]) -> Option<Inode> {
        if rest.len() < Self::HEADER {
            return None;
        }
        let end = Self::HEADER + usize::from(rest[17]);
        if rest.len() < end || !check_is_right(&rest[..end], Self::HEADER, Self::CHECK) {
            return None;
        }
        let inode = Inode {
            id: u32_at(rest, 4),
            sequence: u32_at(rest, 8),
            parent: u32_at(rest, 12),
            name: rest[Self::HEADER..end].to_vec(),
        };
        let reserved = rest[Self::RESERVED_AT];
        (reserved == RESERVED).then_some(inode)
    }

    /// The inode's part of "Acceptable record".
    pub fn fields_are_acceptable(&self) -> bool {
        let n = self.name.len();
        let name = !self.name.contains(&b'/') && !self.name.contains(&0);
        let parent = if self.id == ROOT {
            self.parent == NONE && n == 0
        } else {
            is_directory(self.parent) && (1..=255).contains(&n) || self.parent == NONE && n <= 255
        };
        self.id <= 0x7fff_ffff && name && parent
    }

    /// "or parent is NONE (a deletion record)", for ids other than 0.
    pub fn is_deletion(&self) -> bool {
        self.id != ROOT && self.parent == NONE
    }
}

/// "block: magic 4, id 4, sequence 4, owner 4, previous 4, data length 2,
/// check 2, then data".
#[derive(Clone, Debug, PartialEq, Eq)]
pub struct Block {
    pub id: u32,
    pub sequence: u32,
    pub owner: u32,
    pub previous: u32,
    pub data: Vec<u8>,
}

impl Block {
    pub const MAGIC: u32 = 0x53ba_23b9;
    pub const HEADER: usize = 24;
    pub const CHECK: usize = 22;

    pub fn new(id: u32, sequence: u32, owner: u32, previous: u32, data: &[u8]) -> Block {
        Block { id, sequence, owner, previous, data: data.to_vec() }
    }

    pub fn bytes(&self) -> Vec<u8> {
        let mut bytes = Vec::new();
        for field in [Self::MAGIC, self.id, self.sequence, self.owner, self.previous] {
            bytes.extend(field.to_le_bytes());
        }
        bytes.extend((self.data.len() as u16).to_le_bytes());
        with_check(bytes, &self.data)
    }

    fn parse(rest: &[u8]) -> Option<Block> {
        if rest.len() < Self::HEADER {
            return None;
        }
        let end = Self::HEADER + usize::from(u16_at(rest, 20));
        if rest.len() < end || !check_is_right(&rest[..end], Self::HEADER, Self::CHECK) {
            return None;
        }
        Some(Block {
            id: u32_at(rest, 4),
            sequence: u32_at(rest, 8),
            owner: u32_at(rest, 12),
            previous: u32_at(rest, 16),
            data: rest[Self::HEADER..end].to_vec(),
        })
    }

    /// The block's part of "Acceptable record".
    pub fn fields_are_acceptable(&self) -> bool {
        let previous = is_block(self.previous) && self.previous != self.id || self.previous == NONE;
        let length = (1..=BLOCK_DATA).contains(&self.data.len());
        is_block(self.id) && is_file(self.owner) && previous && length
    }
}

/// "It covers all header bytes before the check field, magic included, then
/// name or data."
fn check(covered: &[u8], body: &[u8]) -> u16 {
    crc16(covered.iter().chain(body).copied())
}

fn check_is_right(record: &[u8], header: usize, at: usize) -> bool {
    u16_at(record, at) == check(&record[..at], &record[header..])
}

/// Header bytes before the check, the check, the body.
pub fn with_check(mut covered: Vec<u8>, body: &[u8]) -> Vec<u8> {
    let check = check(&covered, body);
    covered.extend(check.to_le_bytes());
    covered.extend(body);
    covered
}

#[derive(Clone, Debug, PartialEq, Eq)]
pub enum Record {
    Inode(Inode),
    Block(Block),
}

impl Record {
    /// "Acceptable record at a place": the one that starts at the front of
    /// `rest`, which reaches to the end of the area.
    #[inline]
    pub fn acceptable(rest: &[u8]) -> Option<Record> {
        Record::parse(rest).filter(Record::fields_are_acceptable)
    }

    /// "header and body lie inside the area, magic and check are right", and an
    /// inode's reserved byte is 0. Blocks have none.
    #[inline]
    pub fn parse(rest: &[u8]) -> Option<Record> {
        match u32::from_le_bytes(*rest.first_chunk()?) {
            Inode::MAGIC => Inode::parse(rest).map(Record::Inode),
            Block::MAGIC => Block::parse(rest).map(Record::Block),
            _ => None,
        }
    }

    fn fields_are_acceptable(&self) -> bool {
        match self {
            Record::Inode(inode) => inode.fields_are_acceptable(),
            Record::Block(block) => block.fields_are_acceptable(),
        }
    }

    pub fn bytes(&self) -> Vec<u8> {
        match self {
            Record::Inode(inode) => inode.bytes(),
            Record::Block(block) => block.bytes(),
        }
    }

    /// Header and body together.
    pub fn size(&self) -> usize {
        match self {
            Record::Inode(inode) => Inode::HEADER + inode.name.len(),
            Record::Block(block) => Block::HEADER + block.data.len(),
        }
    }

    pub fn id(&self) -> u32 {
        match self {
            Record::Inode(inode) => inode.id,
            Record::Block(block) => block.id,
        }
    }

    pub fn sequence(&self) -> u32 {
        match self {
            Record::Inode(inode) => inode.sequence,
            Record::Block(block) => block.sequence,
        }
    }

    pub fn inode(&self) -> Option<&Inode> {
        match self {
            Record::Inode(inode) => Some(inode),
            Record::Block(_) => None,
        }
    }

    pub fn block(&self) -> Option<&Block> {
        match self {
            Record::Block(block) => Some(block),
            Record::Inode(_) => None,
        }
    }

    /// What the record "names as id, parent, owner or previous".
    pub fn named(&self) -> Vec<u32> {
        match self {
            Record::Inode(inode) => vec![inode.id, inode.parent],
            Record::Block(block) => vec![block.id, block.owner, block.previous],
        }
    }
}
