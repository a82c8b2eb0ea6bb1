//! Images written by hand: areas with chosen headers and records with chosen
//! fields, right checks included, acceptable or not.

use crate::layout::{with_check, AreaHeader, Block, Inode, NONE, ROOT};

/// An inode's bytes with this in its reserved byte, and a right check.
pub fn with_reserved(inode: &[u8], reserved: u8) -> Vec<u8> {
    let mut covered = inode[..Inode::CHECK].to_vec();
    covered[Inode::RESERVED_AT] = reserved;
    with_check(covered, &inode[Inode::HEADER..])
}

/// An image under a list of areas, each with a place to write next.
#[derive(Clone, Debug)]
pub struct Flash {
    pub image: Vec<u8>,
    pub areas: Vec<u32>,
    next: Vec<usize>,
}

impl Flash {
    /// Erased areas without headers over an image that is left as it is.
    pub fn over(image: Vec<u8>, areas: Vec<u32>) -> Flash {
        let next = areas.chunks_exact(2).map(|pair| pair[0] as usize + AreaHeader::SIZE).collect();
        let mut flash = Flash { image, areas, next };
        for area in 0..flash.next.len() {
            flash.fill(area, 0xff);
        }
        flash
    }

    /// Areas of these lengths, one behind the other: the first is scratch, the
    /// others have the ids 0, 1, ...
    pub fn of(lengths: &[usize]) -> Flash {
        let mut areas = Vec::new();
        let mut offset = 0;
        for length in lengths {
            areas.extend([offset as u32, *length as u32]);
            offset += length;
        }
        let mut flash = Flash::over(vec![0xff; offset], areas);
        for area in 0..lengths.len() {
            flash.head(area, 0, 0, (area as u8).wrapping_sub(1));
        }
        flash
    }

    pub fn offset(&self, area: usize) -> usize {
        self.areas[2 * area] as usize
    }

    pub fn length(&self, area: usize) -> usize {
        self.areas[2 * area + 1] as usize
    }

    pub fn fill(&mut self, area: usize, byte: u8) {
        let (offset, length) = (self.offset(area), self.length(area));
        self.image[offset..offset + length].fill(byte);
    }

    pub fn head(&mut self, area: usize, count: u8, reserved: u8, id: u8) {
        let header = AreaHeader { length: self.length(area) as u32, count, id };
        let offset = self.offset(area);
        self.image[offset..offset + AreaHeader::SIZE].copy_from_slice(&header.bytes());
        self.image[offset + AreaHeader::RESERVED_AT] = reserved;
    }

    /// Bytes that are left in the area behind what was put there.
    pub fn room(&self, area: usize) -> usize {
        self.offset(area) + self.length(area) - self.next[area]
    }

    /// Puts bytes behind those put before; false, and nothing is put, if there
    /// is no room.
    pub fn put(&mut self, area: usize, bytes: &[u8]) -> bool {
        if bytes.len() > self.room(area) {
            return false;
        }
        let at = self.next[area];
        self.image[at..at + bytes.len()].copy_from_slice(bytes);
        self.next[area] += bytes.len();
        true
    }

    /// The next byte to be put, as an offset in the area.
    pub fn next(&self, area: usize) -> usize {
        self.next[area] - self.offset(area)
    }

    pub fn skip(&mut self, area: usize, bytes: usize) {
        self.next[area] += bytes.min(self.room(area));
    }

    pub fn inode(&mut self, area: usize, id: u32, sequence: u32, parent: u32, name: &[u8]) -> bool {
        self.put(area, &Inode::new(id, sequence, parent, name).bytes())
    }

    pub fn block(
        &mut self,
        area: usize,
        id: u32,
        sequence: u32,
        owner: u32,
        previous: u32,
        data: &[u8],
    ) -> bool {
        self.put(area, &Block::new(id, sequence, owner, previous, data).bytes())
    }

    pub fn root(&mut self, area: usize) -> bool {
        self.inode(area, ROOT, 0, NONE, b"")
    }

    pub fn delete(&mut self, area: usize, id: u32, sequence: u32) -> bool {
        self.inode(area, id, sequence, NONE, b"")
    }
}
