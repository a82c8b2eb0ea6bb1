//! Records written by hand, for volumes that no call would make.

pub const NONE: u32 = 0xffff_ffff;

/// CRC-16/XMODEM.
fn check(bytes: &[u8]) -> u16 {
    bytes.iter().fold(0, |crc, byte| {
        (0..8).fold(crc ^ (u16::from(*byte) << 8), |crc, _| {
            if crc & 0x8000 == 0 {
                crc << 1
            } else {
                (crc << 1) ^ 0x1021
            }
        })
    })
}

pub fn inode(id: u32, sequence: u32, parent: u32, name: &[u8]) -> Vec<u8> {
    inode_with(0, id, sequence, parent, name)
}

/// The same with this reserved byte.
pub fn inode_with(reserved: u8, id: u32, sequence: u32, parent: u32, name: &[u8]) -> Vec<u8> {
    let fields = [0x925f_8bc0, id, sequence, parent];
    let mut front: Vec<u8> = fields.iter().flat_map(|field: &u32| field.to_le_bytes()).collect();
    front.extend([reserved, name.len() as u8]);
    let check = check(&[&front, name].concat());
    [&front, &check.to_le_bytes()[..], name].concat()
}

/// A block that is the only one of its file.
pub fn block(id: u32, owner: u32, data: &[u8]) -> Vec<u8> {
    block_with(0, id, owner, data)
}

/// The same with this sequence.
pub fn block_with(sequence: u32, id: u32, owner: u32, data: &[u8]) -> Vec<u8> {
    let fields = [0x53ba_23b9, id, sequence, owner, NONE];
    let mut front: Vec<u8> = fields.iter().flat_map(|field: &u32| field.to_le_bytes()).collect();
    front.extend((data.len() as u16).to_le_bytes());
    let check = check(&[&front, data].concat());
    [&front, &check.to_le_bytes()[..], data].concat()
}

/// An image of two areas of 4,096 bytes, scratch first, whose file area holds the root and then
/// these records.
pub fn image(records: &[Vec<u8>]) -> Vec<u8> {
    image_of(4096, records)
}

/// The same with areas of this length.
pub fn image_of(length: u32, records: &[Vec<u8>]) -> Vec<u8> {
    let mut image = header(255, length);
    image.resize(length as usize, 0xff);
    image.extend([header(0, length), inode(0, 0, NONE, b""), records.concat()].concat());
    assert!(image.len() <= 2 * length as usize, "the records have no room");
    image.resize(2 * length as usize, 0xff);
    image
}

pub fn header(id: u8, length: u32) -> Vec<u8> {
    let magics = [0xb98a_31e2, 0x7fb0_428c, 0xace0_8253, 0xb185_fc8e, length];
    let mut header: Vec<u8> = magics.iter().flat_map(|field: &u32| field.to_le_bytes()).collect();
    header.extend([0, 0, 0, id]);
    header
}
