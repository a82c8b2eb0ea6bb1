//! CRC-16/XMODEM by a table, a byte a step.

const POLYNOMIAL: u16 = 0x1021;

/// The register after a byte from 0.
static TABLE: [u16; 256] = table();

const fn table() -> [u16; 256] {
    let mut table = [0; 256];
    let mut byte = 0;
    while byte < 256 {
        table[byte] = eight_bits((byte as u16) << 8);
        byte += 1;
    }
    table
}

/// The register after eight zero bits.
pub const fn eight_bits(mut r: u16) -> u16 {
    let mut k = 0;
    while k < 8 {
        r = if r & 0x8000 == 0 { r << 1 } else { r << 1 ^ POLYNOMIAL };
        k += 1;
    }
    r
}

fn step(r: u16, byte: &u8) -> u16 {
    r << 8 ^ TABLE[usize::from((r >> 8) as u8 ^ byte)]
}

/// The register after these bytes.
#[inline]
pub fn update(r: u16, bytes: &[u8]) -> u16 {
    bytes.iter().fold(r, step)
}
