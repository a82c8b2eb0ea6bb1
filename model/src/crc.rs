//! The check: "CRC-16 with polynomial 1021 hex, start 0, unreflected, no
//! final change (published name CRC-16/XMODEM)".

const POLYNOMIAL: u16 = 0x1021;

pub fn crc16(bytes: impl IntoIterator<Item = u8>) -> u16 {
    bytes.into_iter().fold(0, take_byte)
}

fn take_byte(crc: u16, byte: u8) -> u16 {
    (0..8).fold(crc ^ (u16::from(byte) << 8), |crc, _| take_bit(crc))
}

fn take_bit(crc: u16) -> u16 {
    let shifted = crc << 1;
    if crc & 0x8000 == 0 {
        shifted
    } else {
        shifted ^ POLYNOMIAL
    }
}
