//! The proved check by itself, from the archive that `tools/archive crc16_alone` writes. Not of the library: its programs and tests that use it ask
//! for the feature `check`.

/// A check of two slices, each given by its pointer and length.
pub type Check = unsafe extern "C" fn(*const u8, usize, *const u8, usize) -> u16;

#[link(name = "crc16_alone", kind = "static")]
extern "C" {
    pub fn crc16_check(front: *const u8, front_length: usize, body: *const u8, body_length: usize) -> u16;
}

/// What a check says of the header bytes before the check field and the body.
#[inline(always)]
pub fn call(check: Check, front: &[u8], body: &[u8]) -> u16 {
    // SAFETY: pointers and lengths of two slices that are lent meanwhile, which is all that a check asks for.
    unsafe { check(front.as_ptr(), front.len(), body.as_ptr(), body.len()) }
}
