//! The report of one area (T-08): what its header says and what the reading of
//! its bytes comes to. Only check 1 is made, so it tells of areas that don't
//! mount, too.

use crate::area::{self, Reading};
use crate::layout::AreaHeader;
use crate::mount::descriptors;
use crate::refusal::Refusal;
use crate::AreaReport;

/// "kind" in the answer.
pub const PASSED_OVER: u32 = 0;
pub const FILE: u32 = 1;
pub const SCRATCH: u32 = 2;

/// Of the list's entry `index`, with damage stretch number `stretch` of it, both
/// from 0.
pub fn area_report(image: &[u8], areas: &[u32], index: u32, stretch: u32) -> AreaReport {
    match entry(image, areas, index) {
        Ok(area) => of_area(area, stretch),
        Err(refusal) => AreaReport { number: refusal.number(), ..AreaReport::default() },
    }
}

/// The bytes of the area, or 1 "where check 1 of document 01 fails for the image
/// and the list, or where the list has no entry `index`".
fn entry<'a>(image: &'a [u8], areas: &[u32], index: u32) -> Result<&'a [u8], Refusal> {
    let descriptors = descriptors(image, areas)?;
    let at = descriptors.get(index as usize).ok_or(Refusal::Descriptors)?;
    Ok(&image[at.clone()])
}

/// The area is read whatever its kind; id and count are "both 0 where kind is 0".
fn of_area(area: &[u8], stretch: u32) -> AreaReport {
    let header = AreaHeader::valid(area);
    let reading = area::read(area);
    let asked = reading.stretch(stretch as usize);
    AreaReport {
        number: 0,
        kind: kind(header),
        id: header.map_or(0, |header| u32::from(header.id)),
        count: header.map_or(0, |header| u32::from(header.count)),
        records: reading.records.len() as u32,
        stretches: reading.damage.len() as u32,
        skipped: reading.damage_bytes() as u32,
        free: free(area, &reading) as u32,
        offset: asked.offset as u32,
        length: asked.length as u32,
    }
}

/// "0 without a valid header (the area is passed over), 1 a file area, 2 a
/// scratch area."
fn kind(header: Option<AreaHeader>) -> u32 {
    match header {
        None => PASSED_OVER,
        Some(header) if header.is_scratch() => SCRATCH,
        Some(_) => FILE,
    }
}

/// "the bytes of free space at its end".
fn free(area: &[u8], reading: &Reading) -> usize {
    area.len() - reading.free
}
