//! How an area is read.

use crate::layout::word;
use crate::mount::descriptors;
use crate::ordinary::Ordinary;
use crate::record::{self, Record};
use crate::refusal::Refusal;
use crate::style::Style;

pub const HEADER: usize = 24;
pub const MAGIC: [u32; 4] = [0xb98a_31e2, 0x7fb0_428c, 0xace0_8253, 0xb185_fc8e];
pub const SCRATCH: u8 = 255;
pub const COUNT_AT: usize = 21;
pub const ID_AT: usize = 23;

/// The id of an area with a valid header.
pub fn valid(area: &[u8]) -> Option<u8> {
    let header: &[u8; HEADER] = area.first_chunk()?;
    let magic = [0, 4, 8, 12].map(|at| word(header, at)) == MAGIC;
    let length = word(header, 16) as usize == area.len();
    let (version, reserved) = (header[20], header[22]);
    (magic && length && version == 0 && reserved == 0).then_some(header[ID_AT])
}

/// What the reading of an area comes to; offsets are in the area.
#[derive(Clone, Copy, Debug, Default, PartialEq, Eq)]
pub struct Reading {
    pub stretches: u32,
    pub skipped: u32,
    /// The damage stretch that was asked for; 0 and 0 if there isn't.
    pub offset: u32,
    pub length: u32,
    /// Where free space starts.
    pub free: u32,
}

impl Reading {
    fn damaged(&mut self, from: usize, to: usize, asked: u32) {
        if self.stretches == asked {
            (self.offset, self.length) = (from as u32, (to - from) as u32);
        }
        self.stretches += 1;
        self.skipped += (to - from) as u32;
    }
}

/// Gives each record with its offset to `take`, which may end the reading.
#[inline]
pub fn read<S: Style>(
    area: &[u8],
    asked: u32,
    mut take: impl FnMut(usize, Record) -> Result<(), Refusal>,
) -> Result<Reading, Refusal> {
    // No magic begins with FF: no record starts behind this.
    let written = written(area);
    let mut reading = Reading::default();
    let mut end = HEADER;
    let mut at = HEADER;
    while at < written {
        let Some(record) = record::acceptable::<S>(&area[at..]) else {
            at = S::next_start(area, at + 1, written);
            continue;
        };
        if at > end {
            reading.damaged(end, at, asked);
        }
        take(at, record)?;
        at += record.size;
        end = at;
    }
    if written > end {
        reading.damaged(end, written, asked);
    }
    reading.free = end.max(written) as u32;
    Ok(reading)
}

/// So many bytes are looked at at once for FF.
const ERASED: usize = 32;

/// Where the FF bytes up to the area's end begin, behind the header.
fn written(area: &[u8]) -> usize {
    let body = &area[HEADER..];
    let erased = body.rchunks_exact(ERASED).take_while(|lanes| **lanes == [0xff; ERASED]).count();
    let rest = &body[..body.len() - ERASED * erased];
    let more = rest.iter().rev().take_while(|byte| **byte == 0xff).count();
    HEADER + rest.len() - more
}

/// The report of one area: `kind` is 0 for an area that is passed over, 1 for a
/// file area, 2 for scratch.
#[derive(Clone, Copy, Debug, Default, PartialEq, Eq)]
pub struct AreaReport {
    pub number: u32,
    pub kind: u32,
    pub id: u32,
    pub count: u32,
    pub records: u32,
    pub stretches: u32,
    pub skipped: u32,
    pub free: u32,
    pub offset: u32,
    pub length: u32,
}

pub fn area_report(image: &[u8], areas: &[u32], index: u32, stretch: u32) -> AreaReport {
    match try_area_report(image, areas, index, stretch) {
        Ok(report) => report,
        Err(refusal) => AreaReport { number: refusal.number(), ..AreaReport::default() },
    }
}

fn try_area_report(
    image: &[u8],
    areas: &[u32],
    index: u32,
    stretch: u32,
) -> Result<AreaReport, Refusal> {
    let descriptors = descriptors(image, areas)?;
    let listed = descriptors.listed();
    let (offset, length) = *listed.get(index as usize).ok_or(Refusal::Descriptors)?;
    let area = &image[offset..offset + length];
    let mut records = 0;
    let reading = read::<Ordinary>(area, stretch, |_, _| {
        records += 1;
        Ok(())
    })?;
    let (kind, id, count) = match valid(area) {
        None => (0, 0, 0),
        Some(SCRATCH) => (2, SCRATCH, area[COUNT_AT]),
        Some(id) => (1, id, area[COUNT_AT]),
    };
    let Reading { stretches, skipped, offset, length, free } = reading;
    let free = area.len() as u32 - free;
    let (id, count) = (u32::from(id), u32::from(count));
    Ok(AreaReport { number: 0, kind, id, count, records, stretches, skipped, free, offset, length })
}
