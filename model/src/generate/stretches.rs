//! What is rare about damage where a report tells of it, and about the reports of
//! single areas (T-08).

use super::made::{holding, Made};
use crate::area::{self, Reading};
use crate::compare::Side;
use crate::layout::AreaHeader;
use crate::mount::{descriptors, entries, mount, FileArea, FileSystem, BLOCKS, INODES};
use crate::refusal::Refusal;

/// What a report tells that answers 0.
pub fn in_report(fs: &FileSystem, side: &Side) -> Vec<Made> {
    let files = || fs.file_areas.iter().filter(|area| !area.reading.is_clean());
    let first = files().next();
    let several = files().count() > 1;
    let lower = |first: &FileArea| files().any(|area| area.at.start < first.at.start);
    let no_free_space = |area: &FileArea| area.reading.free == area.at.len();
    let mut made = holding(&[
        (Made::DamageInTwoFileAreas, several),
        (Made::FirstDamageNotTheLowest, first.is_some_and(lower)),
        (Made::FirstFileAreaClean, first.is_some_and(|area| area.at != fs.file_areas[0].at)),
        (Made::NoFreeSpace, fs.file_areas.iter().any(no_free_space)),
    ]);
    made.extend(first.map_or_else(Vec::new, |area| in_first(area, &side.image)));
    made.extend(in_others(fs, side));
    made
}

/// What the first file area has that is damaged.
fn in_first(area: &FileArea, image: &[u8]) -> Vec<Made> {
    let reading = &area.reading;
    let first = reading.first_damage();
    let bytes = &image[area.at.clone()][first.offset..first.end()];
    let no_record_behind = reading.records.iter().all(|taken| taken.offset < first.offset);
    let is_last = reading.damage.len() == 1 && no_record_behind;
    let longer = reading.damage.iter().any(|other| other.length > first.length);
    let free = reading.free < area.at.len();
    holding(&[
        (Made::TwoStretchesInAnArea, reading.damage.len() > 1),
        (Made::LaterStretchLonger, longer),
        (Made::DamageBeforeFreeSpace, is_last && free),
        (Made::DamageUpToTheEnd, is_last && !free),
        (Made::DamageAt24, first.offset == AreaHeader::SIZE),
        (Made::FfBeginsDamage, bytes.first() == Some(&0xff)),
        (Made::FfEndsDamage, bytes.last() == Some(&0xff)),
    ])
}

/// Damage where a report sees none.
fn in_others(fs: &FileSystem, side: &Side) -> Vec<Made> {
    let places = descriptors(&side.image, &side.areas).unwrap_or_default();
    let place = |at: usize| places.iter().position(|other| other.start == at);
    let damaged = |at: &usize| !area::read(&side.image[places[*at].clone()]).is_clean();
    let scratch = place(fs.scratch.at.start).filter(damaged);
    let is_valid = |at: &usize| AreaHeader::valid(&side.image[places[*at].clone()]).is_some();
    let passed_over = (0..places.len()).find(|at| !is_valid(at) && damaged(at));
    let mut files = fs.file_areas.iter().filter(|area| !area.reading.is_clean());
    let first = files.next().and_then(|area| place(area.at.start));
    let before = |other: Option<usize>| first.is_some() && other.is_some() && other < first;
    let alone = |other: Option<usize>| first.is_none() && other.is_some();
    holding(&[
        (Made::DamageInScratchAlone, alone(scratch) && passed_over.is_none()),
        (Made::DamageInScratchBefore, before(scratch)),
        (Made::DamagePassedOverAlone, alone(passed_over) && scratch.is_none()),
        (Made::DamagePassedOverBefore, before(passed_over)),
    ])
}

/// What a report of one area is asked for.
pub fn in_area_report(index: u32, stretch: u32, side: &Side) -> Vec<Made> {
    let Ok(descriptors) = descriptors(&side.image, &side.areas) else { return Vec::new() };
    let Some(at) = descriptors.get(index as usize) else { return beyond(index, side) };
    let area = &side.image[at.clone()];
    let reading = area::read(area);
    let mut made = in_kind(AreaHeader::valid(area), &reading);
    let stretches = reading.damage.len() as u32;
    made.extend(holding(&[
        (Made::LastStretchOfSeveral, stretches > 1 && stretch == stretches - 1),
        (Made::StretchBetween, stretch > 0 && stretch < stretches.saturating_sub(1)),
        (Made::StretchBehind255, stretch > 255 && stretch < stretches),
        (Made::MoreRecordsThanPlaces, reading.records.len() > INODES + BLOCKS),
        (Made::OneStretchBeyond, stretches > 0 && stretch == stretches),
        (Made::StretchFarBeyond, stretches > 0 && stretch == u32::MAX),
    ]));
    made.extend(mount(&side.image, &side.areas).err().and_then(unmounted));
    made
}

/// Of a list that is good.
fn beyond(index: u32, side: &Side) -> Vec<Made> {
    let count = entries(&side.areas).len() as u32;
    let listed = side.areas.len() as u32 / 2;
    holding(&[
        (Made::OneEntryBeyond, index == count),
        (Made::EntryBehindTheEnd, index > count && index < listed),
        (Made::EntryFarBeyond, index == u32::MAX),
    ])
}

/// Records and damage in areas that no mount reads.
fn in_kind(header: Option<AreaHeader>, reading: &Reading) -> Vec<Made> {
    let both = !reading.records.is_empty() && !reading.is_clean();
    holding(&[
        (Made::ScratchAreaReported, both && header.is_some_and(|header| header.is_scratch())),
        (Made::PassedOverAreaReported, both && header.is_none()),
    ])
}

/// An area of an image that doesn't mount.
fn unmounted(refusal: Refusal) -> Option<Made> {
    match refusal {
        Refusal::SharedAreaId => Some(Made::AreaReportWhere2),
        Refusal::Areas => Some(Made::AreaReportWhere3),
        Refusal::ShortScratch => Some(Made::AreaReportWhere4),
        Refusal::Tables => Some(Made::AreaReportWhere5),
        Refusal::Clash => Some(Made::AreaReportWhere6),
        Refusal::NoRoot => Some(Made::AreaReportWhere7),
        _ => None,
    }
}
