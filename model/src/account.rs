//! The account of the areas (T-08): "The header, the records, the damage and the
//! free space make up the whole area: 24 + bytes of records + skipped + free =
//! its length", and the report is what the file areas come to.

use crate::area::{self, Stretch};
use crate::area_report::{FILE, SCRATCH};
use crate::compare::Engine;
use crate::layout::{AreaHeader, Inode, Record};
use crate::mount::{descriptors, Descriptor};
use crate::refusal::Refusal;
use crate::{AreaReport, Report};

/// Who is asked, and about what.
#[derive(Clone, Copy)]
pub struct Books<'a> {
    pub engine: &'a dyn Engine,
    pub image: &'a [u8],
    pub areas: &'a [u32],
}

/// How much there was to add up.
#[derive(Clone, Copy, Debug, Default)]
pub struct Added {
    pub areas: usize,
    pub stretches: usize,
    pub mounted: usize,
}

impl Books<'_> {
    /// Asserts that each area adds up, that there are no more of them, and that
    /// the report is their sum.
    pub fn add_up(&self) -> Added {
        let descriptors = descriptors(self.image, self.areas).unwrap_or_default();
        let each: Vec<AreaReport> =
            descriptors.iter().zip(0..).map(|(at, index)| self.area(at, index)).collect();
        for index in [each.len() as u32, each.len() as u32 + 1, u32::MAX] {
            self.no_area(index);
        }
        let report = self.engine.report(self.image, self.areas);
        if report.number == 0 {
            assert_eq!(report, summed(&report, &descriptors, &each));
            assert_eq!(each.iter().filter(|area| area.kind == SCRATCH).count(), 1);
        } else {
            assert_eq!(report, Report { number: report.number, ..Report::default() });
        }
        let stretches = each.iter().map(|area| area.stretches as usize).sum();
        Added { areas: each.len(), stretches, mounted: usize::from(report.number == 0) }
    }

    fn ask(&self, index: u32, stretch: u32) -> AreaReport {
        self.engine.area_report(self.image, self.areas, index, stretch)
    }

    /// "where the list has no entry `index`", or isn't good: 1, and "all other
    /// numbers are 0", whichever stretch is asked for.
    fn no_area(&self, index: u32) {
        let refused = AreaReport { number: Refusal::Descriptors.number(), ..AreaReport::default() };
        for stretch in [0, 1, u32::MAX] {
            assert_eq!(self.ask(index, stretch), refused, "entry {index}");
        }
    }

    /// Asserts the account of one area. Its report, with the first stretch.
    fn area(&self, at: &Descriptor, index: u32) -> AreaReport {
        let (bytes, first) = (&self.image[at.clone()], self.ask(index, 0));
        assert_eq!(first.number, 0, "entry {index}");
        let damage = self.stretches(index, &first);
        let records = area::read(bytes).records;
        let taken: usize = records.iter().map(|taken| taken.record.size()).sum();
        let (skipped, free) = (first.skipped as usize, first.free as usize);
        assert_eq!(records.len(), first.records as usize, "records of entry {index}");
        assert_eq!(AreaHeader::SIZE + taken + skipped + free, bytes.len(), "entry {index}");
        assert_eq!(damage.iter().map(|stretch| stretch.length).sum::<usize>(), skipped);
        are_stretches(bytes, &damage, bytes.len() - free);
        first
    }

    /// The stretches from number 0 on, as many as there are; of more, both numbers
    /// are 0. The other numbers are the same in each answer.
    fn stretches(&self, index: u32, first: &AreaReport) -> Vec<Stretch> {
        for beyond in [first.stretches, first.stretches.saturating_add(1), u32::MAX] {
            assert_eq!(self.ask(index, beyond), AreaReport { offset: 0, length: 0, ..*first });
        }
        let stretch = |number: u32| {
            let told = self.ask(index, number);
            let AreaReport { offset, length, .. } = told;
            assert_eq!(told, AreaReport { offset, length, ..*first });
            Stretch { offset: offset as usize, length: length as usize }
        };
        (0..first.stretches).map(stretch).collect()
    }
}

/// Asserts that these are in order, with room for a record between two, from 24
/// up to where free space starts, which is FF; and that none is a record.
fn are_stretches(area: &[u8], damage: &[Stretch], free: usize) {
    let mut from = AreaHeader::SIZE;
    for stretch in damage {
        assert!(stretch.offset >= from && stretch.length > 0 && stretch.end() <= free);
        let mut places = stretch.offset..stretch.end();
        assert!(places.all(|at| Record::acceptable(&area[at..]).is_none()));
        from = stretch.end() + Inode::HEADER;
    }
    assert!(area[free..].iter().all(|byte| *byte == 0xff));
}

/// What the report must be: the sums over the file areas, and "the first of these
/// over the file areas in descriptor order, as an offset in the image" (T-08).
/// The numbers of inodes are taken over.
fn summed(report: &Report, descriptors: &[Descriptor], each: &[AreaReport]) -> Report {
    let files = || descriptors.iter().zip(each).filter(|(_, area)| area.kind == FILE);
    let first = files().find(|(_, area)| area.stretches > 0);
    Report {
        stretches: files().map(|(_, area)| area.stretches).sum(),
        skipped: files().map(|(_, area)| area.skipped).sum(),
        first_offset: first.map_or(0, |(at, area)| at.start as u32 + area.offset),
        first_length: first.map_or(0, |(_, area)| area.length),
        ..*report
    }
}
