//! The calls of the ordinary baseline as an engine beside the model.

use std::cell::RefCell;

use nffs_baseline as baseline;
use nffs_model::compare::{Engine, Model};
use nffs_model::{AreaReport, Create, Handle, Lookup, Open, Read, Report, Tree};

/// One volume, which every call fills anew.
#[derive(Default)]
pub struct Baseline(RefCell<Box<baseline::Volume>>);

impl Engine for Baseline {
    fn format(&self, image: &mut [u8], areas: &[u32]) -> u32 {
        baseline::format(image, areas)
    }
    fn report(&self, image: &[u8], areas: &[u32]) -> Report {
        let r = baseline::report(image, areas, &mut self.0.borrow_mut());
        let baseline::mount::Damage { stretches, skipped, first_offset, first_length } = r.damage;
        Report { number: r.number, inodes: r.inodes, live: r.live, stretches, skipped, first_offset, first_length }
    }
    fn area_report(&self, image: &[u8], areas: &[u32], index: u32, stretch: u32) -> AreaReport {
        let baseline::area::AreaReport { number, kind, id, count, records, stretches, skipped, free, offset, length } =
            baseline::area_report(image, areas, index, stretch);
        AreaReport { number, kind, id, count, records, stretches, skipped, free, offset, length }
    }
    /// The baseline has no such call, nor an overwrite or a rename; the model's keep its image in step.
    fn tree(&self, image: &[u8], areas: &[u32], buffer: &mut [u8]) -> Tree {
        Model.tree(image, areas, buffer)
    }
    fn lookup(&self, image: &[u8], areas: &[u32], base: &[u8], path: &[u8]) -> Lookup {
        let r = baseline::lookup(image, areas, base, path, &mut self.0.borrow_mut());
        Lookup { number: r.number, id: r.id, kind: r.kind }
    }
    fn open(&self, image: &[u8], areas: &[u32], base: &[u8], path: &[u8]) -> Open {
        let r = baseline::open(image, areas, base, path, &mut self.0.borrow_mut());
        Open { number: r.number, id: r.id, position: r.position }
    }
    fn read_at(&self, image: &[u8], areas: &[u32], id: u32, position: u32, buffer: &mut [u8]) -> Read {
        let r = baseline::read_at(image, areas, id, position, buffer, &mut self.0.borrow_mut());
        Read { number: r.number, given: r.given, headers: r.headers }
    }
    fn read(&self, image: &[u8], areas: &[u32], handle: &mut Handle, buffer: &mut [u8]) -> Read {
        let answer = self.read_at(image, areas, handle.id, handle.position, buffer);
        handle.position += answer.given;
        answer
    }
    fn create(&self, image: &mut [u8], areas: &[u32], base: &[u8], path: &[u8], kind: u32) -> Create {
        let r = baseline::create(image, areas, base, path, kind, &mut self.0.borrow_mut());
        Create { number: r.number, id: r.id }
    }
    fn append(&self, image: &mut [u8], areas: &[u32], base: &[u8], path: &[u8], data: &[u8]) -> u32 {
        baseline::append(image, areas, base, path, data, &mut self.0.borrow_mut())
    }
    fn overwrite(&self, image: &mut [u8], areas: &[u32], base: &[u8], path: &[u8], offset: u32, data: &[u8]) -> u32 {
        Model.overwrite(image, areas, base, path, offset, data)
    }
    fn unlink(&self, image: &mut [u8], areas: &[u32], base: &[u8], path: &[u8]) -> u32 {
        baseline::unlink(image, areas, base, path, &mut self.0.borrow_mut())
    }
    fn rename(&self, image: &mut [u8], areas: &[u32], base: &[u8], old: &[u8], new: &[u8]) -> u32 {
        Model.rename(image, areas, base, old, new)
    }
    fn collect(&self, image: &mut [u8], areas: &[u32]) -> u32 {
        baseline::collect(image, areas, &mut self.0.borrow_mut())
    }
}
