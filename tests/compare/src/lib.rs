//! The calls of the crate `nffs`, as users link it, as engines beside the model; and the baseline that the mount's time is measured against.

pub mod baseline;
pub mod mounted;
pub mod two;
pub mod volumes;

use nffs::{raw, Area, Kind, Refusal};
use nffs_model::compare::Engine;
use nffs_model::{AreaReport, Create, Handle, Lookup, Open, Read, Report, Tree};

/// The model's list, offset and length in turn, as the calls take it.
fn listed(numbers: &[u32]) -> Vec<Area> {
    numbers.chunks_exact(2).map(|pair| Area { offset: pair[0], length: pair[1] }).collect()
}

pub fn format(image: &mut [u8], areas: &[u32]) -> u32 {
    raw::format(image, &listed(areas))
}

// The answers with the numbers of T-08 are lent memory by the caller: 28 and 40 bytes.
const _: () = assert!(size_of::<raw::ReportAnswer>() == 28);
const _: () = assert!(size_of::<raw::AreaAnswer>() == 40);

pub fn report(image: &[u8], areas: &[u32]) -> Report {
    let raw::ReportAnswer { number, inodes, live, stretches, skipped, first_offset, first_length } = raw::report(image, &listed(areas));
    Report { number, inodes, live, stretches, skipped, first_offset, first_length }
}

pub fn area_report(image: &[u8], areas: &[u32], index: u32, stretch: u32) -> AreaReport {
    let raw::AreaAnswer { number, kind, id, count, records, stretches, skipped, free, offset, length } =
        raw::area_report(image, &listed(areas), index, stretch);
    AreaReport { number, kind, id, count, records, stretches, skipped, free, offset, length }
}

/// The answer of a listing (T-07) as the archive gives it.
#[repr(C)]
struct TreeAnswer {
    number: u32,
    length: u32,
}

extern "C" {
    fn nffs_tree(image: *const u8, size: usize, areas: *const Area, areas_count: usize, text: *mut u8, text_length: usize) -> TreeAnswer;
}

pub fn tree(image: &[u8], areas: &[u32], buffer: &mut [u8]) -> Tree {
    let areas = listed(areas);
    // SAFETY: the pointers and lengths of slices that are lent for the call.
    let r = unsafe { nffs_tree(image.as_ptr(), image.len(), areas.as_ptr(), areas.len(), buffer.as_mut_ptr(), buffer.len()) };
    Tree { number: r.number, length: r.length }
}

pub fn lookup(image: &[u8], areas: &[u32], base: &[u8], path: &[u8]) -> Lookup {
    let r = raw::lookup(image, &listed(areas), base, path);
    Lookup { number: r.number, id: r.id, kind: r.kind }
}

pub fn open(image: &[u8], areas: &[u32], base: &[u8], path: &[u8]) -> Open {
    let r = raw::open(image, &listed(areas), base, path);
    Open { number: r.number, id: r.id, position: r.position }
}

pub fn read_at(image: &[u8], areas: &[u32], id: u32, position: u32, buffer: &mut [u8]) -> Read {
    let r = raw::read_at(image, &listed(areas), id, position, buffer);
    Read { number: r.number, given: r.given, headers: r.headers }
}

pub fn read(image: &[u8], areas: &[u32], handle: &mut Handle, buffer: &mut [u8]) -> Read {
    let mut moved = nffs::Handle { id: handle.id, position: handle.position };
    let r = raw::read(image, &listed(areas), &mut moved, buffer);
    handle.id = moved.id;
    handle.position = moved.position;
    Read { number: r.number, given: r.given, headers: r.headers }
}

pub fn create(image: &mut [u8], areas: &[u32], base: &[u8], path: &[u8], kind: u32) -> Create {
    let r = raw::create(image, &listed(areas), base, path, kind);
    Create { number: r.number, id: r.id }
}

pub fn append(image: &mut [u8], areas: &[u32], base: &[u8], path: &[u8], data: &[u8]) -> u32 {
    raw::append(image, &listed(areas), base, path, data)
}

pub fn overwrite(image: &mut [u8], areas: &[u32], base: &[u8], path: &[u8], offset: u32, data: &[u8]) -> u32 {
    raw::overwrite(image, &listed(areas), base, path, offset, data)
}

pub fn unlink(image: &mut [u8], areas: &[u32], base: &[u8], path: &[u8]) -> u32 {
    raw::unlink(image, &listed(areas), base, path)
}

pub fn rename(image: &mut [u8], areas: &[u32], base: &[u8], old: &[u8], new: &[u8]) -> u32 {
    raw::rename(image, &listed(areas), base, old, new)
}

pub fn collect(image: &mut [u8], areas: &[u32]) -> u32 {
    raw::collect(image, &listed(areas))
}

/// The answers as the archive gives them, those of refused calls too.
pub struct Proved;

impl Engine for Proved {
    fn format(&self, image: &mut [u8], areas: &[u32]) -> u32 {
        format(image, areas)
    }
    fn report(&self, image: &[u8], areas: &[u32]) -> Report {
        report(image, areas)
    }
    fn area_report(&self, image: &[u8], areas: &[u32], index: u32, stretch: u32) -> AreaReport {
        area_report(image, areas, index, stretch)
    }
    fn tree(&self, image: &[u8], areas: &[u32], buffer: &mut [u8]) -> Tree {
        tree(image, areas, buffer)
    }
    fn lookup(&self, image: &[u8], areas: &[u32], base: &[u8], path: &[u8]) -> Lookup {
        lookup(image, areas, base, path)
    }
    fn open(&self, image: &[u8], areas: &[u32], base: &[u8], path: &[u8]) -> Open {
        open(image, areas, base, path)
    }
    fn read_at(&self, image: &[u8], areas: &[u32], id: u32, position: u32, buffer: &mut [u8]) -> Read {
        read_at(image, areas, id, position, buffer)
    }
    fn read(&self, image: &[u8], areas: &[u32], handle: &mut Handle, buffer: &mut [u8]) -> Read {
        read(image, areas, handle, buffer)
    }
    fn create(&self, image: &mut [u8], areas: &[u32], base: &[u8], path: &[u8], kind: u32) -> Create {
        create(image, areas, base, path, kind)
    }
    fn append(&self, image: &mut [u8], areas: &[u32], base: &[u8], path: &[u8], data: &[u8]) -> u32 {
        append(image, areas, base, path, data)
    }
    fn overwrite(&self, image: &mut [u8], areas: &[u32], base: &[u8], path: &[u8], offset: u32, data: &[u8]) -> u32 {
        overwrite(image, areas, base, path, offset, data)
    }
    fn unlink(&self, image: &mut [u8], areas: &[u32], base: &[u8], path: &[u8]) -> u32 {
        unlink(image, areas, base, path)
    }
    fn rename(&self, image: &mut [u8], areas: &[u32], base: &[u8], old: &[u8], new: &[u8]) -> u32 {
        rename(image, areas, base, old, new)
    }
    fn collect(&self, image: &mut [u8], areas: &[u32]) -> u32 {
        collect(image, areas)
    }
}

/// The functions that answer with a `Result`: a refusal has its number, and stands for an answer whose other numbers are 0.
pub struct Safe;

fn done(answer: Result<(), Refusal>) -> u32 {
    answer.map_or_else(Refusal::number, |()| 0)
}

fn given(answer: Result<nffs::Given, Refusal>) -> Read {
    match answer {
        Ok(r) => Read { number: 0, given: r.bytes as u32, headers: r.headers },
        Err(refusal) => Read { number: refusal.number(), given: 0, headers: 0 },
    }
}

impl Engine for Safe {
    fn format(&self, image: &mut [u8], areas: &[u32]) -> u32 {
        done(nffs::format(image, &listed(areas)))
    }
    fn report(&self, image: &[u8], areas: &[u32]) -> Report {
        match nffs::report(image, &listed(areas)) {
            Ok(r) => Report {
                number: 0,
                inodes: r.inodes,
                live: r.live,
                stretches: r.stretches,
                skipped: r.skipped,
                first_offset: r.first_offset,
                first_length: r.first_length,
            },
            Err(refusal) => Report { number: refusal.number(), ..Report::default() },
        }
    }
    fn area_report(&self, image: &[u8], areas: &[u32], index: u32, stretch: u32) -> AreaReport {
        match nffs::area_report(image, &listed(areas), index, stretch) {
            Ok(r) => AreaReport {
                number: 0,
                kind: r.kind as u32,
                id: r.id,
                count: r.count,
                records: r.records,
                stretches: r.stretches,
                skipped: r.skipped,
                free: r.free,
                offset: r.offset,
                length: r.length,
            },
            Err(refusal) => AreaReport { number: refusal.number(), ..AreaReport::default() },
        }
    }
    fn tree(&self, image: &[u8], areas: &[u32], buffer: &mut [u8]) -> Tree {
        tree(image, areas, buffer)
    }
    fn lookup(&self, image: &[u8], areas: &[u32], base: &[u8], path: &[u8]) -> Lookup {
        match nffs::lookup(image, &listed(areas), base, path) {
            Ok(r) => Lookup { number: 0, id: r.id, kind: r.kind as u32 },
            Err(refusal) => Lookup { number: refusal.number(), id: 0, kind: 0 },
        }
    }
    fn open(&self, image: &[u8], areas: &[u32], base: &[u8], path: &[u8]) -> Open {
        match nffs::open(image, &listed(areas), base, path) {
            Ok(r) => Open { number: 0, id: r.id, position: r.position },
            Err(refusal) => Open { number: refusal.number(), id: 0, position: 0 },
        }
    }
    fn read_at(&self, image: &[u8], areas: &[u32], id: u32, position: u32, buffer: &mut [u8]) -> Read {
        given(nffs::read_at(image, &listed(areas), id, position, buffer))
    }
    fn read(&self, image: &[u8], areas: &[u32], handle: &mut Handle, buffer: &mut [u8]) -> Read {
        let mut moved = nffs::Handle { id: handle.id, position: handle.position };
        let answer = nffs::read(image, &listed(areas), &mut moved, buffer);
        handle.id = moved.id;
        handle.position = moved.position;
        given(answer)
    }
    fn create(&self, image: &mut [u8], areas: &[u32], base: &[u8], path: &[u8], kind: u32) -> Create {
        let kind = if kind == 0 { Kind::Directory } else { Kind::File };
        match nffs::create(image, &listed(areas), base, path, kind) {
            Ok(id) => Create { number: 0, id },
            Err(refusal) => Create { number: refusal.number(), id: 0 },
        }
    }
    fn append(&self, image: &mut [u8], areas: &[u32], base: &[u8], path: &[u8], data: &[u8]) -> u32 {
        done(nffs::append(image, &listed(areas), base, path, data))
    }
    fn overwrite(&self, image: &mut [u8], areas: &[u32], base: &[u8], path: &[u8], offset: u32, data: &[u8]) -> u32 {
        done(nffs::overwrite(image, &listed(areas), base, path, offset, data))
    }
    fn unlink(&self, image: &mut [u8], areas: &[u32], base: &[u8], path: &[u8]) -> u32 {
        done(nffs::unlink(image, &listed(areas), base, path))
    }
    fn rename(&self, image: &mut [u8], areas: &[u32], base: &[u8], old: &[u8], new: &[u8]) -> u32 {
        done(nffs::rename(image, &listed(areas), base, old, new))
    }
    fn collect(&self, image: &mut [u8], areas: &[u32]) -> u32 {
        done(nffs::collect(image, &listed(areas)))
    }
}
