//! An ordinary Rust model of document 01 (NFFS version 0 over a lent image) as
//! T-01, T-03, T-05, T-06, T-07, T-08 and T-14 of document 02 amend it, written
//! from the documents alone, to be compared with the implementation.
//!
//! Every call answers from the bytes alone, as if the image were mounted anew.
//! `areas` holds offset and length in turn. `number` is 0 or a refusal; a
//! refused answer's other numbers are 0.

#![forbid(unsafe_code)]

pub mod account;
pub mod area;
pub mod area_report;
pub mod collect;
pub mod compare;
pub mod crc;
pub mod damage;
pub mod file;
pub mod forge;
pub mod generate;
pub mod layout;
pub mod lookup;
pub mod mount;
pub mod overwrite;
pub mod path;
pub mod refusal;
pub mod rename;
mod shrink;
pub mod tree;
pub mod write;

/// The first damage over the file areas stands last, as an offset in the image
/// (T-08).
#[derive(Clone, Copy, Debug, Default, PartialEq, Eq)]
pub struct Report {
    pub number: u32,
    pub inodes: u32,
    pub live: u32,
    pub stretches: u32,
    pub skipped: u32,
    pub first_offset: u32,
    pub first_length: u32,
}

/// The report of one area (T-08). `kind` is 0 for an area that is passed over, 1
/// for a file area and 2 for scratch; offset and length are of the damage stretch
/// that was asked for, the offset from the area's start.
#[derive(Clone, Copy, Debug, Default, PartialEq, Eq)]
pub struct AreaReport {
    pub number: u32,
    pub kind: u32,
    pub id: u32,
    pub count: u32,
    pub records: u32,
    pub stretches: u32,
    pub skipped: u32,
    pub free: u32,
    pub offset: u32,
    pub length: u32,
}

/// `kind` is 0 for a directory and 1 for a file.
#[derive(Clone, Copy, Debug, Default, PartialEq, Eq)]
pub struct Lookup {
    pub number: u32,
    pub id: u32,
    pub kind: u32,
}

#[derive(Clone, Copy, Debug, Default, PartialEq, Eq)]
pub struct Open {
    pub number: u32,
    pub id: u32,
    pub position: u32,
}

#[derive(Clone, Copy, Debug, Default, PartialEq, Eq)]
pub struct Read {
    pub number: u32,
    pub given: u32,
    pub headers: u32,
}

#[derive(Clone, Copy, Debug, Default, PartialEq, Eq)]
pub struct Create {
    pub number: u32,
    pub id: u32,
}

/// The tree listing (T-07). `length` is that of the whole text, whether it fits in the
/// buffer or not.
#[derive(Clone, Copy, Debug, Default, PartialEq, Eq)]
pub struct Tree {
    pub number: u32,
    pub length: u32,
}

/// "a file handle holds an id and a position".
#[derive(Clone, Copy, Debug, Default, PartialEq, Eq)]
pub struct Handle {
    pub id: u32,
    pub position: u32,
}

pub fn format(image: &mut [u8], areas: &[u32]) -> u32 {
    write::format(image, areas)
}

pub fn report(image: &[u8], areas: &[u32]) -> Report {
    mount::report(image, areas)
}

/// Of the list's entry `index`, with damage stretch number `stretch` of it.
pub fn area_report(image: &[u8], areas: &[u32], index: u32, stretch: u32) -> AreaReport {
    area_report::area_report(image, areas, index, stretch)
}

/// As much of the text as fits goes to the front of the buffer; the rest of it stays.
pub fn tree(image: &[u8], areas: &[u32], buffer: &mut [u8]) -> Tree {
    tree::tree(image, areas, buffer)
}

pub fn lookup(image: &[u8], areas: &[u32], base: &[u8], path: &[u8]) -> Lookup {
    lookup::lookup(image, areas, base, path)
}

pub fn open(image: &[u8], areas: &[u32], base: &[u8], path: &[u8]) -> Open {
    file::open(image, areas, base, path)
}

pub fn read_at(image: &[u8], areas: &[u32], id: u32, position: u32, buffer: &mut [u8]) -> Read {
    file::read_at(image, areas, id, position, buffer)
}

pub fn read(image: &[u8], areas: &[u32], handle: &mut Handle, buffer: &mut [u8]) -> Read {
    file::read(image, areas, handle, buffer)
}

/// `kind` 0 creates a directory, every other number a file.
pub fn create(image: &mut [u8], areas: &[u32], base: &[u8], path: &[u8], kind: u32) -> Create {
    write::create(image, areas, base, path, kind)
}

pub fn append(image: &mut [u8], areas: &[u32], base: &[u8], path: &[u8], data: &[u8]) -> u32 {
    write::append(image, areas, base, path, data)
}

/// From byte `offset` of the file on; what it has already is rewritten, it doesn't
/// grow.
pub fn overwrite(
    image: &mut [u8],
    areas: &[u32],
    base: &[u8],
    path: &[u8],
    offset: u32,
    data: &[u8],
) -> u32 {
    overwrite::overwrite(image, areas, base, path, offset, data)
}

pub fn unlink(image: &mut [u8], areas: &[u32], base: &[u8], path: &[u8]) -> u32 {
    write::unlink(image, areas, base, path)
}

/// One base serves both paths.
pub fn rename(image: &mut [u8], areas: &[u32], base: &[u8], old: &[u8], new: &[u8]) -> u32 {
    rename::rename(image, areas, base, old, new)
}

pub fn collect(image: &mut [u8], areas: &[u32]) -> u32 {
    collect::collect(image, areas)
}
