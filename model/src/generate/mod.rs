//! Seeded cases for the comparison.

mod blocks;
mod calls;
mod images;
mod large;
pub mod listed;
mod lists;
pub mod made;
pub mod moved;
mod overwrites;
pub mod overwritten;
mod paths;
mod random;
mod renames;
mod stretches;
mod tables;
mod trees;

pub use paths::names_of;
pub use random::Random;

use std::ops::Range;

use crate::area::Taken;
use crate::compare::Case;
use crate::layout::Record;
use crate::mount::{FileSystem, IMAGE};
use calls::Maker;

const SEQUENCES: [u32; 8] = [0, 0, 1, 2, 5, 7, 0xffff_fffe, 0xffff_ffff];
const DIRECTORIES: [u32; 6] = [1, 2, 3, 4, 9, 0x0fff_ffff];
const FILES: [u32; 6] =
    [0x1000_0000, 0x1000_0001, 0x1000_0002, 0x1000_0003, 0x1000_0009, 0x7fff_ffff];
const NAMES: [&[u8]; 9] = [b"a", b"b", b"c", b"ab", b".", b"..", b"\n", b"\xff", b"dose table"];

/// Where the counting records lie of which this holds.
fn places(fs: &FileSystem, holds: &dyn Fn(&Record) -> bool) -> Vec<Range<usize>> {
    let mut places = Vec::new();
    for area in &fs.file_areas {
        for Taken { offset, record } in &area.reading.records {
            if fs.counting(record.id()) == Some(record) && holds(record) {
                let start = area.at.start + offset;
                places.push(start..start + record.size());
            }
        }
    }
    places
}

/// The case of a seed.
pub fn case(seed: u64) -> Case {
    drawn(Random::new(seed))
}

/// The case of a script, as a fuzzer makes them.
pub fn scripted(script: &[u8]) -> Case {
    drawn(Random::scripted(script))
}

fn drawn(mut r: Random) -> Case {
    // Large images are few: each takes as long as many small ones.
    let flash = match r.below(400) {
        0..=127 => images::life(&mut r),
        128..=264 => images::tree(&mut r),
        265..=277 => trees::names(&mut r),
        278..=285 => trees::depths(&mut r),
        286 => trees::full(&mut r),
        287 => trees::long(&mut r),
        288..=310 => overwrites::files(&mut r),
        311..=315 => overwrites::long(&mut r),
        316..=318 => overwrites::many(&mut r),
        319..=336 => renames::tree(&mut r),
        337..=344 => blocks::edges(&mut r),
        345..=352 => blocks::earlier(&mut r),
        353..=364 => tables::tables(&mut r),
        365..=373 => images::junk(&mut r),
        374..=376 => large::torn(&mut r),
        377..=387 => images::headers(&mut r),
        388..=390 => large::whole(&mut r),
        391..=392 => large::named(&mut r),
        393..=397 => large::deep(&mut r),
        _ => large::long_blocks(&mut r),
    };
    let mut image = flash.image;
    if r.below(200) == 0 {
        // At the limit of the image's length, or one byte over it.
        image.resize(r.between(IMAGE, IMAGE + 1), 0xff);
    }
    let mut maker = Maker::new(r, image, flash.areas);
    maker.make();
    maker.case
}
