//! The proved mount by itself, from the archive that `tools/archive mount_alone` writes. Not of the library: its programs and tests that use it ask
//! for the feature `check`.

use nffs_compare::mounted::Mounted;

#[link(name = "mount_alone", kind = "static")]
extern "C" {
    fn mount_alone(
        image: *const u8,
        image_length: usize,
        areas: *const u32,
        areas_length: usize,
        tables: *mut u32,
        tables_length: usize,
        places: *mut u16,
        places_length: usize,
        numbers: *mut u32,
        numbers_length: usize,
    ) -> u32;
}

const FILES: usize = 16;
const INODES: usize = 256;
const BLOCKS: usize = 1024;

/// What the mount fills. Tables: for the file areas four columns (starts, lengths, stretches, starts of free space), then inode ids, the places of
/// their counting records, block ids and those of theirs. Numbers: files, records, inodes, blocks, stretches, skipped bytes, the first stretch's
/// offset and length, the scratch area's offset and length.
pub struct Tables {
    tables: [u32; 4 * FILES + 2 * INODES + 2 * BLOCKS],
    places: [u16; 3276],
    numbers: [u32; 10],
}

impl Tables {
    /// Full of a number that no mount gives, so that what is left alone shows.
    pub fn new() -> Box<Tables> {
        Box::new(Tables { tables: [0xa5a5_a5a5; 4 * FILES + 2 * INODES + 2 * BLOCKS], places: [0xa5a5; 3276], numbers: [0xa5a5_a5a5; 10] })
    }

    #[inline(always)]
    pub fn mount(&mut self, image: &[u8], areas: &[u32]) -> u32 {
        // a refusal leaves them as they were
        self.numbers = [0; 10];
        let Tables { tables, places, numbers } = self;
        // SAFETY: pointers and lengths of slices that are lent meanwhile, those that are written to by `&mut`.
        unsafe {
            mount_alone(
                image.as_ptr(),
                image.len(),
                areas.as_ptr(),
                areas.len(),
                tables.as_mut_ptr(),
                tables.len(),
                places.as_mut_ptr(),
                places.len(),
                numbers.as_mut_ptr(),
                numbers.len(),
            )
        }
    }

    /// What an accepted mount found.
    pub fn found(&self) -> Mounted {
        let [files, records, inodes, blocks, stretches, skipped, first, length, scratch, scratch_length] = self.numbers;
        let (areas, ids) = self.tables.split_at(4 * FILES);
        let (inode_table, block_table) = ids.split_at(2 * INODES);
        Mounted {
            files: (0..files as usize).map(|k| [0, 1, 2, 3].map(|column| areas[FILES * column + k])).collect(),
            places: self.places[..records as usize].to_vec(),
            inodes: rows(inode_table, inodes),
            blocks: rows(block_table, blocks),
            damage: [stretches, skipped, first, length],
            scratch: [scratch, scratch_length],
        }
    }

    /// The mount's answer: what it found, or the number of a refusal.
    pub fn answer(&mut self, image: &[u8], areas: &[u32]) -> Result<Mounted, u32> {
        match self.mount(image, areas) {
            0 => Ok(self.found()),
            number => Err(number),
        }
    }
}

/// A table of two columns: ids, and the places of their records.
fn rows(table: &[u32], length: u32) -> Vec<(u32, u32)> {
    let (ids, places) = table.split_at(table.len() / 2);
    ids.iter().copied().zip(places.iter().copied()).take(length as usize).collect()
}
