//! The images whose mount is timed. Each has 65,536 bytes in eight areas of 8,192, the last of them scratch, unless it says otherwise, and mounts.

use nffs_baseline::mount::{Blocks, Inodes};
use nffs_baseline::versions::Versions;
use nffs_model::forge::Flash;
use nffs_model::generate::Random;
use nffs_model::layout::{AreaHeader, Block, Inode, FIRST_BLOCK, FIRST_FILE, NONE, ROOT};
use nffs_model::mount::{greatest_block, BLOCKS, IMAGE, INODES};

/// So many areas usually, of which the last is scratch.
const AREAS: usize = 8;
/// The first byte of an inode's magic and of a block's, the second of each, and so on.
const MAGICS: [[u8; 4]; 2] = [Inode::MAGIC.to_le_bytes(), Block::MAGIC.to_le_bytes()];

pub type Named = (&'static str, Flash);

/// One kind of image for each line of the first group of `tools/bench-mount`.
pub fn kinds() -> Vec<Named> {
    vec![
        ("fresh", volume(AREAS, IMAGE)),
        ("full of greatest blocks", greatest_blocks(IMAGE)),
        ("1,024 blocks, 256 inodes, in order", full_tables()),
        ("1,024 blocks, 256 inodes, worst order", worst_order()),
        ("the most records", most_records(16, IMAGE)),
        ("damage every 100 bytes, small blocks", damaged(full_tables())),
        ("damage every 100 bytes, greatest blocks", damaged(greatest_blocks(IMAGE))),
        ("damage before free space", torn()),
        ("every byte the first of a magic", starts_of_magics(1)),
        ("every two bytes the first two of a magic", starts_of_magics(2)),
        ("random bytes", rest_drawn()),
        // behind the headers and the root
        ("all zero", rest_by(|_| 0)),
    ]
}

/// Headers of erased areas.
fn headed(areas: usize, length: usize) -> Flash {
    let mut flash = Flash::of(&vec![length / areas; areas]);
    for area in 0..areas - 1 {
        flash.head(area, 0, 0, area as u8);
    }
    flash.head(areas - 1, 0, 0, AreaHeader::SCRATCH);
    flash
}

/// Formatted: headers and the root.
pub fn volume(areas: usize, length: usize) -> Flash {
    let mut flash = headed(areas, length);
    flash.root(0);
    flash
}

/// Into the first file area with room.
fn put(flash: &mut Flash, record: &[u8]) -> bool {
    (0..flash.areas.len() / 2 - 1).any(|area| flash.put(area, record))
}

/// A volume with all of these records.
fn of_records(records: impl Iterator<Item = Vec<u8>>) -> Flash {
    let mut flash = volume(AREAS, IMAGE);
    for record in records {
        assert!(put(&mut flash, &record));
    }
    flash
}

/// A file of blocks as long as the areas allow; what is left of each area is one shorter block, so that no byte is free.
pub fn greatest_blocks(length: usize) -> Flash {
    let mut flash = volume(AREAS, length);
    flash.inode(0, FIRST_FILE, 0, ROOT, b"a");
    let (mut r, greatest) = (Random::new(1), greatest_block(length / AREAS));
    for id in FIRST_BLOCK.. {
        let Some(area) = (0..AREAS - 1).find(|area| flash.room(*area) > Block::HEADER) else { break };
        let data = r.bytes(greatest.min(flash.room(area) - Block::HEADER));
        let previous = if id == FIRST_BLOCK { NONE } else { id - 1 };
        flash.block(area, id, 0, FIRST_FILE, previous, &data);
    }
    flash
}

fn small_block(id: u32, sequence: u32, owner: u32, previous: u32) -> Vec<u8> {
    Block::new(id, sequence, owner, previous, &[0xa5; 25]).bytes()
}

/// Both tables are full: 256 inodes, then 1,024 blocks that go round the files, ids rising.
pub fn full_tables() -> Flash {
    let files = INODES as u32 - 1;
    let inodes = (0..files).map(|k| Inode::new(FIRST_FILE + k, 0, ROOT, format!("{k:03}").as_bytes()).bytes());
    let blocks = (0..BLOCKS as u32).map(|k| {
        let previous = if k < files { NONE } else { FIRST_BLOCK + k - files };
        small_block(FIRST_BLOCK + k, 0, FIRST_FILE + k % files, previous)
    });
    of_records(inodes.chain(blocks))
}

/// So many block ids, in 1,024 records with rising sequences.
pub fn ids(count: u32) -> Flash {
    of_records((0..BLOCKS as u32).map(|k| small_block(FIRST_BLOCK + k % count, k / count, FIRST_FILE, NONE)))
}

/// A record of the least size for this id, as a version.
fn least(id: u32, sequence: u32) -> Vec<u8> {
    match id {
        ROOT..FIRST_BLOCK => Inode::new(id, sequence, NONE, b"").bytes(),
        _ => Block::new(id, sequence, FIRST_FILE, NONE, b"b").bytes(),
    }
}

/// The newest version of each of 1,024 blocks and 256 inodes first, ids falling; then older and older ones as long as there is room, those first
/// whose ids were seen last, blocks and inodes in turn. None of the records that follow counts.
fn worst_order() -> Flash {
    const NEWEST: u32 = 1_000_000;
    let mut flash = headed(AREAS, IMAGE);
    let blocks: Vec<u32> = (0..BLOCKS as u32).rev().map(|k| FIRST_BLOCK + k).collect();
    let inodes: Vec<u32> = (0..INODES as u32 - 1).rev().map(|k| FIRST_FILE + k).chain([ROOT]).collect();
    for id in blocks.iter().chain(&inodes) {
        assert!(put(&mut flash, &least(*id, NEWEST)));
    }
    let pairs = blocks.iter().rev().cycle().zip(inodes.iter().rev().cycle());
    let older = pairs.flat_map(|(block, inode)| [*block, *inode]).zip((0..NEWEST).rev());
    let _ = older.take_while(|(id, sequence)| put(&mut flash, &least(*id, *sequence))).count();
    flash
}

/// Records of 20 bytes as long as there is room, rising versions of 255 files that were deleted. Of areas of one length sixteen have the most room
/// beside scratch.
pub fn most_records(areas: usize, length: usize) -> Flash {
    let mut flash = volume(areas, length);
    let files = INODES as u32 - 1;
    let _ = (0..).take_while(|k| put(&mut flash, &least(FIRST_FILE + k % files, k / files))).count();
    flash
}

/// Every hundredth byte of each file area is altered; the headers and the root are not.
fn damaged(mut flash: Flash) -> Flash {
    let offsets = |area| (100..IMAGE / AREAS).step_by(100).map(move |at| area * (IMAGE / AREAS) + at);
    for at in (0..AREAS - 1).flat_map(offsets) {
        flash.image[at] ^= 0xff;
    }
    flash
}

/// Behind the headers and the root the file areas are as this says of each offset in the image.
fn rest_by(mut byte: impl FnMut(usize) -> u8) -> Flash {
    let mut flash = volume(AREAS, IMAGE);
    let rest = |area| flash.offset(area) + flash.next(area)..flash.offset(area) + flash.length(area);
    let offsets: Vec<usize> = (0..AREAS - 1).flat_map(rest).collect();
    for at in offsets {
        flash.image[at] = byte(at);
    }
    flash
}

/// Behind the headers and the root seeded bytes, in which a first byte of a magic is met now and then and a whole one hardly ever.
fn rest_drawn() -> Flash {
    let mut r = Random::new(2);
    rest_by(|_| r.draw() as u8)
}

/// In each file area a record that was torn: 40 bytes of it, and free space behind them.
fn torn() -> Flash {
    let mut flash = volume(AREAS, IMAGE);
    let record = Block::new(FIRST_BLOCK, 0, FIRST_FILE, NONE, &[0x5a; 100]).bytes();
    assert!((0..AREAS - 1).all(|area| flash.put(area, &record[..40])));
    flash
}

/// The first so many bytes of a magic over and over, of an inode's or a block's as drawn.
fn starts_of_magics(bytes: usize) -> Flash {
    let mut r = Random::new(3);
    let mut magic = MAGICS[0];
    rest_by(|at| {
        if at % bytes == 0 {
            magic = r.pick(&MAGICS);
        }
        magic[at % bytes]
    })
}

/// Ids that differ by multiples of these agree in the bits that an index of so many slots might take them by.
const STEPS: [(u32, &str); 3] = [
    (1_024, "ids that differ by multiples of 1,024"),
    (4_096, "ids that differ by multiples of 4,096"),
    (1 << 20, "ids that differ by multiples of 2^20"),
];

/// The slot of a key in the proved index (`crates/table_index`): of an id, or of an id and 40,503 times a sequence.
fn proved_slot(key: u32) -> usize {
    (key.wrapping_mul(2_654_435_769) >> 23) as usize
}

/// What would take long if an index were taken in, or a check believed in before it is worked out.
pub fn hostile() -> Vec<Named> {
    let ids = |inodes, blocks| in_one_slot(FIRST_FILE, INODES - 1, inodes).chain(in_one_slot(FIRST_BLOCK, BLOCKS, blocks)).collect::<Vec<_>>();
    let mut kinds = vec![
        ("ids in one slot of the proved index", of_ids(&ids(proved_slot, proved_slot))),
        ("ids in one slot of the baselines", of_ids(&ids(Inodes::home, Blocks::home))),
    ];
    for (step, name) in STEPS {
        let inodes = (0..INODES as u32 - 1).map(|k| FIRST_FILE + k * step);
        let blocks = (0..BLOCKS as u32).map(|k| FIRST_BLOCK + k * step);
        kinds.push((name, of_ids(&inodes.chain(blocks).collect::<Vec<_>>())));
    }
    kinds.extend([
        ("one id, sequences falling", versions((0..4_000).rev().map(|k| (FIRST_FILE, k)))),
        ("one id, sequences falling by 4,096", versions((0..4_000).rev().map(|k| (FIRST_FILE, 4_096 * k)))),
        ("versions that agree in 12 low bits", versions((0..4_000).rev().map(|k| (FIRST_FILE + k % 255 * 4_096, k / 255 * 4_096)))),
        ("ids and versions in one slot each of the proved index", ids_and_versions()),
        ("versions in one slot of the proved index", versions(versions_in_one_slot(|sequence| proved_slot(FIRST_FILE.wrapping_add(sequence.wrapping_mul(40_503)))))),
        ("versions in one slot of the baselines", versions(versions_in_one_slot(|sequence| Versions::home(FIRST_FILE, sequence)))),
        ("every four bytes a magic", starts_of_magics(4)),
        ("every 12 bytes a longest block's header", long_headers()),
    ]);
    kinds
}

/// So many ids from this one on that a search begins for at one slot.
fn in_one_slot(first: u32, count: usize, home: fn(u32) -> usize) -> impl Iterator<Item = u32> {
    (first..).filter(move |id| home(*id) == home(first)).take(count)
}

/// Falling sequences of one id that a search begins for at one slot.
fn versions_in_one_slot(home: fn(u32) -> usize) -> impl Iterator<Item = (u32, u32)> {
    (0..u32::MAX).rev().filter(move |sequence| home(*sequence) == home(0)).take(4_000).map(|sequence| (FIRST_FILE, sequence))
}

/// One record of each id, then versions of the last one as long as there is room.
fn of_ids(ids: &[u32]) -> Flash {
    let mut flash = of_records(ids.iter().map(|id| least(*id, 0)));
    let last = ids[ids.len() - 1];
    let _ = (1..).take_while(|sequence| put(&mut flash, &least(last, *sequence))).count();
    flash
}

/// These ids and sequences as long as there is room, in sixteen areas.
fn versions(of: impl Iterator<Item = (u32, u32)>) -> Flash {
    let mut flash = volume(16, IMAGE);
    let _ = of.map(|(id, sequence)| least(id, sequence)).take_while(|record| put(&mut flash, record)).count();
    flash
}

/// Both indexes at once: inodes in one slot, then falling versions of the one that a search of the slot meets last, in one slot too.
fn ids_and_versions() -> Flash {
    let of_version = |sequence: u32| proved_slot(FIRST_FILE.wrapping_add(sequence.wrapping_mul(40_503)));
    let mut falling = versions_in_one_slot(of_version);
    let first = falling.next();
    let others = in_one_slot(FIRST_FILE, INODES - 1, proved_slot).skip(1).map(|id| (id, 0));
    versions(first.into_iter().chain(others).chain(falling))
}

/// Headers that only the check tells from those of a longest block, each of which asks for it over 2,072 bytes: magic, id and sequence, which are owner,
/// previous, length and check field of the header 12 bytes before.
fn long_headers() -> Flash {
    let mut flash = volume(AREAS, IMAGE);
    let fields = |k: u32| [Block::MAGIC, FIRST_BLOCK + k, 0x1234_0800];
    let bytes = |k: u32| fields(k).iter().flat_map(|field| field.to_le_bytes()).collect::<Vec<_>>();
    let _ = (0..).take_while(|k| put(&mut flash, &bytes(*k))).count();
    flash
}

/// Nearly every byte is taken, by files of four or five blocks: what the calls are timed on.
pub fn nearly_full() -> Flash {
    let inodes = (0..60).map(|k| {
        let name = [&[b'n'; 80][..], &[b'0' + k]].concat();
        Inode::new(FIRST_FILE + u32::from(k), 0, ROOT, &name).bytes()
    });
    let blocks = (0..250).map(|k| {
        let previous = if k < 60 { NONE } else { FIRST_BLOCK + k - 60 };
        Block::new(FIRST_BLOCK + k, 0, FIRST_FILE + k % 60, previous, &[0xa5; 170]).bytes()
    });
    of_records(inodes.chain(blocks))
}
