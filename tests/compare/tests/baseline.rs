//! The baselines that the mount's time is measured against: both find what the proved mount finds, number, tables, places and damage, and what the
//! model finds; and the calls of the ordinary one answer as the model's do. Nothing is timed before this holds.

#[path = "../src/mount_alone.rs"]
mod mount_alone;

use std::collections::BTreeMap;

use mount_alone::Tables;
use nffs_baseline::Volume;
use nffs_compare::baseline::Baseline;
use nffs_compare::mounted::{difference, of_baseline, of_model, BASELINES};
use nffs_compare::volumes::{self, Named};
use nffs_model::compare::{compare, run as run_case, show, Call, Case, Model, Side, Tally};
use nffs_model::forge::Flash;
use nffs_model::generate::{self, Random};
use nffs_model::layout::{Block, Inode, FIRST_BLOCK, FIRST_FILE, NONE, ROOT};

/// The mounts, each with one lent memory for all images, so that what an earlier image left would show.
struct Mounts {
    tables: Box<Tables>,
    /// One for each baseline.
    volumes: [Box<Volume>; 2],
    /// How often each number was answered.
    answers: BTreeMap<u32, u64>,
    records: usize,
    stretches: u64,
}

impl Mounts {
    fn new() -> Mounts {
        Mounts { tables: Tables::new(), volumes: Default::default(), answers: BTreeMap::new(), records: 0, stretches: 0 }
    }

    /// The proved mount, the baselines and the model find the same. The number of the answer.
    #[track_caller]
    fn same(&mut self, image: &[u8], areas: &[u32], at: &dyn Fn() -> String) -> u32 {
        let (proved, model) = (self.tables.answer(image, areas), of_model(image, areas));
        for ((style, mount), volume) in BASELINES.iter().zip(&mut self.volumes) {
            let baseline = of_baseline(*mount, image, areas, volume);
            if let Some(what) = difference(&model, &baseline) {
                panic!("{}: model and {style} baseline: {what}", at());
            }
            if let Some(what) = difference(&proved, &baseline) {
                panic!("{}: proved and {style} baseline: {what}", at());
            }
        }
        let number = model.as_ref().err().copied().unwrap_or(0);
        *self.answers.entry(number).or_default() += 1;
        if let Ok(found) = model {
            self.records += found.places.len();
            self.stretches += u64::from(found.damage[0]);
        }
        number
    }

    fn same_of(&mut self, flash: &Flash, at: &dyn Fn() -> String) -> u32 {
        self.same(&flash.image, &flash.areas, at)
    }

    /// Every state of a seeded case: before and after every call.
    fn states_of(&mut self, seed: u64) {
        let case = generate::case(seed);
        let mut side = Side::new(&case);
        self.same(&side.image, &side.areas, &|| format!("seed {seed}, at first"));
        for (step, call) in case.calls.iter().enumerate() {
            let before = (side.image.clone(), side.areas.clone());
            side.perform(&Model, call);
            if before != (side.image.clone(), side.areas.clone()) {
                self.same(&side.image, &side.areas, &|| format!("seed {seed}, after {} calls", step + 1));
            }
        }
    }

    /// Bytes overwritten one after another, mostly in or about a record's header.
    fn altered(&mut self, r: &mut Random, name: &str, whole: &Flash) {
        let mut flash = whole.clone();
        for k in 0..40 {
            let places = of_model(&flash.image, &flash.areas).map_or(Vec::new(), |found| found.places);
            let near = if places.is_empty() { 0 } else { usize::from(r.pick(&places)) + r.below(30) };
            let at = if r.chance(80) { near } else { r.below(flash.image.len()) };
            flash.image[at.min(65_535)] = r.pick(&[0, 0xff, 0xc0, 0xb9, 0x8b, 1, 0x80, k]);
            if self.same_of(&flash, &|| format!("{name}, altered {k} times")) != 0 {
                flash = whole.clone();
            }
        }
    }
}

impl Drop for Mounts {
    fn drop(&mut self) {
        println!(
            "{} mounts by number: {:?}; {} records, {} stretches",
            self.answers.values().sum::<u64>(),
            self.answers,
            self.records,
            self.stretches
        );
    }
}

/// Seeded cases: valid, damaged and hostile images.
fn states(seeds: std::ops::Range<u64>) {
    let mut mounts = Mounts::new();
    seeds.for_each(|seed| mounts.states_of(seed));
    assert!((0..=7).all(|number| mounts.answers.contains_key(&number)), "a number was not reached");
}

#[test]
fn states_first_half() {
    states(60_000_000..60_003_000);
}

#[test]
fn states_second_half() {
    states(70_000_000..70_003_000);
}

/// The images that are timed.
fn timed() -> impl Iterator<Item = Named> {
    volumes::kinds().into_iter().chain(volumes::hostile())
}

/// All of them mount.
#[test]
fn timed_images() {
    let mut mounts = Mounts::new();
    for (name, flash) in timed() {
        assert_eq!(mounts.same_of(&flash, &|| name.to_string()), 0, "{name}");
    }
}

#[test]
fn timed_images_of_other_lengths() {
    let mut mounts = Mounts::new();
    let of = |length| [volumes::volume(8, length), volumes::greatest_blocks(length), volumes::most_records(8, length)];
    for flash in [8, 16, 32, 64].into_iter().flat_map(|kib| of(kib << 10)) {
        let length = flash.image.len();
        assert_eq!(mounts.same_of(&flash, &|| format!("{length} bytes")), 0, "{length} bytes");
    }
}

#[test]
fn timed_images_altered() {
    let (mut mounts, mut r) = (Mounts::new(), Random::new(7));
    for (name, whole) in timed() {
        mounts.altered(&mut r, name, &whole);
    }
}

/// A volume of three file areas, one of which these records fill from its start on.
fn with_records(records: &[Vec<u8>]) -> Flash {
    let mut flash = volumes::volume(4, 65_536);
    for record in records {
        assert!((0..3).any(|area| flash.put(area, record)));
    }
    flash
}

fn inode(id: u32, sequence: u32, name: &[u8]) -> Vec<u8> {
    Inode::new(id, sequence, ROOT, name).bytes()
}

/// Two records of one id and sequence with other bytes are 6 wherever they stand among other versions, though neither counts; with the same bytes the
/// first read counts.
#[test]
fn twins() {
    const SEQUENCES: [u32; 5] = [9, 4, 7, 1, 8];
    let mut mounts = Mounts::new();
    let versions = SEQUENCES.map(|sequence| inode(FIRST_FILE, sequence, b"v"));
    let places = || SEQUENCES.iter().flat_map(|sequence| (0..=SEQUENCES.len()).map(move |at| (*sequence, at)));
    for ((sequence, at), (name, number)) in places().flat_map(|place| [(place, (b"v", 0)), (place, (b"w", 6))]) {
        let mut records = versions.to_vec();
        records.insert(at, inode(FIRST_FILE, sequence, name));
        let said = mounts.same_of(&with_records(&records), &|| format!("twin of {sequence} at {at}"));
        assert_eq!(said, number, "twin of {sequence} at {at}, {name:?}");
    }
}

/// Twins of other lengths, and a name that the other's only begins with.
#[test]
fn twins_of_other_lengths() {
    let mut mounts = Mounts::new();
    let block = |data: &[u8]| Block::new(FIRST_BLOCK, 3, FIRST_FILE, NONE, data).bytes();
    let pairs = [[inode(FIRST_FILE, 3, b"v"), inode(FIRST_FILE, 3, b"vv")], [block(b"v"), block(b"vv")]];
    for records in pairs.into_iter().flat_map(|[a, b]| [[a.clone(), b.clone()], [b, a]]) {
        assert_eq!(mounts.same_of(&with_records(&records), &|| "other lengths".to_string()), 6);
    }
}

/// So many ids as the tables have places, and one more; 5 comes before 6 and 7.
#[test]
fn limits() {
    let mut mounts = Mounts::new();
    for (inodes, blocks, number) in [(255, 1023, 0), (256, 1024, 0), (257, 1024, 5), (256, 1025, 5), (257, 1025, 5)] {
        let records: Vec<_> = ids(inodes, blocks).collect();
        let turned: Vec<_> = records.iter().rev().cloned().collect();
        let clashing: Vec<_> = [inode(FIRST_FILE, 5, b"x"), inode(FIRST_FILE, 5, b"y")].into_iter().chain(records.clone()).collect();
        let at = || format!("{inodes} inodes, {blocks} blocks");
        let said = [records, turned, clashing].map(|records| mounts.same_of(&with_records(&records), &at));
        assert_eq!(said, [number, number, if number == 0 { 6 } else { 5 }], "{}", at());
    }
}

/// A record of each of so many inodes, beside the root, and blocks.
fn ids(inodes: u32, blocks: u32) -> impl Iterator<Item = Vec<u8>> {
    let inodes = (0..inodes - 1).map(|k| Inode::new(FIRST_FILE + 77 * k, 0, NONE, b"").bytes());
    let blocks = (0..blocks).map(|k| Block::new(FIRST_BLOCK + 91 * k, 0, FIRST_FILE, NONE, b"b").bytes());
    inodes.chain(blocks)
}

/// The first bytes of each magic: one, two, three and all.
fn starts_of_magics() -> impl Iterator<Item = Vec<u8>> {
    let magics = [Inode::MAGIC, Block::MAGIC].map(u32::to_le_bytes);
    magics.into_iter().flat_map(|magic| [1, 2, 3, 4].map(|start| magic[..start].to_vec()))
}

/// Every start of each magic before a record, and in the last bytes of an area: the jump takes no record's first byte with it.
#[test]
fn jumps() {
    let mut mounts = Mounts::new();
    let record = inode(FIRST_FILE, 0, b"behind");
    for (start, gap) in starts_of_magics().flat_map(|start| (0..70).map(move |gap| (start.clone(), gap))) {
        let mut flash = volumes::volume(4, 1024);
        let junk = [&vec![0; gap][..], &start].concat();
        assert!(flash.put(0, &junk) && flash.put(0, &record));
        let at = flash.offset(1) + flash.length(1) - gap.min(60) - start.len();
        flash.image[at..at + start.len()].copy_from_slice(&start);
        assert_eq!(mounts.same_of(&flash, &|| format!("{start:x?} behind {gap} bytes")), 0);
    }
}

/// Every length of free space, with damage before it or not, up to an area's end.
#[test]
fn free_space() {
    const JUNK: [&[u8]; 4] = [b"", b"\0", b"\xff\0", b"\0\xff"];
    let mut mounts = Mounts::new();
    for (length, junk) in (0..110).flat_map(|length| JUNK.map(|junk| (length, junk))) {
        let mut flash = volumes::volume(4, 1024);
        let body = vec![0xff; 256 - 24 - 20 - 24 - junk.len() - length];
        assert!(flash.put(0, &Block::new(FIRST_BLOCK, 0, FIRST_FILE, NONE, &body).bytes()) && flash.put(0, junk));
        assert_eq!(mounts.same_of(&flash, &|| format!("{length} free behind {junk:?}")), 0);
    }
}

/// The calls of seeded cases beside the model's: answers, images, buffers and handles.
fn calls(seeds: std::ops::Range<u64>) {
    let tally = compare(seeds, &Baseline::default(), &Model).unwrap_or_else(|case| panic!("{case}"));
    println!("{} calls: {:?}", tally.calls, tally.answers);
    for call in ["Format", "Report", "AreaReport", "Lookup", "Open", "Read", "ReadAt", "Create", "Append", "Unlink", "Collect"] {
        assert!(tally.answers.contains_key(&(call, 0)), "{call} was never accepted");
    }
}

#[test]
fn calls_first_half() {
    calls(80_000_000..80_010_000);
}

#[test]
fn calls_second_half() {
    calls(90_000_000..90_010_000);
}

/// One of each call.
fn each_call(path: &[u8]) -> Vec<Call> {
    let (base, path) = (Vec::new(), path.to_vec());
    vec![
        Call::Report,
        Call::Lookup { base: base.clone(), path: path.clone() },
        Call::Open { base: base.clone(), path: path.clone() },
        Call::ReadAt { id: FIRST_FILE, position: 3, length: 5_000 },
        Call::Create { base: base.clone(), path: b"/new".to_vec(), kind: 1 },
        Call::Append { base: base.clone(), path: path.clone(), data: vec![7; 100] },
        Call::Collect,
        Call::Unlink { base, path },
        Call::Collect,
        Call::Report,
    ]
}

/// The calls on the images that are timed, by the path of each one's first file; those that it has not are refused.
#[test]
fn calls_on_timed_images() {
    let mut tally = Tally::default();
    let nearly_full = [&b"/"[..], &[b'n'; 80], b"0"].concat();
    let paths: [&[u8]; 3] = [&nearly_full, b"/000", b"/a"];
    let images: Vec<Named> = volumes::kinds().into_iter().chain([("nearly full", volumes::nearly_full())]).collect();
    for ((name, flash), path) in images.iter().flat_map(|image| paths.map(|path| (image, path))) {
        let case = Case { image: flash.image.clone(), areas: flash.areas.clone(), calls: each_call(path) };
        if let Some(found) = run_case(&case, &Baseline::default(), &Model, &mut tally) {
            panic!("{name}, call {}: {}\n{}", found.call, found.what, show(&case, &Baseline::default(), &Model));
        }
    }
    println!("{} calls: {:?}", tally.calls, tally.answers);
}
