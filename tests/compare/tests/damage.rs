//! Demand 3, run: bytes inside records of valid images overwritten at random, and what the proved calls then answer.

use nffs_compare::Proved;
use nffs_model::compare::{Engine, Model, Side};
use nffs_model::damage::{answers_stay, mount_number, overwrite, reads_as_untouched, reserve, spared, tells_where, Touched};
use nffs_model::generate::{self, Random};
use nffs_model::mount::{mount, FileSystem};

/// The state that a case leads to, if it mounts and its file areas are clean.
fn clean(seed: u64) -> Option<(Side, FileSystem)> {
    let case = generate::case(seed);
    let mut side = Side::new(&case);
    for call in &case.calls {
        side.perform(&Model, call);
    }
    let fs = mount(&side.image, &side.areas).ok()?;
    fs.file_areas.iter().all(|area| area.reading.is_clean()).then_some((side, fs))
}

/// How many damaged images there were, how many of them without a root's record, and spared files and ambiguous paths.
#[derive(Debug, Default)]
struct Count {
    images: u64,
    rootless: u64,
    files: u64,
    ambiguous: u64,
}

/// Asserts all that demand 3 says of one damaged image, and where T-08 says that the damage is.
fn holds(count: &mut Count, (whole, old): (&Side, &FileSystem), after: &Side, touched: &Touched) {
    reads_as_untouched(old, &after.image, touched);
    let report = Proved.report(&after.image, &after.areas);
    assert_eq!(report, nffs_model::report(&after.image, &after.areas));
    assert_eq!(report.number, mount_number(old, touched));
    tells_where(&Proved, old, after, touched);
    let spared = spared(old, touched);
    count.images += 1;
    let Ok(new) = mount(&after.image, &after.areas) else {
        // the root is an ancestor of every live file
        assert!(report.number == 7 && spared.is_empty(), "{} spared files don't mount", spared.len());
        count.rootless += 1;
        return;
    };
    for id in spared {
        count.files += 1;
        count.ambiguous += u64::from(answers_stay(&Proved, (whole, old), (after, &new), id));
    }
}

/// "demand 3 reads the new rule" (T-14): inodes of which only the reserved byte says that they are none, their checks being right, a third of them at
/// once, or one.
#[test]
fn reserved_bytes_alone() {
    let mut count = Count::default();
    let mut inodes = 0;
    for seed in 0..2_000 {
        let Some((whole, old)) = clean(seed) else { continue };
        let mut r = Random::new(seed ^ 0x14);
        let share = if r.chance(50) { 33 } else { 5 };
        let (mut after, mut touched) = (whole.clone(), Touched::new());
        for (i, area) in old.file_areas.iter().enumerate() {
            for taken in area.reading.records.iter().filter(|taken| taken.record.inode().is_some()) {
                if r.chance(share) {
                    let start = area.at.start + taken.offset;
                    reserve(&mut after.image[start..start + taken.record.size()], r.between(1, 255) as u8);
                    touched.push((i, taken.clone()));
                }
            }
        }
        if !touched.is_empty() {
            inodes += touched.len();
            holds(&mut count, (&whole, &old), &after, &touched);
        }
    }
    println!("{inodes} inodes, {count:?}");
    let Count { images, rootless, files, ambiguous: _ } = count;
    assert!(images > 300 && rootless > 50 && files > 300, "too few to tell");
}

#[test]
fn what_is_not_touched_answers_as_before() {
    let mut count = Count::default();
    for seed in 0..6_000 {
        let Some((whole, old)) = clean(seed) else { continue };
        let mut after = whole.clone();
        let Some(touched) = overwrite(&mut Random::new(seed ^ 0xda3a6e), &old, &mut after.image) else { continue };
        holds(&mut count, (&whole, &old), &after, &touched);
    }
    println!("{count:?}");
    let Count { images, rootless, files, ambiguous } = count;
    assert!(images > 2_000 && rootless > 50 && files > 2_000 && ambiguous > 20, "too few to tell");
}
