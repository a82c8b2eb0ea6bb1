//! The proved code and the model over the states that seeded sequences of calls go through: reports and format in each of them, every call in
//! the last.

use std::collections::BTreeMap;

use nffs_compare::Proved;
use nffs_model::compare::{run as run_case, show, Call, Case, Model, Side, Tally};
use nffs_model::generate;
use nffs_model::layout::{is_file, ROOT};
use nffs_model::mount::{mount, Fate};

/// How often each number was answered.
type Answers = BTreeMap<u32, u64>;

/// Compares the reports and format in one state of the image; none changes it.
fn report_and_format(side: &Side, at: &str, reports: &mut Answers, formats: &mut Answers) {
    let report = nffs_compare::report(&side.image, &side.areas);
    assert_eq!(report, nffs_model::report(&side.image, &side.areas), "report, {at}");
    *reports.entry(report.number).or_insert(0) += 1;
    for index in 0..=side.areas.len() as u32 / 2 {
        let told = nffs_compare::area_report(&side.image, &side.areas, index, 0);
        assert_eq!(told, nffs_model::area_report(&side.image, &side.areas, index, 0), "area {index}, {at}");
    }

    let (mut image, mut expected) = (side.image.clone(), side.image.clone());
    let number = nffs_compare::format(&mut image, &side.areas);
    assert_eq!(number, nffs_model::format(&mut expected, &side.areas), "number of format, {at}");
    assert!(image == expected, "image of format, {at}");
    *formats.entry(number).or_insert(0) += 1;
}

/// The id and the path of the last live file, or of one that isn't there.
fn a_file(side: &Side) -> (u32, Vec<u8>) {
    let nothing = (0x1000_0000, b"/a".to_vec());
    let Ok(fs) = mount(&side.image, &side.areas) else { return nothing };
    let live = |id: &u32| is_file(*id) && fs.fate(*id) == Fate::Live;
    let Some(id) = fs.inodes().map(|inode| inode.id).filter(live).last() else { return nothing };
    let (mut path, mut at) = (Vec::new(), id);
    while at != ROOT {
        let inode = fs.inode(at).expect("a live inode's parents have records");
        path = [b"/", &inode.name[..], &path].concat();
        at = inode.parent;
    }
    (id, path)
}

/// Every call, each on the same state.
fn every_call(side: &Side, at: &str, tally: &mut Tally) {
    let (id, path) = a_file(side);
    let base = Vec::new();
    let handle = Call::Handle { id, position: 1 };
    let calls = [
        vec![Call::Report],
        vec![Call::AreaReport { index: 0, stretch: 0 }, Call::AreaReport { index: 1, stretch: 1 }],
        vec![Call::Tree { length: 0 }, Call::Tree { length: 40 }, Call::Tree { length: 1000 }],
        vec![Call::Format],
        vec![Call::Lookup { base: base.clone(), path: path.clone() }],
        vec![Call::Open { base: base.clone(), path: path.clone() }],
        vec![Call::ReadAt { id, position: 0, length: 100 }],
        vec![handle, Call::Read { length: 100 }],
        vec![Call::Create { base: b"/".to_vec(), path: b"a new name".to_vec(), kind: 1 }],
        vec![Call::Append { base: base.clone(), path: path.clone(), data: vec![7; 50] }],
        vec![Call::Overwrite { base: base.clone(), path: path.clone(), offset: 0, data: vec![7; 1] }],
        vec![Call::Overwrite { base: base.clone(), path: path.clone(), offset: 3, data: vec![7; 20] }],
        vec![Call::Rename { base: base.clone(), old: path.clone(), new: b"/a new name".to_vec() }],
        vec![Call::Rename { base: b"/".to_vec(), old: path.clone(), new: b"a new name".repeat(20) }],
        vec![Call::Unlink { base, path }],
        vec![Call::Collect],
    ];
    for calls in calls {
        let case = Case { image: side.image.clone(), areas: side.areas.clone(), calls };
        if run_case(&case, &Proved, &Model, tally).is_some() {
            panic!("{at}\n{}", show(&case, &Proved, &Model));
        }
    }
}

/// Every state of the seeds' cases: each image and area list before and after every call, damage included.
fn run(seeds: std::ops::Range<u64>) {
    println!("seeds {seeds:?}");
    let (mut reports, mut formats, mut tally) = (Answers::new(), Answers::new(), Tally::default());
    for seed in seeds {
        let case = generate::case(seed);
        let mut side = Side::new(&case);
        report_and_format(&side, &format!("seed {seed}, at first"), &mut reports, &mut formats);
        for (step, call) in case.calls.iter().enumerate() {
            side.perform(&Model, call);
            report_and_format(&side, &format!("seed {seed}, after {} calls", step + 1), &mut reports, &mut formats);
        }
        every_call(&side, &format!("seed {seed}, at last"), &mut tally);
    }
    println!("reports by number: {reports:?}, in all {}", reports.values().sum::<u64>());
    println!("formats by number: {formats:?}, in all {}", formats.values().sum::<u64>());
    println!("every call in the last states: {:?}, in all {}", tally.answers, tally.calls);
    assert!((0..=7).all(|number| reports.contains_key(&number)), "a number of the report was not reached");
    assert!([0, 1, 3].iter().all(|number| formats.contains_key(number)), "a number of format was not reached");
    let others = ["Tree", "Format", "Lookup", "Open", "ReadAt", "Read", "Create", "Append", "Overwrite", "Unlink", "Rename", "Collect"];
    for call in ["Report", "AreaReport"].into_iter().chain(others) {
        assert!(tally.answers.contains_key(&(call, 0)), "{call} was never accepted");
    }
}

#[test]
fn first_half() {
    run(0..6_000);
}

#[test]
fn second_half() {
    run(1_000_000..1_006_000);
}

/// A report of a damaged image would be seen to differ: the comparison can fail.
#[test]
fn a_difference_is_seen() {
    let mut image = vec![0xff; 8192];
    let areas = [0, 4096, 4096, 4096];
    assert_eq!(nffs_compare::format(&mut image, &areas), 0);
    let before = nffs_compare::report(&image, &areas);
    image[4120] ^= 1;
    assert_ne!(nffs_compare::report(&image, &areas), before);
    assert_eq!(nffs_compare::report(&image, &areas).number, 7);
}
