//! Lists of areas of every length up to 20 entries, with the mark that ends them at each place, on the proved calls and on the model.

use nffs_compare::Proved;
use nffs_model::compare::{run, show, Call, Case, Model, Tally};

/// The most entries of a list here; a good one has 16 at most.
const MOST: u32 = 20;
const LENGTH: u32 = 256;

/// Every call, that of one area for every entry and for some that are not there, and format last.
fn calls() -> Vec<Call> {
    let (base, root, file) = (Vec::new(), b"/".to_vec(), b"/f".to_vec());
    let indices = (0..=MOST).chain([255, 256, 0x8000_0000, u32::MAX]);
    let mut calls: Vec<Call> = indices.map(|index| Call::AreaReport { index, stretch: 0 }).collect();
    calls.extend([
        Call::Report,
        Call::Lookup { base: base.clone(), path: root },
        Call::Create { base: base.clone(), path: file.clone(), kind: 1 },
        Call::Append { base: base.clone(), path: file.clone(), data: vec![7; 50] },
        Call::Overwrite { base: base.clone(), path: file.clone(), offset: 20, data: vec![8; 25] },
        Call::Open { base: base.clone(), path: file.clone() },
        Call::Read { length: 20 },
        Call::ReadAt { id: 0x1000_0000, position: 10, length: 50 },
        Call::Tree { length: 20 },
        Call::Rename { base: base.clone(), old: file, new: b"/g".to_vec() },
        Call::Collect,
        Call::Unlink { base, path: b"/g".to_vec() },
        Call::Format,
    ]);
    calls
}

fn entries(count: u32) -> Vec<u32> {
    (0..count).flat_map(|i| [i * LENGTH, LENGTH]).collect()
}

/// All calls under a list, on an image that was formatted with its first `formatted` entries.
fn compare(formatted: u32, areas: Vec<u32>, tally: &mut Tally) {
    let mut image = vec![0; (MOST * LENGTH) as usize];
    nffs_model::format(&mut image, &entries(formatted));
    let case = Case { image, areas, calls: calls() };
    let model = Model;
    if run(&case, &Proved, &model, tally).is_some() {
        panic!("{}", show(&case, &Proved, &model));
    }
}

#[test]
fn every_length_and_every_end() {
    let mut tally = Tally::default();
    for formatted in 2..=16 {
        for count in 0..=MOST {
            compare(formatted, entries(count), &mut tally);
            for end in 0..count {
                let mut ended = entries(count);
                ended[2 * end as usize + 1] = 0;
                compare(formatted, ended, &mut tally);
            }
        }
    }
    println!("{} calls: {:?}", tally.calls, tally.answers);
    for call in ["Report", "Tree", "Lookup", "Create", "Append", "Overwrite", "Open", "Read", "ReadAt", "Rename", "Collect", "Unlink", "Format"] {
        for number in [0, 1, 3] {
            assert!(tally.answers.contains_key(&(call, number)), "{call} never answered {number}");
        }
    }
    assert!([0, 1].iter().all(|number| tally.answers.contains_key(&("AreaReport", *number))));
}

/// The report of one area (T-08) is 0 exactly for the entries before the end of a list that is good, whether it mounts or not.
#[test]
fn every_entry_of_every_list() {
    let image = vec![0x5a; (MOST * LENGTH) as usize];
    for count in 0..=MOST {
        for end in 0..=count {
            let mut list = entries(count);
            if end < count {
                list[2 * end as usize + 1] = 0;
            }
            let good = (1..=16).contains(&end);
            for index in (0..=MOST).chain([u32::MAX]) {
                let told = nffs_compare::area_report(&image, &list, index, 0);
                let there = good && index < end;
                assert_eq!((told.number, told.skipped), if there { (0, LENGTH - 24) } else { (1, 0) }, "{index} of {end} of {count}");
                assert_eq!(told, nffs_model::area_report(&image, &list, index, 0));
            }
        }
    }
}

/// The seventeenth entry refuses a list; behind the end it does not.
#[test]
fn the_seventeenth_entry() {
    let mut image = vec![0; (MOST * LENGTH) as usize];
    assert_eq!(nffs_compare::format(&mut image, &entries(16)), 0);
    for count in 17..=MOST {
        let mut list = entries(count);
        assert_eq!(nffs_compare::report(&image, &list).number, 1);
        list[2 * 16 + 1] = 0;
        assert_eq!(nffs_compare::report(&image, &list).number, 0);
    }
    assert_eq!(nffs_compare::report(&image, &[]).number, 1);
}
