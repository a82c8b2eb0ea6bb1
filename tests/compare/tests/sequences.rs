//! Seeded sequences of calls on the proved code and on the model: answers, images, buffers and handles after each call.

use nffs_compare::{Proved, Safe};
use nffs_model::compare::{compare, Engine, Model};
use nffs_model::generate::made;

/// The numbers that each call must have answered somewhere, so that no rule is passed over.
const REACHED: [(&str, &[u32]); 14] = [
    ("Format", &[0, 1, 3]),
    ("Report", &[0, 1, 2, 3, 4, 5, 6, 7]),
    ("AreaReport", &[0, 1]),
    ("Tree", &[0, 1, 2, 3, 4, 5, 6, 7]),
    ("Lookup", &[0, 1, 2, 3, 4, 5, 6, 7, 8, 9, 10, 11]),
    ("Open", &[0, 1, 2, 3, 4, 5, 6, 7, 8, 9, 10, 11]),
    ("Read", &[0, 1, 2, 3, 4, 5, 6, 7, 9, 11, 13, 14]),
    ("ReadAt", &[0, 1, 2, 3, 4, 5, 6, 7, 9, 11, 13, 14]),
    ("Create", &[0, 1, 2, 3, 4, 5, 6, 7, 8, 9, 10, 11, 12, 15]),
    ("Append", &[0, 1, 2, 3, 4, 5, 6, 7, 8, 9, 10, 11, 13, 15]),
    ("Overwrite", &[0, 1, 2, 3, 4, 5, 6, 7, 8, 9, 10, 11, 13, 14, 15, 16]),
    ("Unlink", &[0, 1, 2, 3, 4, 5, 6, 7, 8, 9, 10, 11, 15, 16]),
    ("Rename", &[0, 1, 2, 3, 4, 5, 6, 7, 8, 9, 10, 11, 12, 15, 16, 18]),
    ("Collect", &[0, 1, 2, 3, 4, 5, 6, 7, 17]),
];

/// Fewer where overflow is checked.
const SEQUENCES: u64 = if cfg!(debug_assertions) { 5_000 } else { 20_000 };

fn run(seeds: std::ops::Range<u64>, calls: &dyn Engine) {
    println!("seeds {seeds:?}");
    let tally = compare(seeds, calls, &Model).unwrap_or_else(|case| panic!("{case}"));
    println!("{} calls: {:?}", tally.calls, tally.answers);
    println!("made: {:?}", tally.made);
    for (call, numbers) in REACHED {
        for number in numbers {
            assert!(tally.answers.contains_key(&(call, *number)), "{call} never answered {number}");
        }
    }
    for rare in made::ALL {
        assert!(tally.made.contains_key(&rare), "{rare:?} was never made");
    }
}

#[test]
fn first_half() {
    run(10_000_000..10_000_000 + SEQUENCES, &Proved);
}

#[test]
fn second_half() {
    run(20_000_000..20_000_000 + SEQUENCES, &Proved);
}

/// The functions that answer with a `Result`.
#[test]
fn by_results() {
    run(30_000_000..30_000_000 + SEQUENCES / 2, &Safe);
}
