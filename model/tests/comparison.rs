//! The model against itself: the generator is repeatable and reaches every
//! answer of every call, and a shown case can be pasted back.

use std::collections::BTreeSet;
use std::time::Instant;

use nffs_model::compare::{bytes, compare, hex, run, show, Call, Case, Model, Tally};
use nffs_model::generate::{self, made};

/// Fewer without optimisation.
const CASES: u64 = if cfg!(debug_assertions) { 1000 } else { 8000 };

fn tally(seeds: std::ops::Range<u64>) -> Tally {
    match compare(seeds, &Model, &Model) {
        Ok(tally) => tally,
        Err(text) => panic!("{text}"),
    }
}

/// The numbers that the documents allow each call.
const ANSWERS: [(&str, &[u32]); 14] = [
    ("Format", &[0, 1, 3]),
    ("Report", &[0, 1, 2, 3, 4, 5, 6, 7]),
    ("AreaReport", &[0, 1]),
    ("Tree", &[0, 1, 2, 3, 4, 5, 6, 7]),
    ("Lookup", &[0, 1, 2, 3, 4, 5, 6, 7, 8, 9, 10, 11]),
    ("Open", &[0, 1, 2, 3, 4, 5, 6, 7, 8, 9, 10, 11]),
    ("ReadAt", &[0, 1, 2, 3, 4, 5, 6, 7, 9, 11, 13, 14]),
    ("Read", &[0, 1, 2, 3, 4, 5, 6, 7, 9, 11, 13, 14]),
    ("Create", &[0, 1, 2, 3, 4, 5, 6, 7, 8, 9, 10, 11, 12, 15]),
    ("Append", &[0, 1, 2, 3, 4, 5, 6, 7, 8, 9, 10, 11, 13, 15]),
    ("Overwrite", &[0, 1, 2, 3, 4, 5, 6, 7, 8, 9, 10, 11, 13, 14, 15, 16]),
    ("Unlink", &[0, 1, 2, 3, 4, 5, 6, 7, 8, 9, 10, 11, 15, 16]),
    ("Rename", &[0, 1, 2, 3, 4, 5, 6, 7, 8, 9, 10, 11, 12, 15, 16, 18]),
    ("Collect", &[0, 1, 2, 3, 4, 5, 6, 7, 17]),
];

#[test]
fn every_answer_of_every_call_is_reached() {
    let start = Instant::now();
    let tally = tally(0..CASES);
    let rate = tally.calls as f64 / start.elapsed().as_secs_f64();
    println!("{} calls compared, {rate:.0} a second", tally.calls);
    for ((call, number), times) in &tally.answers {
        println!("{call:10} {number:2} {times}");
    }
    println!("made: {:?}", tally.made);
    let reached: BTreeSet<(&str, u32)> = tally.answers.keys().copied().collect();
    let allowed: BTreeSet<(&str, u32)> =
        ANSWERS.iter().flat_map(|(call, list)| list.iter().map(|n| (*call, *n))).collect();
    assert!(reached.is_subset(&allowed));
    if !cfg!(debug_assertions) {
        assert_eq!(reached, allowed);
        assert_eq!(tally.made.keys().copied().collect::<Vec<_>>(), made::ALL);
    }
}

#[test]
fn a_seed_always_gives_the_same_case() {
    for seed in 0..50 {
        assert_eq!(generate::case(seed), generate::case(seed));
    }
    assert_ne!(generate::case(1), generate::case(2));
}

#[test]
fn hex_and_back() {
    assert_eq!(hex(&[0xff; 7]), "ffffffffffffff");
    assert_eq!(hex(&[0xff; 8]), "ff*8");
    assert_eq!(bytes("0a ff*3 41*2"), [0x0a, 0xff, 0xff, 0xff, 0x41, 0x41]);
    for seed in 0..200 {
        let image = generate::case(seed).image;
        assert_eq!(bytes(&hex(&image)), image);
    }
}

/// The form in which a difference is pasted: the bench's damaged area.
fn pasted() -> Case {
    Case {
        image: bytes(
            "e2318ab98c42b07f5382e0ac8efc85b100100000000000ff ff*4072
             e2318ab98c42b07f5382e0ac8efc85b10010000000000000
             c08b5f920000000000000000ffffffff00001751
             c08b5f920000001000000000000000000001f0c561
             b923ba53000000800000000000000010ffffffff0a00fa49 41*10
             b923ba5301000080000000000000001000000080050026634141414141 ff*3968",
        ),
        areas: vec![0, 4096, 4096, 4096],
        calls: vec![
            Call::Open { base: bytes(""), path: bytes("2f61") },
            Call::Read { length: 20 },
            Call::Damage { offset: 4096 + 103, bytes: bytes("00") },
            Call::ReadAt { id: 0x1000_0000, position: 0, length: 20 },
            Call::AreaReport { index: 1, stretch: 0 },
            Call::AreaReport { index: 4294967295, stretch: 1 },
            Call::Damage { offset: 4096 + 103, bytes: bytes("01") },
            Call::Damage { offset: 4096 + 70, bytes: bytes("01") },
            Call::Read { length: 20 },
            Call::Rename { base: bytes("2f"), old: bytes("61"), new: bytes("62") },
            Call::Damage { offset: 4096 + 70, bytes: bytes("00") },
            Call::Overwrite {
                base: bytes("2f"),
                path: bytes("61"),
                offset: 9,
                data: bytes("4242"),
            },
        ],
    }
}

#[test]
fn a_pasted_case() {
    let (case, mut tally) = (pasted(), Tally::default());
    assert!(run(&case, &Model, &Model, &mut tally).is_none());
    assert_eq!(tally.calls, 8);
    assert_eq!(tally.answers.get(&("Read", 13)), Some(&1));
    assert_eq!(tally.answers.get(&("AreaReport", 1)), Some(&1));
    // The one file area has damage.
    assert_eq!(tally.answers.get(&("Rename", 15)), Some(&1));
    assert_eq!(tally.answers.get(&("Overwrite", 0)), Some(&1));
    let shown = show(&case, &Model, &Model);
    let base = "base: bytes(\"2f\")";
    assert!(shown
        .contains(&format!("Call::Rename {{ {base}, old: bytes(\"61\"), new: bytes(\"62\") }},")));
    let path = "path: bytes(\"61\")";
    assert!(shown.contains(&format!(
        "Call::Overwrite {{ {base}, {path}, offset: 9, data: bytes(\"4242\") }},"
    )));
}

#[test]
fn a_pasted_listing() {
    let (mut case, mut tally) = (pasted(), Tally::default());
    case.calls.push(Call::Tree { length: 5 });
    assert!(run(&case, &Model, &Model, &mut tally).is_none());
    assert_eq!(tally.calls, 9);
    assert_eq!(tally.answers.get(&("Tree", 0)), Some(&1));
    let shown = show(&case, &Model, &Model);
    assert!(shown.contains("        Call::Tree { length: 5 },\n"));
}
