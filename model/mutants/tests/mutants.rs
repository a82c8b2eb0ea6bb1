//! A bounded number of generated cases finds each mutant: the comparison can
//! fail, and its cases reach every rule that an edit bends.

use nffs_model::compare::{first_difference, Engine, Model};

/// Cases allowed for finding a mutant.
const CASES: u64 = 4000;

fn found(mutant: &dyn Engine) {
    let seed = first_difference(0..CASES, &Model, mutant);
    println!("found by seed {seed:?}");
    assert!(seed.is_some(), "not found in {CASES} cases");
}

include!(concat!(env!("OUT_DIR"), "/tests.rs"));
