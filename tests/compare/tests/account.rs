//! T-08, run: each area adds up to its length, its stretches lie apart and in order, and the report is the sum of its file areas, over the images of
//! seeded cases and what their calls leave.

use nffs::Area;
use nffs_compare::{Proved, Safe};
use nffs_model::account::{Added, Books};
use nffs_model::compare::{Engine, Model, Side};
use nffs_model::generate;
use nffs_model::mount::descriptors;

/// The stretches of every area as the crate lists them, and how many there were; none where there is no such area.
fn listed(side: &Side) -> usize {
    let areas: Vec<Area> = side.areas.chunks_exact(2).map(|pair| Area { offset: pair[0], length: pair[1] }).collect();
    let descriptors = descriptors(&side.image, &side.areas).unwrap_or_default();
    assert!(nffs::stretches(&side.image, &areas, descriptors.len() as u32).is_err());
    let mut count = 0;
    for (at, index) in descriptors.into_iter().zip(0..) {
        let stretches = nffs::stretches(&side.image, &areas, index).expect("an area");
        let told: Vec<_> = stretches.map(|stretch| (stretch.offset as usize, stretch.length as usize)).collect();
        let damage = nffs_model::area::read(&side.image[at]).damage;
        assert_eq!(told, damage.iter().map(|stretch| (stretch.offset, stretch.length)).collect::<Vec<_>>());
        count += told.len();
    }
    count
}

fn add_up(engine: &dyn Engine, side: &Side, sum: &mut Added) {
    let added = Books { engine, image: &side.image, areas: &side.areas }.add_up();
    assert_eq!(listed(side), added.stretches);
    sum.areas += added.areas;
    sum.stretches += added.stretches;
    sum.mounted += added.mounted;
}

/// At first, and after all calls.
fn run(seeds: std::ops::Range<u64>, engine: &dyn Engine) {
    let (cases, mut sum) = (seeds.end - seeds.start, Added::default());
    for seed in seeds {
        let case = generate::case(seed);
        let mut side = Side::new(&case);
        add_up(engine, &side, &mut sum);
        for call in &case.calls {
            side.perform(&Model, call);
        }
        add_up(engine, &side, &mut sum);
    }
    println!("{cases} cases: {sum:?}");
    let enough = cases as usize;
    assert!(sum.areas > 4 * enough && sum.stretches > enough && sum.mounted > enough, "too few to tell");
}

#[test]
fn areas_add_up() {
    run(40_000_000..40_004_000, &Proved);
}

/// The functions that answer with a `Result`.
#[test]
fn areas_add_up_by_results() {
    run(50_000_000..50_002_000, &Safe);
}
