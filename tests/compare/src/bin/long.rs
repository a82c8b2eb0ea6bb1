//! Seeded sequences until so many calls are compared: `tests/compare/long [CALLS [FIRST SEED]]`.

use nffs_compare::Proved;
use nffs_model::compare::{compare, Model};

fn number(argument: Option<String>, otherwise: u64) -> u64 {
    argument.map_or(otherwise, |text| text.replace([',', '_'], "").parse().expect("a number"))
}

fn main() {
    let mut arguments = std::env::args().skip(1);
    let wanted = number(arguments.next(), 10_000_000);
    let mut seed = number(arguments.next(), 100_000_000);
    let mut calls = 0;
    while calls < wanted {
        let seeds = seed..seed + 2_500;
        match compare(seeds.clone(), &Proved, &Model) {
            Ok(tally) => calls += tally.calls,
            Err(case) => {
                println!("{case}");
                std::process::exit(1);
            }
        }
        println!("seeds {seeds:?}: {calls} calls");
        seed = seeds.end;
    }
    println!("{calls} calls, no difference");
}
