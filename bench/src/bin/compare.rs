//! Compares every answer, buffer and byte of memory that the proved device and the plain one leave.

use boundary_bench::proved::Proved;
use boundary_bench::trials::case::{Case, Entry, Plain};
use boundary_bench::trials::comparing::compare;
use boundary_bench::trials::edges;
use boundary_bench::trials::generating::{Size, case};
use boundary_bench::trials::reading::Tally;
use std::process::ExitCode;

/// How many cases of a size go through each entry point, and the seed of the first.
const ROUNDS: [(Size, u64, u64); 3] = [
    (Size::Short, 4_000, 0),
    (Size::Long, 12, 1_000_000),
    (Size::Large, 1, 2_000_000),
];

/// After so many differing traces the others are not told.
const TOLD: u64 = 20;

#[derive(Default)]
struct Comparison {
    all: Tally,
    differing: u64,
}

impl Comparison {
    /// Compares the traces of one name, a pair of equal cases for each.
    fn round(&mut self, name: &str, pairs: impl Iterator<Item = (Case, Case)>) {
        let mut tally = Tally::default();
        let mut traces = 0;
        for (one, two) in pairs {
            let seed = one.seed;
            let compared = compare::<Plain, Proved>(one, two);
            let left = &compared.left;
            tally.add(&left.trace, compared.ended, &left.output);
            traces += 1;
            self.tell(name, seed, &compared.differences);
        }
        println!("{name}: {traces} traces, {} calls", tally.calls);
        self.all.merge(&tally);
    }

    fn tell(&mut self, name: &str, seed: u64, differences: &[String]) {
        if differences.is_empty() {
            return;
        }
        self.differing += 1;
        if self.differing <= TOLD {
            println!("DIFFERS: {name}, seed {seed}, plain and proved:");
            for difference in differences {
                println!("    {difference}");
            }
        }
    }
}

fn main() -> ExitCode {
    let mut comparison = Comparison::default();
    for entry in Entry::ALL {
        for (size, count, first) in ROUNDS {
            let cases = (first..first + count).map(|seed| case(entry, size, seed));
            let pairs = cases.map(|case| (case.clone(), case));
            comparison.round(&format!("{entry:?} {size:?}"), pairs);
        }
    }
    let pairs = (0..edges::COUNT).map(|number| (edges::case(number), edges::case(number)));
    comparison.round("Edges", pairs);
    let Comparison { all, differing } = comparison;
    println!("{all}");
    if differing == 0 {
        println!("All {} calls compared alike.", all.calls);
        ExitCode::SUCCESS
    } else {
        println!("{differing} traces DIFFER.");
        ExitCode::FAILURE
    }
}
