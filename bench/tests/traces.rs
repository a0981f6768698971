//! The generated cases reach what there is to compare.

use boundary_bench::trials::case::{Entry, Plain};
use boundary_bench::trials::edges;
use boundary_bench::trials::generating::{Size, case};
use boundary_bench::trials::reading::Tally;

fn tally(entry: Entry, size: Size, seeds: std::ops::Range<u64>) -> Tally {
    let mut tally = Tally::default();
    for seed in seeds {
        let mut case = case(entry, size, seed);
        let ended = case.run::<Plain>();
        tally.add(&case.trace, ended, &case.output);
    }
    tally
}

#[test]
fn a_seed_makes_one_case() {
    for entry in Entry::ALL {
        let (one, two) = (case(entry, Size::Short, 9), case(entry, Size::Short, 9));
        assert_eq!(one.trace, two.trace);
        assert_eq!(one.output, two.output);
        assert_eq!(one.lent.image(), two.lent.image());
    }
}

#[test]
fn short_traces_reach_every_answer() {
    for entry in Entry::ALL {
        let tally = tally(entry, Size::Short, 0..600);
        println!("{entry:?}: {tally}");
        assert!(tally.answers.iter().all(|&count| count > 50), "{tally}");
        let endings: Vec<u8> = tally.endings.keys().copied().collect();
        assert_eq!(endings, [0, 1, 2, 3, 4, 5]);
        let refused: Vec<_> = tally.refused.keys().copied().collect();
        let expected = [
            (1, 1),
            (1, 2),
            (1, 3),
            (1, 4),
            (1, 6),
            (2, 0),
            (3, 1),
            (4, 3),
            (128, 2),
            (128, 4),
            (128, 5),
        ];
        assert_eq!(refused, expected);
        let notices: Vec<_> = tally.notices.keys().copied().collect();
        assert_eq!(notices, [(3, 1), (4, 1), (4, 8)]);
        let (reports, faults): (&[_], &[_]) = match entry {
            Entry::Pile => (&[(0, 0), (5, 4), (8, 4), (8, 5)], &[2, 3]),
            _ => (&[(0, 0), (8, 4), (8, 5)], &[2]),
        };
        assert!(tally.reports.keys().eq(reports));
        assert!(tally.faults.keys().eq(faults));
        assert!(tally.locks > 50 && tally.segments > 1_000);
    }
}

#[test]
fn edges_are_refused_or_run() {
    let ended: Vec<u64> = (0..edges::COUNT)
        .map(|number| edges::case(number).run::<Plain>() >> 56)
        .collect();
    assert_eq!(ended, [0, 2, 0, 2, 2, 0, 2, 0, 2, 0, 2, 0, 0]);
}

#[test]
fn long_traces_stay_busy() {
    let tally = tally(Entry::Pile, Size::Long, 0..4);
    println!("{tally}");
    assert!(tally.calls > 40_000);
    assert!(tally.accepted * 8 > tally.calls);
    assert!(tally.segments * 20 > tally.calls);
}
