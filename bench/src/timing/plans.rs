//! Which traces are timed.

use super::scene::Baseline;
use super::script::{DONE, EXECUTION, REFUSED, REPORTING, SEGMENT_BYTES, Script, Transfer};
use crate::plain::geometry::Geometry;
use crate::plain::store::MOST_BLOCKS;
use crate::plain::trace::Kind;
use crate::plain::transaction::SEGMENT;
use crate::plain::units::Unit;
use crate::trials::random::Random;

/// Segments of a trace whose memory stays in the cache, and of one whose does not.
const FEW: u32 = 32;
const MANY: u32 = 2_000;

/// Rounds of a trace of commands.
const ROUNDS: u32 = 1_000;

/// What a rate counts.
#[derive(Clone, Copy, Debug, PartialEq)]
pub enum Count {
    Bytes(usize),
    Rounds(u32),
}

#[derive(Clone, Debug)]
pub struct Plan {
    pub what: String,
    pub script: Script,
    pub count: Count,
    pub baseline: Baseline,
}

/// A store, by how many blocks it has: unit 0 is its first 64, and unit 1, if it is large, the rest.
#[derive(Clone, Copy, Debug, PartialEq, Eq)]
pub enum Blocks {
    Few,
    Most,
}

impl Blocks {
    pub const fn count(self) -> u32 {
        match self {
            Self::Few => 64,
            Self::Most => MOST_BLOCKS,
        }
    }

    pub const fn name(self) -> &'static str {
        match self {
            Self::Few => "64 blocks",
            Self::Most => "4,194,304 blocks",
        }
    }

    fn script(self) -> Script {
        let unit = |first, cylinders| Unit {
            first,
            geometry: Geometry {
                cylinders,
                heads: 8,
                sectors: 8,
            },
        };
        let units = [unit(0, 1), unit(64, 65_535)];
        match self {
            Self::Few => Script::new(&units[..1], 64),
            Self::Most => Script::new(&units, MOST_BLOCKS),
        }
    }
}

const TRANSFERS: [(Transfer, Baseline); 3] = [
    (Transfer::Read, Baseline::Read),
    (Transfer::Write, Baseline::Write),
    (Transfer::Verify, Baseline::Verify),
];

/// Segments of unit 0, which both stores have: the same traces for either.
pub fn small_transfers(blocks: Blocks) -> Vec<Plan> {
    [FEW, MANY]
        .map(|segments| some_transfers(blocks, segments))
        .concat()
}

/// Only as many of them that opening the store is negligible even where it goes through all tracks.
pub fn many_small_transfers(blocks: Blocks) -> Vec<Plan> {
    some_transfers(blocks, MANY)
}

fn some_transfers(blocks: Blocks, segments: u32) -> Vec<Plan> {
    TRANSFERS
        .map(|(transfer, baseline)| {
            let mut script = blocks.script();
            for _ in 0..segments / 2 {
                script.transfer(transfer, 0, 0, 2);
            }
            let what = format!("{transfer:?} 64 blocks at a time, {segments} segments");
            moving(what, script, baseline)
        })
        .to_vec()
}

/// Segments of one long transaction over unit 1, which only the large store has.
pub fn long_transfers() -> Vec<Plan> {
    let mut plans = Vec::new();
    for segments in [FEW, MANY] {
        for (transfer, baseline) in TRANSFERS {
            let mut script = Blocks::Most.script();
            script.transfer(transfer, 1, 0, segments);
            let what = format!("{transfer:?} in one transaction, {segments} segments");
            plans.push(moving(what, script, baseline));
        }
    }
    plans
}

/// Segments at addresses all over a store.
pub fn scattered_transfers(blocks: Blocks) -> Vec<Plan> {
    let (unit, last) = match blocks {
        Blocks::Few => (0, 64 - SEGMENT),
        Blocks::Most => (1, MOST_BLOCKS - 64 - SEGMENT),
    };
    TRANSFERS[..2]
        .iter()
        .map(|&(transfer, baseline)| {
            let mut random = Random::new(1);
            let mut script = blocks.script();
            for _ in 0..MANY {
                script.transfer(transfer, unit, random.below(last), 1);
            }
            let what = format!("{transfer:?} 32 blocks at random addresses, {MANY} segments");
            moving(what, script, baseline)
        })
        .collect()
}

fn moving(what: String, script: Script, baseline: Baseline) -> Plan {
    Plan {
        what,
        count: Count::Bytes(script.moves.len() * SEGMENT_BYTES),
        script,
        baseline,
    }
}

/// Commands, each with what must follow before the next.
pub fn commands(blocks: Blocks) -> Vec<Plan> {
    vec![
        rounds(blocks, "No Op, report (2 calls)", |script| {
            script.call(0, Kind::Command(&[0x34]), REPORTING);
            script.report(0);
        }),
        rounds(blocks, "No Op, cancel (2 calls)", |script| {
            script.call(0, Kind::Command(&[0x34]), REPORTING);
            script.call(0, Kind::Cancel, DONE);
        }),
        rounds(
            blocks,
            "Set Unit, Address, Length, Read; cancel (2 calls)",
            |script| {
                let message = script.message(0x00, 0, 5, 32);
                script.call(0, Kind::Command(&message), EXECUTION);
                script.call(0, Kind::Cancel, DONE);
            },
        ),
        rounds(
            blocks,
            "the same with 1 block: segment, report (3 calls)",
            |script| {
                let message = script.message(0x00, 0, 5, 1);
                script.call(0, Kind::Command(&message), EXECUTION);
                script.call(0, Kind::segment(256), REPORTING);
                script.report(0);
            },
        ),
        rounds(blocks, "refusal 1/1, unknown code (1 call)", |script| {
            script.call(0, Kind::Command(&[0x01]), REFUSED);
        }),
        rounds(
            blocks,
            "refusal 1/3, Set Unit and Address (1 call)",
            |script| {
                let message = script.message(0x00, 0, 64, 1);
                script.call(0, Kind::Command(&message), REFUSED);
            },
        ),
        locked_out(blocks),
        rounds(blocks, "parameters (1 call)", |script| {
            script.call(0, Kind::Parameters, 7);
        }),
    ]
}

/// Reads that are refused since another host has the device's lock.
fn locked_out(blocks: Blocks) -> Plan {
    let mut script = blocks.script();
    script.call(1, Kind::Command(&[0x63]), REPORTING);
    script.report(1);
    for _ in 0..ROUNDS {
        let message = script.message(0x00, 0, 5, 32);
        script.call(0, Kind::Command(&message), REFUSED);
    }
    counted("refusal 4/3 of such a Read, locked out (1 call)", script)
}

fn rounds(blocks: Blocks, what: &str, round: impl Fn(&mut Script)) -> Plan {
    let mut script = blocks.script();
    for _ in 0..ROUNDS {
        round(&mut script);
    }
    counted(what, script)
}

fn counted(what: &str, script: Script) -> Plan {
    Plan {
        what: what.to_owned(),
        script,
        count: Count::Rounds(ROUNDS),
        baseline: Baseline::None,
    }
}

/// What every trace costs besides: opening, power on, two clears, power off.
pub fn set_up(blocks: Blocks) -> Plan {
    Plan {
        what: "open, power on, 2 clears, power off".to_owned(),
        script: blocks.script(),
        count: Count::Rounds(1),
        baseline: Baseline::None,
    }
}
