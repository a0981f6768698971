//! Cases at the edges of what an image may be. Their memory is all zero, and mostly never touched.

use super::case::{Case, Lent};
use super::writing::head;
use crate::plain::geometry::Geometry;
use crate::plain::layers::Run;
use crate::plain::raw::RECORD;
use crate::plain::store::{BLOCK, MOST_BLOCKS};
use crate::plain::trace::{Call, Kind};
use crate::plain::units::Unit;

const MOST: usize = MOST_BLOCKS as usize;

/// How many such cases there are.
pub const COUNT: u64 = 13;

/// Makes one of them; each time anew, since a copy would touch all memory.
pub fn case(number: u64) -> Case {
    let lent = match number {
        0 => flat(0, 0),
        1 => flat(0, 1),
        2 => flat(MOST * BLOCK, MOST / 8),
        3 => flat((MOST + 1) * BLOCK, MOST / 8 + 1),
        4 => flat((MOST + 1) * BLOCK, MOST / 8),
        5 => raw(MOST, 2),
        6 => raw(MOST + 1, 2),
        7 => raw(0, 2),
        8 => raw(0, 257),
        9 => raw(16_448, 256),
        10 => raw(16_449, 256),
        11 => pile(Run {
            first: 1,
            count: MOST_BLOCKS,
        }),
        _ => pile(Run {
            first: 0,
            count: u32::MAX,
        }),
    };
    Case {
        seed: number,
        lent,
        trace: trace(),
        output: vec![0xEE; 1_000],
    }
}

fn flat(image: usize, damage: usize) -> Lent {
    Lent::Flat {
        image: vec![0; image],
        damage: vec![0; damage],
    }
}

fn raw(tracks: usize, records: u32) -> Lent {
    Lent::Raw {
        image: vec![0; tracks * records as usize * RECORD],
        spares: vec![0; tracks],
        records,
    }
}

fn pile(window: Run) -> Lent {
    Lent::Pile {
        image: vec![0; MOST * BLOCK],
        damage: vec![0; MOST / 8],
        window,
        guard: Run {
            first: MOST_BLOCKS - 1,
            count: u32::MAX,
        },
    }
}

/// A write and a read of the last block that there can be.
fn trace() -> Vec<u8> {
    let last = Unit {
        first: MOST_BLOCKS - 1,
        geometry: Geometry {
            cylinders: 1,
            heads: 1,
            sectors: 1,
        },
    };
    let mut trace = head(1, MOST_BLOCKS, &[last]);
    for kind in [
        Kind::Clear,
        Kind::Command(&[0x02]),
        Kind::segment(BLOCK),
        Kind::report(13),
        Kind::Fault,
        Kind::Command(&[0x10, 0, 0, 0, 0, 0, 0, 0x00]),
        Kind::segment(BLOCK),
        Kind::report(13),
        Kind::Activity,
    ] {
        Call { host: 5, kind }.write(&mut trace);
    }
    trace
}
