//! The device through traces, against `docs/DEVICE.md` and `docs/TRACE.md`.

use boundary_bench::plain::geometry::Geometry;
use boundary_bench::plain::layers::Run;
use boundary_bench::plain::trace::{self, Buffer, Call, Ending, Kind};
use boundary_bench::plain::units::Unit;
use boundary_bench::trials::writing::head;

/// A small device: unit 0 has blocks 0 to 39 as 2 × 4 × 5, unit 1 blocks 40 to 47 as 8 × 1 × 1.
const UNITS: [Unit; 2] = [
    Unit {
        first: 0,
        geometry: Geometry {
            cylinders: 2,
            heads: 4,
            sectors: 5,
        },
    },
    Unit {
        first: 40,
        geometry: Geometry {
            cylinders: 8,
            heads: 1,
            sectors: 1,
        },
    },
];
const BLOCKS: usize = 50;
const NUMBER: u32 = 7;

const READ: u8 = 0x00;
const WRITE: u8 = 0x02;
const VERIFY: u8 = 0x04;
const NO_OP: u8 = 0x34;
const UNIT_0: u8 = 0x20;
const UNIT_1: u8 = 0x21;
const CONTROLLER: u8 = 0x2F;
const LENGTH: u8 = 0x18;
const ADDRESS: u8 = 0x10;
const VECTOR: u8 = 0x11;
const SET_DEVICE: u8 = 0x63;
const DELETE_DEVICE: u8 = 0x6B;
const SET_UNIT: u8 = 0x73;
const DELETE_UNIT: u8 = 0x7B;

const DONE: &[u8] = &[1];
const EXECUTION: &[u8] = &[2];
const REPORT: &[u8] = &[3];
const NO_TICKET: &[u8] = &[4];

/// A call, and the bytes that its answer begins with; the others are 0.
type Row<'t> = (u8, Kind<'t>, &'t [u8]);

fn command(message: &[u8]) -> Kind<'_> {
    Kind::Command(message)
}

/// An image of 50 blocks, block b full of b, of which the named ones are damaged.
fn image(damaged: &[usize]) -> (Vec<u8>, Vec<u8>) {
    let blocks = (0..BLOCKS).flat_map(|block| [block as u8; 256]).collect();
    let mut map = vec![0; BLOCKS.div_ceil(8)];
    for block in damaged {
        map[block / 8] |= 1 << (block % 8);
    }
    (blocks, map)
}

/// Makes the rows' calls over that image and sees their answers; gives the buffers and the memory.
fn try_rows(damaged: &[usize], rows: &[Row]) -> (Vec<Vec<u8>>, Vec<u8>, Vec<u8>) {
    let (mut blocks, mut map) = image(damaged);
    let mut calls = head(NUMBER, 48, &UNITS);
    for &(host, kind, _) in rows {
        Call { host, kind }.write(&mut calls);
    }
    let mut output = vec![0xEE; 200_000];
    let ended = trace::flat(&mut blocks, &mut map, &calls, &mut output);
    assert_eq!(ended >> 56, Ending::AllMade as u64);
    let (written, rest) = output.split_at((ended & 0xFF_FFFF) as usize);
    assert!(rest.iter().all(|&byte| byte == 0xEE));
    (see(rows, written), blocks, map)
}

/// Sees that each row's answer is as it says; gives the buffers.
fn see(rows: &[Row], mut written: &[u8]) -> Vec<Vec<u8>> {
    let mut buffers = Vec::new();
    for (number, (host, kind, expected)) in rows.iter().enumerate() {
        let (answer, rest) = written.split_at(16);
        let mut whole = [0; 16];
        whole[..expected.len()].copy_from_slice(expected);
        assert_eq!(answer, whole, "row {number}: host {host}, {kind:?}");
        let (buffer, rest) = rest.split_at(match kind {
            Kind::Segment(buffer) | Kind::Report(buffer) => buffer.size,
            _ => 0,
        });
        if !buffer.is_empty() {
            buffers.push(buffer.to_vec());
        }
        written = rest;
    }
    assert!(written.is_empty());
    buffers
}

/// Rows that make a message with no segment be done with.
fn lock(host: u8, message: &[u8]) -> [Row<'_>; 2] {
    [
        (host, command(message), REPORT),
        (host, Kind::report(13), DONE),
    ]
}

#[test]
fn power_on_and_clear() {
    try_rows(
        &[],
        &[
            (0, Kind::Parameters, &[7, 0, 0, 0, 0, 0, 255, 255, 255, 255]),
            (0, Kind::Locks, &[8]),
            (0, Kind::Fault, DONE),
            (0, Kind::Activity, &[9]),
            (0, command(&[NO_OP]), &[0, 3, 1]),
            (0, command(&[]), &[0, 3, 1]),
            (0, Kind::Notice, &[5, 3, 1]),
            (0, Kind::Notice, DONE),
            (0, Kind::Clear, DONE),
            (0, command(&[NO_OP]), REPORT),
            (0, Kind::Clear, &[0, 1, 6]),
            (0, command(&[NO_OP]), &[0, 1, 6]),
            (0, Kind::report(13), DONE),
            (1, Kind::Clear, DONE),
            (1, Kind::Notice, DONE),
        ],
    );
}

#[test]
fn hosts_past_seven() {
    try_rows(
        &[],
        &[
            (8, command(&[NO_OP]), &[0, 128, 4]),
            (8, Kind::Clear, &[0, 128, 4]),
            (255, Kind::Notice, &[0, 128, 4]),
            (8, Kind::Fault, &[0, 128, 4]),
            (8, Kind::Parameters, &[0, 128, 4]),
            (8, Kind::Locks, &[0, 128, 4]),
            (8, Kind::Activity, &[9]),
            (8, Kind::segment(256), NO_TICKET),
            (8, Kind::report(13), NO_TICKET),
            (8, Kind::Cancel, NO_TICKET),
        ],
    );
}

#[test]
fn messages_and_target_addresses() {
    const A: u8 = ADDRESS;
    try_rows(
        &[],
        &[
            (0, Kind::Clear, DONE),
            (
                0,
                command(&[A, 0, 0, 0, 0, 0, 39, LENGTH, 0, 0, 1, 0]),
                REPORT,
            ),
            (0, Kind::report(13), DONE),
            (0, Kind::Parameters, &[7, 0, 0, 0, 0, 39, 0, 0, 1, 0]),
            (0, command(&[A, 0, 0, 0, 0, 0, 40]), &[0, 1, 3]),
            (0, Kind::Parameters, &[7, 0, 0, 0, 0, 0, 0, 0, 1, 0]),
            (0, command(&[VECTOR, 0, 0, 1, 3, 0, 4]), REPORT),
            (0, Kind::report(13), DONE),
            (0, Kind::Parameters, &[7, 0, 0, 0, 0, 39, 0, 0, 1, 0]),
            (0, command(&[UNIT_1, 0x99]), &[0, 1, 1]),
            (0, Kind::Parameters, &[7, 0, 0, 0, 0, 39, 0, 0, 1, 0]),
            (0, command(&[CONTROLLER, READ]), &[0, 1, 2]),
            (0, command(&[CONTROLLER, SET_UNIT]), &[0, 1, 2]),
            (0, Kind::Parameters, &[7, 0, 0, 0, 0, 39, 0, 0, 1, 0]),
            (0, command(&[CONTROLLER, SET_DEVICE]), REPORT),
            (0, Kind::report(13), DONE),
            (0, Kind::Parameters, &[7, 15, 0, 0, 0, 0, 0, 0, 1, 0]),
            (0, command(&[READ]), &[0, 1, 2]),
            (0, command(&[A, 0, 0, 0, 0, 0, 0]), &[0, 1, 3]),
            (0, Kind::Locks, &[8, 1]),
            (0, command(&[UNIT_1, LENGTH, 0, 0, 0, 1]), &[0, 1, 4]),
            (0, command(&[UNIT_1, LENGTH, 0, 0, 0]), &[0, 2, 0]),
            (0, command(&[READ, UNIT_1]), &[0, 1, 6]),
            (0, command(&[0x22]), &[0, 1, 2]),
        ],
    );
}

#[test]
fn a_read_in_segments() {
    let (buffers, ..) = try_rows(
        &[33, 35],
        &[
            (0, Kind::Clear, DONE),
            (0, command(&[READ]), EXECUTION),
            (0, Kind::report(13), NO_TICKET),
            (0, Kind::segment(8191), &[0, 128, 5]),
            (0, Kind::segment(8200), EXECUTION),
            (
                0,
                Kind::Parameters,
                &[7, 0, 0, 0, 0, 32, 255, 255, 255, 255],
            ),
            (0, Kind::Activity, &[9, 0, 0, 0, 0, 0, 0, 0, 32]),
            (0, Kind::segment(2047), &[0, 128, 5]),
            (0, Kind::segment(2048), REPORT),
            (0, Kind::segment(2048), NO_TICKET),
            (0, Kind::report(12), &[0, 128, 5]),
            (0, Kind::report(14), DONE),
            (0, Kind::report(13), NO_TICKET),
            (0, Kind::Fault, &[6, 2, 0, 0, 0, 33, 0, 0, 0, 0, 33]),
            (
                0,
                Kind::Parameters,
                &[7, 0, 0, 0, 0, 40, 255, 255, 255, 255],
            ),
            (0, Kind::Activity, &[9, 0, 0, 0, 0, 0, 0, 0, 40]),
            (0, command(&[READ]), REPORT),
            (0, Kind::report(13), DONE),
            (0, Kind::Fault, DONE),
            (0, Kind::Parameters, &[7, 0, 0, 0, 0, 0, 255, 255, 255, 255]),
        ],
    );
    let [_, short, first, _, rest, _, late, told, _, past] = &buffers[..] else {
        panic!("{} buffers", buffers.len());
    };
    assert!(short.iter().all(|&byte| byte == 0xEE));
    for (block, bytes) in first[..8192].chunks(256).enumerate() {
        assert!(bytes.iter().all(|&byte| usize::from(byte) == block));
    }
    assert_eq!(first[8192..], [0xEE; 8]);
    let read: Vec<u8> = rest.iter().step_by(256).copied().collect();
    assert_eq!(read, [32, 0, 34, 0, 36, 37, 38, 39]);
    assert_eq!(late[..], [0xEE; 12]);
    assert_eq!(told[..], [1, 8, 4, 0, 0, 0, 0, 0, 0, 0, 0, 0, 33, 0xEE]);
    assert_eq!(past[..], [1, 8, 5, 0, 0, 0, 0, 0, 0, 0, 0, 0, 0]);
}

#[test]
fn a_write_and_a_verify() {
    let given = [9; 512];
    let data = Buffer {
        size: 768,
        given: &given,
    };
    let (buffers, blocks, map) = try_rows(
        &[41, 43],
        &[
            (3, Kind::Clear, DONE),
            (
                3,
                command(&[UNIT_1, ADDRESS, 0, 0, 0, 0, 0, 1, LENGTH, 0, 0, 2, 0, WRITE]),
                EXECUTION,
            ),
            (3, Kind::Segment(data), REPORT),
            (3, Kind::report(13), DONE),
            (3, Kind::Fault, DONE),
            (3, Kind::Parameters, &[7, 1, 0, 0, 0, 3, 0, 0, 2, 0]),
            (3, command(&[VERIFY]), EXECUTION),
            (3, Kind::segment(0), REPORT),
            (3, Kind::report(13), DONE),
            (3, Kind::Fault, &[6, 2, 0, 0, 0, 43, 1, 0, 0, 0, 3]),
            (3, command(&[0x01]), &[0, 1, 1]),
            (3, Kind::Fault, &[6, 2, 0, 0, 0, 43, 1, 0, 0, 0, 3]),
            (3, Kind::Activity, &[9, 0, 0, 0, 0, 0, 0, 0, 4]),
            (3, command(&[LENGTH, 0, 0, 0, 0, WRITE]), REPORT),
            (3, Kind::Fault, DONE),
            (3, Kind::Cancel, DONE),
            (3, Kind::Cancel, NO_TICKET),
            (3, Kind::Parameters, &[7, 1, 0, 0, 0, 5, 0, 0, 0, 0]),
        ],
    );
    assert_eq!(buffers[0][..512], given);
    assert_eq!(buffers[0][512..], [0xEE; 256]);
    assert_eq!(buffers[1][..], [0; 13]);
    assert_eq!(buffers[2][..], [1, 8, 4, 0, 0, 0, 0, 0, 0, 0, 0, 0, 3]);
    let (mut expected, _) = image(&[]);
    expected[41 * 256..43 * 256].fill(9);
    assert!(blocks == expected);
    assert_eq!(map, [0, 0, 0, 0, 0, 0b0000_1000, 0]);
}

#[test]
fn what_stands_in_the_way() {
    let mut rows: Vec<Row> = (0..4).map(|host| (host, Kind::Clear, DONE)).collect();
    rows.extend(lock(0, &[SET_UNIT]));
    rows.extend(lock(0, &[SET_UNIT]));
    rows.extend_from_slice(&[
        (0, Kind::Locks, &[8, 0, 0, 1]),
        (1, command(&[READ]), &[0, 4, 3]),
        (1, command(&[DELETE_UNIT]), &[0, 4, 3]),
        (1, command(&[SET_DEVICE]), &[0, 4, 3]),
        (1, Kind::Notice, DONE),
        (1, command(&[UNIT_1, READ]), EXECUTION),
        (2, command(&[UNIT_1, SET_UNIT]), &[0, 4, 3]),
        (2, Kind::Parameters, &[7, 0, 0, 0, 0, 0, 255, 255, 255, 255]),
        (2, command(&[UNIT_1, READ]), EXECUTION),
        (2, Kind::Cancel, DONE),
        (2, Kind::Notice, DONE),
    ]);
    // Host 1 waited for the device's lock last, host 2 for a unit's.
    rows.extend_from_slice(&[
        (0, command(&[DELETE_UNIT]), REPORT),
        (0, Kind::Locks, &[8]),
        (0, Kind::report(13), DONE),
        (1, Kind::Notice, &[5, 4, 1]),
        (1, Kind::Cancel, DONE),
        (2, Kind::Notice, &[5, 4, 8]),
        (2, Kind::Notice, DONE),
    ]);
    try_rows(&[], &rows);
}

#[test]
fn the_devices_lock() {
    let mut rows: Vec<Row> = (0..3).map(|host| (host, Kind::Clear, DONE)).collect();
    rows.extend(lock(0, &[SET_DEVICE]));
    rows.extend_from_slice(&[
        (1, command(&[NO_OP]), &[0, 4, 3]),
        (2, command(&[READ]), &[0, 4, 3]),
        (2, command(&[DELETE_DEVICE]), &[0, 4, 3]),
        (2, Kind::Clear, DONE),
        (0, command(&[DELETE_DEVICE]), REPORT),
        (1, Kind::Notice, &[5, 4, 1]),
        (2, Kind::Notice, DONE),
        (1, command(&[SET_DEVICE]), &[0, 4, 3]),
        (0, Kind::report(13), DONE),
        (1, Kind::Notice, &[5, 4, 1]),
        (1, command(&[SET_DEVICE]), REPORT),
        (0, command(&[UNIT_1, READ]), &[0, 4, 3]),
        (1, Kind::Clear, &[0, 1, 6]),
        (1, Kind::Cancel, DONE),
        (1, Kind::Locks, &[8, 1]),
        (1, Kind::Clear, DONE),
        (1, Kind::Locks, &[8]),
        (0, Kind::Notice, &[5, 4, 8]),
    ]);
    try_rows(&[], &rows);
}

#[test]
fn a_stopped_write_drops_the_rest() {
    let mut trace = head(NUMBER, 40, &UNITS[..1]);
    let rows: [Row; 11] = [
        (0, Kind::Clear, DONE),
        (0, command(&[UNIT_0, WRITE]), EXECUTION),
        (0, Kind::segment(8192), EXECUTION),
        (0, Kind::Parameters, &[7, 0, 0, 0, 0, 3, 255, 255, 255, 255]),
        (0, Kind::Activity, &[9, 0, 0, 0, 0, 0, 0, 0, 3]),
        (0, Kind::segment(2047), &[0, 128, 5]),
        (0, Kind::segment(2048), REPORT),
        (0, Kind::Parameters, &[7, 0, 0, 0, 0, 3, 255, 255, 255, 255]),
        (0, Kind::Activity, &[9, 0, 0, 0, 0, 0, 0, 0, 3]),
        (0, Kind::Fault, &[6, 3, 0, 0, 0, 2, 0, 0, 0, 0, 2]),
        (0, Kind::report(13), DONE),
    ];
    for (host, kind, _) in rows {
        Call { host, kind }.write(&mut trace);
    }
    let (mut blocks, mut map) = image(&[5]);
    let mut output = vec![0xEE; 20_000];
    let window = Run {
        first: 4,
        count: 40,
    };
    let guard = Run { first: 2, count: 1 };
    let ended = trace::pile(&mut blocks, &mut map, window, guard, &trace, &mut output);
    let buffers = see(&rows, &output[..ended as usize]);
    assert_eq!(buffers[3][..], [1, 5, 4, 0, 0, 0, 0, 0, 0, 0, 0, 0, 0]);
    let (mut expected, _) = image(&[]);
    expected[4 * 256..6 * 256].fill(0xEE);
    assert!(blocks == expected);
    assert!(map.iter().all(|&byte| byte == 0));
}

#[test]
fn how_traces_end() {
    let whole = head(NUMBER, 48, &UNITS);
    let with = |more: &[u8]| [&whole[..], more].concat();
    let ends: [(Vec<u8>, usize, u64); 15] = [
        (whole.clone(), 0, Ending::AllMade.with(0)),
        (vec![], 16, Ending::BadHead.with(0)),
        (whole[..8].to_vec(), 16, Ending::BadHead.with(0)),
        (whole[..24].to_vec(), 16, Ending::BadHead.with(0)),
        (head(NUMBER, 47, &UNITS), 16, Ending::NoMap.with(0)),
        (head(NUMBER, 48, &[]), 16, Ending::NoMap.with(0)),
        (with(&[4]), 16, Ending::BadCall.with(0)),
        (with(&[10, 0]), 16, Ending::BadCall.with(0)),
        (with(&[4, 0]), 16, Ending::AllMade.with(16)),
        (with(&[4, 0]), 15, Ending::NoRoom.with(0)),
        (with(&[4, 0, 5, 0]), 31, Ending::NoRoom.with(16)),
        (with(&[4, 0, 5]), 16, Ending::BadCall.with(16)),
        (with(&[0, 0, 0, 2, 0x34]), 16, Ending::BadCall.with(0)),
        (
            with(&[1, 0, 0, 0, 0, 1, 0, 0, 0, 2, 5, 6]),
            99,
            Ending::BadCall.with(0),
        ),
        (
            with(&[1, 0, 0, 0, 0, 2, 0, 0, 0, 2, 5, 6]),
            17,
            Ending::NoRoom.with(0),
        ),
    ];
    for (trace, room, expected) in ends {
        let (mut blocks, mut map) = image(&[]);
        let mut output = vec![0xEE; room];
        let ended = trace::flat(&mut blocks, &mut map, &trace, &mut output);
        assert_eq!(ended, expected, "{trace:?}, {room} bytes of room");
    }
}

#[test]
fn images_that_are_refused() {
    let trace = head(NUMBER, 49, &UNITS);
    let (mut blocks, mut map) = image(&[]);
    let short = trace::flat(&mut blocks[1..], &mut map, &trace, &mut []);
    assert_eq!(short, Ending::ImageRefused.with(0));
    let no_head = trace::flat(&mut blocks[1..], &mut map, &trace[..3], &mut []);
    assert_eq!(no_head, Ending::BadHead.with(0));
    let no_map = head(NUMBER, 1, &UNITS);
    let spares = trace::raw(&mut [0; 276 * 2], &[2], 2, &no_map, &mut []);
    assert_eq!(spares, Ending::ImageRefused.with(0));
    let fits = trace::raw(&mut [0; 276 * 2], &[1], 2, &trace, &mut []);
    assert_eq!(fits, Ending::AllMade.with(0));
}

#[test]
fn a_store_that_is_too_small() {
    let mut trace = head(NUMBER, 51, &UNITS);
    let rows: [Row; 3] = [
        (0, Kind::Clear, DONE),
        (0, command(&[NO_OP]), &[0, 128, 2]),
        (9, command(&[NO_OP]), &[0, 128, 4]),
    ];
    for (host, kind, _) in rows {
        Call { host, kind }.write(&mut trace);
    }
    let (mut blocks, mut map) = image(&[]);
    let mut output = [0; 48];
    let ended = trace::flat(&mut blocks, &mut map, &trace, &mut output);
    assert_eq!(ended, Ending::AllMade.with(48));
    see(&rows, &output);
}

#[test]
fn given_bytes_are_laid_into_a_buffer_without_ticket() {
    let lent = Buffer {
        size: 4,
        given: &[1, 2],
    };
    let (buffers, ..) = try_rows(
        &[],
        &[
            (0, Kind::Segment(lent), NO_TICKET),
            (9, Kind::Report(lent), NO_TICKET),
        ],
    );
    assert_eq!(buffers, [[1, 2, 0xEE, 0xEE], [1, 2, 0xEE, 0xEE]]);
}
