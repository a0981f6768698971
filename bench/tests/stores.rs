//! The stores, against `docs/STORES.md`.

use boundary_bench::plain::cache::Cache;
use boundary_bench::plain::flat::FlatImage;
use boundary_bench::plain::layers::{Run, Window, WriteGuard};
use boundary_bench::plain::raw::{RECORD, RawImage};
use boundary_bench::plain::status::Status;
use boundary_bench::plain::store::{BLOCK, Fault, FaultKind, Protection, Store};

/// A block's bytes: all of one number.
fn full(byte: u8) -> [u8; BLOCK] {
    [byte; BLOCK]
}

/// So many blocks, each full of its own number.
fn numbered(blocks: u8) -> Vec<u8> {
    (0..blocks).flat_map(full).collect()
}

fn read(store: &mut impl Store, block: u32) -> Result<u8, Fault> {
    let mut buffer = full(0xEE);
    match store.read(block, &mut buffer) {
        Ok(()) => {
            assert!(buffer.iter().all(|&byte| byte == buffer[0]));
            Ok(buffer[0])
        }
        Err(fault) => {
            assert_eq!(buffer, full(0xEE), "a fault leaves the buffer");
            Err(fault)
        }
    }
}

#[test]
fn flat_lengths() {
    let cases: [(usize, usize, bool); 9] = [
        (0, 0, true),
        (0, 1, false),
        (256, 1, true),
        (256, 0, false),
        (256, 2, false),
        (255, 1, false),
        (257, 1, false),
        (8 * 256, 1, true),
        (9 * 256, 2, true),
    ];
    for (memory, map, fits) in cases {
        let mut memory_bytes = vec![0; memory];
        let mut map_bytes = vec![0; map];
        let opened = FlatImage::open(&mut memory_bytes, &mut map_bytes, Protection::Open);
        let expected = if fits {
            Ok((memory / BLOCK) as u32)
        } else {
            Err(Status::BadImage)
        };
        assert_eq!(
            opened.map(|image| image.size()),
            expected,
            "{memory} bytes, {map} bytes of map"
        );
    }
}

#[test]
fn flat_faults_in_order() {
    let mut memory = numbered(10);
    let mut damage = [0b0000_0100, 0b1111_1100];
    let mut image = FlatImage::open(&mut memory, &mut damage, Protection::Protected).unwrap();
    assert_eq!(image.read(99, &mut [0; 255]), Err(FaultKind::Length.at(99)));
    assert_eq!(image.write(2, &[0; 257]), Err(FaultKind::Length.at(2)));
    assert_eq!(read(&mut image, 10), Err(FaultKind::Beyond.at(10)));
    assert_eq!(image.write(10, &full(1)), Err(FaultKind::Beyond.at(10)));
    assert_eq!(image.protection(10), Err(FaultKind::Beyond.at(10)));
    assert_eq!(read(&mut image, 2), Err(FaultKind::Damaged.at(2)));
    assert_eq!(image.write(2, &full(1)), Err(FaultKind::Protected.at(2)));
    assert_eq!(image.protection(2), Ok(Protection::Protected));
    assert_eq!(read(&mut image, 9), Ok(9));
    assert_eq!(damage, [0b0000_0100, 0b1111_1100]);
}

#[test]
fn flat_memory_after_calls() {
    let mut memory = numbered(10);
    let mut damage = [0b1000_0100, 0b1111_1101];
    let mut image = FlatImage::open(&mut memory, &mut damage, Protection::Open).unwrap();
    assert_eq!(image.write(8, &full(77)), Ok(()));
    assert_eq!(image.write(7, &full(78)), Ok(()));
    assert_eq!(read(&mut image, 8), Ok(77));
    image.mark_damaged(9);
    image.mark_damaged(0);
    image.mark_damaged(10);
    image.settle();
    assert_eq!(damage, [0b0000_0101, 0b1111_1110]);
    let mut expected = numbered(10);
    expected[8 * 256..9 * 256].fill(77);
    expected[7 * 256..8 * 256].fill(78);
    assert_eq!(memory, expected);
}

/// Two tracks of three records, the spare ones at places 1 and 0; record n full of n behind its header byte.
fn raw_memory() -> Vec<u8> {
    (0..6)
        .flat_map(|record| {
            let mut bytes = [record; RECORD];
            bytes[0] = 0;
            bytes
        })
        .collect()
}

#[test]
fn raw_blocks_pass_over_spares() {
    let mut memory = raw_memory();
    memory[5 * RECORD] = 200;
    let mut image = RawImage::open(&mut memory, &[1, 0], 3, Protection::Open).unwrap();
    assert_eq!(image.size(), 4);
    let found: Vec<_> = (0..5).map(|block| read(&mut image, block)).collect();
    let damaged = Err(FaultKind::Damaged.at(3));
    let beyond = Err(FaultKind::Beyond.at(4));
    assert_eq!(found, [Ok(0), Ok(2), Ok(4), damaged, beyond]);
}

#[test]
fn raw_write_changes_one_record() {
    let mut memory = raw_memory();
    memory[5 * RECORD] = 200;
    let mut expected = memory.clone();
    let mut image = RawImage::open(&mut memory, &[1, 0], 3, Protection::Open).unwrap();
    assert_eq!(image.write(3, &full(99)), Ok(()));
    image.mark_damaged(1);
    image.mark_damaged(4);
    expected[5 * RECORD] = 0;
    expected[5 * RECORD + 6..5 * RECORD + 262].fill(99);
    expected[2 * RECORD] = 1;
    assert_eq!(memory, expected);
}

#[test]
fn raw_lengths() {
    let cases: [(usize, &[u8], u32, bool); 11] = [
        (0, &[], 2, true),
        (0, &[], 256, true),
        (0, &[], 1, false),
        (0, &[], 0, false),
        (0, &[], 257, false),
        (2 * RECORD, &[1], 2, true),
        (2 * RECORD, &[2], 2, false),
        (2 * RECORD + 1, &[1], 2, false),
        (3 * RECORD, &[1], 2, false),
        (256 * RECORD, &[255], 256, true),
        (4 * RECORD, &[1, 2], 2, false),
    ];
    for (memory, spares, records, fits) in cases {
        let mut bytes = vec![0; memory];
        let opened = RawImage::open(&mut bytes, spares, records, Protection::Open);
        assert_eq!(opened.is_ok(), fits, "{memory} {spares:?} {records}");
    }
}

#[test]
fn window_renumbers_and_ends() {
    let mut memory = numbered(10);
    let mut damage = [0b0100_0000, 0];
    let image = FlatImage::open(&mut memory, &mut damage, Protection::Open).unwrap();
    let mut window = Window::new(
        image,
        Run {
            first: 4,
            count: 20,
        },
    );
    assert_eq!(window.size(), 6);
    assert_eq!(read(&mut window, 0), Ok(4));
    assert_eq!(read(&mut window, 2), Err(FaultKind::Damaged.at(2)));
    assert_eq!(read(&mut window, 6), Err(FaultKind::Beyond.at(6)));
    assert_eq!(window.read(6, &mut []), Err(FaultKind::Length.at(6)));
    assert_eq!(window.write(5, &full(55)), Ok(()));
    let past = Run {
        first: 11,
        count: u32::MAX,
    };
    let mut image = window.release();
    assert_eq!(read(&mut image, 9), Ok(55));
    assert_eq!(Window::new(image, past).size(), 0);
}

#[test]
fn guard_protects_its_run() {
    let mut memory = numbered(10);
    let mut damage = [0; 2];
    let image = FlatImage::open(&mut memory, &mut damage, Protection::Open).unwrap();
    let run = Run {
        first: 8,
        count: u32::MAX,
    };
    let mut guard = WriteGuard::new(image, run);
    assert_eq!(guard.write(8, &full(1)), Err(FaultKind::Protected.at(8)));
    assert_eq!(guard.write(8, &[]), Err(FaultKind::Length.at(8)));
    assert_eq!(guard.write(10, &full(1)), Err(FaultKind::Beyond.at(10)));
    assert_eq!(guard.write(7, &full(1)), Ok(()));
    assert_eq!(guard.protection(7), Ok(Protection::Open));
    assert_eq!(guard.protection(9), Ok(Protection::Protected));
    assert_eq!(guard.protection(10), Err(FaultKind::Beyond.at(10)));
    assert_eq!(memory[8 * 256], 8);
}

#[test]
fn cache_writes_late() {
    let mut memory = numbered(20);
    let mut damage = [0, 0b0000_0001, 0];
    let image = FlatImage::open(&mut memory, &mut damage, Protection::Open).unwrap();
    let run = Run {
        first: 19,
        count: 1,
    };
    let mut cache = Cache::new(WriteGuard::new(image, run));
    assert_eq!(read(&mut cache, 8), Err(FaultKind::Damaged.at(8)));
    assert_eq!(cache.write(8, &full(80)), Ok(()));
    assert_eq!(read(&mut cache, 8), Ok(80));
    assert_eq!(cache.write(19, &full(1)), Err(FaultKind::Protected.at(19)));
    assert_eq!(cache.write(20, &full(1)), Err(FaultKind::Beyond.at(20)));
    assert_eq!(cache.write(20, &[1]), Err(FaultKind::Length.at(20)));
    assert_eq!(read(&mut cache, 19), Ok(19));
    for block in 0..8 {
        assert_eq!(cache.write(block, &full(100 + block as u8)), Ok(()));
    }
    for block in 0..8 {
        assert_eq!(read(&mut cache, block), Ok(100 + block as u8));
    }
    let mut image = cache.release().release();
    for block in 0..8 {
        assert_eq!(read(&mut image, block), Ok(100 + block as u8));
    }
    assert_eq!(damage, [0, 0, 0]);
    let late: Vec<u8> = memory.iter().step_by(256).copied().collect();
    assert_eq!(late[8..], [80, 9, 10, 11, 12, 13, 14, 15, 16, 17, 18, 19]);
}

#[test]
fn cache_holds_back_until_settled() {
    let mut memory = numbered(20);
    let mut damage = [0; 3];
    let image = FlatImage::open(&mut memory, &mut damage, Protection::Open).unwrap();
    let mut cache = Cache::new(image);
    for block in 0..9 {
        assert_eq!(cache.write(block, &full(100)), Ok(()));
    }
    // It is not settled: below is only the one block that made room for the ninth.
    let blocks: Vec<u8> = memory.iter().step_by(256).copied().collect();
    assert_eq!(blocks[..9], [100, 1, 2, 3, 4, 5, 6, 7, 8]);
}
