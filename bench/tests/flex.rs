//! Statuses, units and messages, against `docs/FLEX.md`.

use boundary_bench::plain::geometry::{Geometry, Vector};
use boundary_bench::plain::message::{Command, Message, Parameters, WHOLE_UNIT, decode};
use boundary_bench::plain::status::Status;
use boundary_bench::plain::units::{Unit, UnitMap};

fn unit(first: u32, cylinders: u16, heads: u8, sectors: u8) -> Unit {
    let geometry = Geometry {
        cylinders,
        heads,
        sectors,
    };
    Unit { first, geometry }
}

/// Unit 0 has 2 × 3 × 4 blocks, unit 1 has 1,000.
fn small_map() -> UnitMap {
    UnitMap::new(&[unit(0, 2, 3, 4), unit(24, 1000, 1, 1)], 1024).unwrap()
}

#[test]
fn addresses_and_vectors() {
    let geometry = Geometry {
        cylinders: 2,
        heads: 3,
        sectors: 4,
    };
    assert_eq!(geometry.size(), 24);
    let mut address = 0;
    for cylinder in 0..2 {
        for head in 0..3 {
            for sector in 0..4 {
                let vector = Vector {
                    cylinder,
                    head,
                    sector,
                };
                assert_eq!(geometry.vector_at(address), Some(vector));
                assert_eq!(geometry.address_at(vector), Some(address));
                address += 1;
            }
        }
    }
    assert_eq!(geometry.vector_at(24), None);
    let largest = unit(0, 65535, 255, 255).geometry;
    assert_eq!(largest.size(), 4_261_413_375);
    let last = Vector {
        cylinder: 65534,
        head: 254,
        sector: 254,
    };
    assert_eq!(largest.address_at(last), Some(4_261_413_374));
    assert_eq!(largest.vector_at(4_261_413_374), Some(last));
}

#[test]
fn maps() {
    let a = unit(0, 2, 3, 4);
    let cases: [(&[Unit], u32, bool); 14] = [
        (&[], 24, false),
        (&[a], 24, true),
        (&[a], 23, false),
        (&[a], 4_194_304, true),
        (&[a], 4_194_305, false),
        (&[unit(0, 0, 1, 1)], 24, false),
        (&[unit(0, 1, 0, 1)], 24, false),
        (&[unit(0, 1, 1, 0)], 24, false),
        (&[a, unit(24, 1, 1, 1)], 25, true),
        (&[a, unit(23, 1, 1, 1)], 25, false),
        (&[unit(24, 1, 1, 1), a], 25, true),
        (&[unit(4_294_967_295, 1, 1, 1)], 4_194_304, false),
        (&[unit(4_194_303, 1, 1, 1)], 4_194_304, true),
        (&[unit(4_294_967_295, 65535, 255, 255)], 24, false),
    ];
    for (units, end, made) in cases {
        let expected = if made {
            Ok(units.len())
        } else {
            Err(Status::BadUnitMap)
        };
        let map = UnitMap::new(units, end);
        let found = map.map(|map| map.count().into());
        assert_eq!(found, expected, "{units:?} {end}");
    }
    let apart: Vec<_> = (0..16).map(|n| unit(n, 1, 1, 1)).collect();
    assert!(UnitMap::new(&apart[..15], 16).is_ok());
    assert!(UnitMap::new(&apart, 16).is_err());
}

#[test]
fn blocks_of_units() {
    let map = small_map();
    assert_eq!(map.block(0, 23), Some(23));
    assert_eq!(map.block(0, 24), None);
    assert_eq!(map.block(1, 0), Some(24));
    assert_eq!(map.block(1, 999), Some(1023));
    assert_eq!(map.block(2, 0), None);
    assert_eq!(map.block(15, 0), None);
    assert_eq!(map.geometry(15), Some(Geometry::NONE));
    assert_eq!(map.geometry(2), None);
}

const OWN: Parameters = Parameters {
    unit: 1,
    address: 77,
    length: 512,
};

/// What a message asks for: unit, address, length, command.
fn asked(unit: u8, address: u32, length: u32, command: Option<Command>) -> Result<Message, Status> {
    let parameters = Parameters {
        unit,
        address,
        length,
    };
    Ok(Message {
        parameters,
        command,
    })
}

#[test]
fn messages_accepted() {
    let cases: [(&[u8], Result<Message, Status>); 21] = [
        (&[0x34], asked(1, 77, 512, None)),
        (&[0x00], asked(1, 77, 512, Some(Command::Read))),
        (&[0x02], asked(1, 77, 512, Some(Command::Write))),
        (&[0x04], asked(1, 77, 512, Some(Command::Verify))),
        (&[0x63], asked(1, 77, 512, Some(Command::SetDeviceLock))),
        (&[0x6B], asked(1, 77, 512, Some(Command::DeleteDeviceLock))),
        (&[0x73], asked(1, 77, 512, Some(Command::SetUnitLock))),
        (&[0x7B], asked(1, 77, 512, Some(Command::DeleteUnitLock))),
        (&[0x20], asked(0, 0, 512, None)),
        (&[0x21], asked(1, 77, 512, None)),
        (&[0x2F], asked(15, 0, 512, None)),
        (&[0x2F, 0x00], asked(15, 0, 512, Some(Command::Read))),
        (&[0x10, 0, 0, 0, 0, 3, 231], asked(1, 999, 512, None)),
        (&[0x20, 0x10, 0, 0, 0, 0, 0, 23], asked(0, 23, 512, None)),
        (&[0x20, 0x11, 0, 0, 1, 2, 0, 3], asked(0, 23, 512, None)),
        (&[0x11, 0, 3, 231, 0, 0, 0], asked(1, 999, 512, None)),
        (&[0x18, 0, 0, 1, 0], asked(1, 77, 256, None)),
        (&[0x18, 0, 0, 0, 0], asked(1, 77, 0, None)),
        (&[0x18, 255, 255, 255, 255], asked(1, 77, WHOLE_UNIT, None)),
        (
            &[
                0x34, 0x20, 0x34, 0x18, 255, 255, 255, 0, 0x34, 0x11, 0, 0, 0, 0, 0, 1, 0x34, 0x04,
                0x34,
            ],
            asked(0, 1, 0xFFFF_FF00, Some(Command::Verify)),
        ),
        (&[0x34; 1024], asked(1, 77, 512, None)),
    ];
    for (bytes, expected) in cases {
        assert_eq!(decode(&small_map(), OWN, bytes), expected, "{bytes:02X?}");
    }
}

#[test]
fn messages_refused() {
    use Status::{
        AddressBounds, IllegalOpcode, MessageLength, MessageSequence, ModuleAddressing,
        ParameterBounds,
    };
    let cases: [(&[u8], Status); 31] = [
        (&[], MessageLength),
        (&[0x34; 1025], MessageLength),
        (&[0x01], IllegalOpcode),
        (&[0x30], IllegalOpcode),
        (&[0x1F], IllegalOpcode),
        (&[0x12], IllegalOpcode),
        (&[0x22], ModuleAddressing),
        (&[0x2E], ModuleAddressing),
        (&[0x20, 0x20], MessageSequence),
        (&[0x20, 0x22], MessageSequence),
        (&[0x18, 0, 0, 0, 0, 0x20], MessageSequence),
        (&[0x00, 0x20], MessageSequence),
        (&[0x00, 0x00], MessageSequence),
        (&[0x00, 0x18], MessageSequence),
        (&[0x63, 0x10], MessageSequence),
        (&[0x18, 0, 0, 0, 0, 0x18], MessageSequence),
        (&[0x10, 0, 0, 0, 0, 0, 0, 0x11], MessageSequence),
        (&[0x11, 0, 0, 0, 0, 0, 0, 0x10], MessageSequence),
        (&[0x00, 0x01], IllegalOpcode),
        (&[0x10, 0, 0, 0, 0, 0], MessageLength),
        (&[0x11, 0, 0, 0, 0, 0], MessageLength),
        (&[0x18, 0, 0, 0], MessageLength),
        (&[0x10, 0, 0, 0, 0, 3, 232], AddressBounds),
        (&[0x10, 1, 0, 0, 0, 0, 0], AddressBounds),
        (&[0x10, 0, 1, 0, 0, 0, 0], AddressBounds),
        (&[0x20, 0x10, 0, 0, 0, 0, 0, 24], AddressBounds),
        (&[0x2F, 0x10, 0, 0, 0, 0, 0, 0], AddressBounds),
        (&[0x11, 0, 0, 0, 1, 0, 0], AddressBounds),
        (&[0x11, 1, 0, 0, 0, 0, 0], AddressBounds),
        (&[0x18, 0, 0, 0, 255], ParameterBounds),
        (&[0x18, 255, 255, 255, 254], ParameterBounds),
    ];
    for (bytes, expected) in cases {
        let found = decode(&small_map(), OWN, bytes);
        assert_eq!(found, Err(expected), "{bytes:02X?}");
    }
}

#[test]
fn a_unit_that_is_not_in_the_map_has_no_address() {
    let own = Parameters { unit: 9, ..OWN };
    let message = [0x10, 0, 0, 0, 0, 0, 0];
    assert_eq!(
        decode(&small_map(), own, &message),
        Err(Status::AddressBounds)
    );
}
