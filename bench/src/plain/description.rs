//! What an Extended Describe tells: a table of the controller, one of each unit, and one that ends the list.

use super::units::{Unit, UnitMap};

/// The message for a host, its own length in front.
pub fn description(map: &UnitMap, host: u8) -> Vec<u8> {
    let mut tables = vec![0x00, 0x0E, 0x03, 0x08, 0x00, 0x00];
    let installed = (1u32 << map.count()) - 1;
    tables.extend((installed as u16).to_be_bytes());
    tables.extend(5000u16.to_be_bytes());
    tables.extend([2, host, 8, 0]);
    for number in 0..map.count() {
        if let Some(unit) = map.unit(number) {
            add_unit(&mut tables, number, unit);
        }
    }
    tables.extend([0x00, 0x06, 0xFF, 0x00, 0x00, 0x00]);
    let mut message = (tables.len() as u16).to_be_bytes().to_vec();
    message.append(&mut tables);
    message
}

fn add_unit(tables: &mut Vec<u8>, number: u8, unit: Unit) {
    let geometry = unit.geometry;
    tables.extend([0x00, 0x26, 0x04, 0x12, 0x01, 0x0E]);
    tables.extend([number, 0, 0x07, 0x93, 0x71]);
    tables.extend(256u16.to_be_bytes());
    tables.extend([128, 0]);
    for time in [179u16, 1800, 80, 84] {
        tables.extend(time.to_be_bytes());
    }
    tables.push(1);
    tables.extend(&(u32::from(geometry.cylinders) - 1).to_be_bytes()[1..]);
    tables.push(geometry.heads - 1);
    tables.extend((u16::from(geometry.sectors) - 1).to_be_bytes());
    tables.extend(&(u64::from(geometry.size()) - 1).to_be_bytes()[2..]);
    tables.extend([1, 0]);
}
