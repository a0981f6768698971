//! Command messages, proper ones and others.

use super::random::Random;
use crate::plain::geometry::Geometry;
use crate::plain::host::Locks;
use crate::plain::message::Parameters;
use crate::plain::units::{CONTROLLER, Unit};

const NO_OP: u8 = 0x34;
const SET_UNIT: u8 = 0x20;
const SINGLE_ADDRESS: u8 = 0x10;
const VECTOR_ADDRESS: u8 = 0x11;
const LENGTH: u8 = 0x18;
const DESCRIBE: u8 = 0x0C;
const SET_DEVICE_LOCK: u8 = 0x63;
const DELETE_DEVICE_LOCK: u8 = 0x6B;
const SET_UNIT_LOCK: u8 = 0x73;
const DELETE_UNIT_LOCK: u8 = 0x7B;

const CODES: [u8; 17] = [
    NO_OP,
    SET_UNIT,
    SET_UNIT + 1,
    SET_UNIT + 2,
    SET_UNIT + 15,
    SINGLE_ADDRESS,
    VECTOR_ADDRESS,
    LENGTH,
    0x00,
    0x02,
    0x04,
    DESCRIBE,
    SET_DEVICE_LOCK,
    DELETE_DEVICE_LOCK,
    SET_UNIT_LOCK,
    DELETE_UNIT_LOCK,
    0x33,
];

/// How likely the commands of a message are.
#[derive(Clone, Copy, Debug)]
pub struct Taste {
    /// None, Read, Write, Verify, Extended Describe, the device's lock, a unit's lock, either deleted.
    pub commands: [u32; 9],
    /// The most blocks that lengths mostly name.
    pub blocks: u32,
}

const COMMANDS: [Option<u8>; 9] = [
    None,
    Some(0x00),
    Some(0x02),
    Some(0x04),
    Some(DESCRIBE),
    Some(SET_DEVICE_LOCK),
    Some(SET_UNIT_LOCK),
    Some(DELETE_DEVICE_LOCK),
    Some(DELETE_UNIT_LOCK),
];

/// What a message is made for.
#[derive(Clone, Copy, Debug)]
pub struct Maker<'u> {
    pub units: &'u [Unit],
    pub own: Parameters,
    pub locks: Locks,
    pub taste: Taste,
}

impl Maker<'_> {
    pub fn message(&self, random: &mut Random) -> Vec<u8> {
        match random.below(100) {
            0..3 => {
                let length = random.below(20) as usize;
                random.bytes(length)
            }
            3..7 => codes(random),
            7 => vec![NO_OP; random.within(1022, 1026) as usize],
            8 if random.percent(20) => vec![],
            8..20 => {
                let mut message = self.proper(random);
                spoil(&mut message, random);
                message
            }
            _ => self.proper(random),
        }
    }

    /// A message of parts that stand where they may; its numbers are mostly within bounds.
    fn proper(&self, random: &mut Random) -> Vec<u8> {
        if self.locks != Locks::default() && random.percent(20) {
            return self.unlocking(random);
        }
        let mut parts = Vec::new();
        let mut unit = self.own.unit;
        if unit == CONTROLLER || random.percent(45) {
            unit = self.unit(random);
            parts.push(vec![SET_UNIT + unit]);
        }
        let size = self.size(unit);
        let mut address = (unit == self.own.unit).then_some(self.own.address);
        let lost = address.is_some_and(|address| address >= size);
        let mut middle = Vec::new();
        if random.percent(if lost { 80 } else { 45 }) {
            let (part, to) = self.address(unit, random);
            address = Some(to);
            middle.push(part);
        }
        if random.percent(70) {
            let room = size.saturating_sub(address.unwrap_or(0));
            middle.push(self.length(room, random));
        }
        if random.percent(30) {
            middle.reverse();
        }
        parts.extend(middle);
        if let Some(command) = COMMANDS[random.weighted(&self.taste.commands)] {
            parts.push(vec![command]);
        }
        with_no_ops(&parts, random)
    }

    /// A message that gives up one of the host's locks.
    fn unlocking(&self, random: &mut Random) -> Vec<u8> {
        if self.locks.device && (self.locks.units == 0 || random.percent(70)) {
            return vec![DELETE_DEVICE_LOCK];
        }
        let unit = self.locks.units.trailing_zeros() as u8;
        vec![SET_UNIT + unit, DELETE_UNIT_LOCK]
    }

    fn unit(&self, random: &mut Random) -> u8 {
        match random.below(100) {
            0..4 => CONTROLLER,
            4..7 => random.below(16) as u8,
            _ => random.below(self.units.len().clamp(1, 15) as u32) as u8,
        }
    }

    fn geometry(&self, unit: u8) -> Geometry {
        self.units
            .get(usize::from(unit))
            .map_or(Geometry::NONE, |unit| unit.geometry)
    }

    fn size(&self, unit: u8) -> u32 {
        self.geometry(unit).size()
    }

    /// A Set Address part, and the address that it mostly sets.
    fn address(&self, unit: u8, random: &mut Random) -> (Vec<u8>, u32) {
        let geometry = self.geometry(unit);
        let size = geometry.size();
        let address = match random.below(100) {
            0..4 => size,
            4..6 => size.wrapping_add(random.below(300)),
            6..14 => size.wrapping_sub(1),
            14..40 => random.below(size.max(1)) / 4,
            _ => random.below(size.max(1)),
        };
        let mut bytes = match geometry.vector_at(address) {
            Some(vector) if random.percent(50) => {
                let [_, a, b, c] = vector.cylinder.to_be_bytes();
                let [d, e] = vector.sector.to_be_bytes();
                vec![VECTOR_ADDRESS, a, b, c, vector.head, d, e]
            }
            _ => {
                let [a, b, c, d] = address.to_be_bytes();
                vec![SINGLE_ADDRESS, 0, 0, a, b, c, d]
            }
        };
        if random.percent(3) {
            let place = random.within(1, 6) as usize;
            bytes[place] = bytes[place].wrapping_add(1);
        }
        (bytes, address)
    }

    /// A Set Length part, for about as many blocks as there is room for.
    fn length(&self, room: u32, random: &mut Random) -> Vec<u8> {
        let most = self.taste.blocks.min(room).max(1);
        let bytes = match random.below(100) {
            0..4 => 0,
            4..12 => u32::MAX,
            12..15 => random.word() as u32,
            15..18 => (random.word() as u32) & !0xFF,
            18..22 => room.wrapping_add(1).wrapping_mul(256),
            22..30 => room.wrapping_mul(256),
            _ => random.within(1, most) * 256,
        };
        let [a, b, c, d] = bytes.to_be_bytes();
        vec![LENGTH, a, b, c, d]
    }
}

/// Codes in any order, with as many bytes behind them as they ask for or any others.
fn codes(random: &mut Random) -> Vec<u8> {
    let mut message = Vec::new();
    for _ in 0..random.within(1, 6) {
        let code = random.pick(&CODES);
        message.push(code);
        let operand = match code {
            SINGLE_ADDRESS | VECTOR_ADDRESS => 6,
            LENGTH => 4,
            _ => 0,
        };
        message.extend((0..operand).map(|_| if random.percent(80) { 0 } else { random.byte() }));
    }
    message
}

fn with_no_ops(parts: &[Vec<u8>], random: &mut Random) -> Vec<u8> {
    let mut message = Vec::new();
    let often = if random.percent(15) { 50 } else { 0 };
    for part in parts {
        if random.percent(often) {
            message.push(NO_OP);
        }
        message.extend(part);
    }
    if message.is_empty() || random.percent(often) {
        message.push(NO_OP);
    }
    message
}

/// Makes a message nearly what it was.
fn spoil(message: &mut Vec<u8>, random: &mut Random) {
    let place = random.below(message.len() as u32) as usize;
    match random.below(5) {
        0 => message[place] = random.byte(),
        1 => message.truncate(place),
        2 => message.insert(place, random.pick(&CODES)),
        3 => {
            message.remove(place);
        }
        _ => message.rotate_left(place),
    }
}
