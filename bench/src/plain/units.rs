//! Units, and the map that says which blocks of the store they have.

use super::geometry::Geometry;
use super::status::Status;
use super::store::MOST_BLOCKS;

/// The number of the controller, which is no unit of the map and has no block.
pub const CONTROLLER: u8 = 15;

const MOST_UNITS: usize = 15;

#[derive(Clone, Copy, Debug, PartialEq, Eq)]
pub struct Unit {
    pub first: u32,
    pub geometry: Geometry,
}

impl Unit {
    /// One past its last block.
    fn end(&self) -> u64 {
        u64::from(self.first) + u64::from(self.geometry.size())
    }

    fn overlaps(&self, other: &Self) -> bool {
        u64::from(self.first) < other.end() && u64::from(other.first) < self.end()
    }
}

#[derive(Clone, Debug, PartialEq, Eq)]
pub struct UnitMap {
    units: [Unit; MOST_UNITS],
    count: u8,
    end: u32,
}

impl UnitMap {
    pub fn new(units: &[Unit], end: u32) -> Result<Self, Status> {
        let counts = (1..=MOST_UNITS).contains(&units.len())
            && end <= MOST_BLOCKS
            && units.iter().all(|unit| unit.geometry.size() > 0);
        let apart = || {
            units
                .iter()
                .enumerate()
                .all(|(n, unit)| units[..n].iter().all(|other| !unit.overlaps(other)))
        };
        let ended = || units.iter().all(|unit| unit.end() <= u64::from(end));
        if !(counts && apart() && ended()) {
            return Err(Status::BadUnitMap);
        }
        let none = Unit {
            first: 0,
            geometry: Geometry::NONE,
        };
        let mut all = [none; MOST_UNITS];
        all[..units.len()].copy_from_slice(units);
        Ok(Self {
            units: all,
            count: units.len() as u8,
            end,
        })
    }

    pub fn count(&self) -> u8 {
        self.count
    }

    pub fn end(&self) -> u32 {
        self.end
    }

    #[inline]
    pub fn unit(&self, number: u8) -> Option<Unit> {
        self.units[..usize::from(self.count)]
            .get(usize::from(number))
            .copied()
    }

    /// The geometry of a unit that a message may name: one of the map's, or the controller.
    #[inline]
    pub fn geometry(&self, number: u8) -> Option<Geometry> {
        if number == CONTROLLER {
            return Some(Geometry::NONE);
        }
        self.unit(number).map(|unit| unit.geometry)
    }

    /// The store's block at an address of a unit.
    pub fn block(&self, number: u8, address: u32) -> Option<u32> {
        let unit = self.unit(number)?;
        (address < unit.geometry.size()).then(|| unit.first + address)
    }
}
