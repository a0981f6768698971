//! A unit's cylinders, heads and sectors, and the addresses of its blocks.

#[derive(Clone, Copy, Debug, PartialEq, Eq)]
pub struct Geometry {
    pub cylinders: u16,
    pub heads: u8,
    pub sectors: u8,
}

/// A place on a disc; as wide as a message has it, so any part may be past the unit's end.
#[derive(Clone, Copy, Debug, PartialEq, Eq)]
pub struct Vector {
    pub cylinder: u32,
    pub head: u8,
    pub sector: u16,
}

impl Geometry {
    /// The controller's: it has no block.
    pub const NONE: Self = Self {
        cylinders: 0,
        heads: 0,
        sectors: 0,
    };

    /// How many blocks there are; 65,535 × 255 × 255 fits.
    #[inline]
    pub const fn size(self) -> u32 {
        self.cylinders as u32 * self.heads as u32 * self.sectors as u32
    }

    #[inline]
    pub fn address_at(self, vector: Vector) -> Option<u32> {
        let within = vector.cylinder < u32::from(self.cylinders)
            && vector.head < self.heads
            && vector.sector < u16::from(self.sectors);
        within.then(|| {
            let track = vector.cylinder * u32::from(self.heads) + u32::from(vector.head);
            track * u32::from(self.sectors) + u32::from(vector.sector)
        })
    }

    pub fn vector_at(self, address: u32) -> Option<Vector> {
        if address >= self.size() {
            return None;
        }
        let sectors = u32::from(self.sectors);
        let heads = u32::from(self.heads);
        let track = address / sectors;
        Some(Vector {
            cylinder: track / heads,
            head: (track % heads) as u8,
            sector: (address % sectors) as u16,
        })
    }
}
