//! Writes traces, in the format of `docs/TRACE.md`.

use crate::plain::trace::{Buffer, Call, Kind};
use crate::plain::units::Unit;

/// A trace's head.
pub fn head(number: u32, end: u32, units: &[Unit]) -> Vec<u8> {
    let mut trace = Vec::new();
    trace.extend(number.to_be_bytes());
    trace.extend(end.to_be_bytes());
    trace.push(units.len() as u8);
    for unit in units {
        trace.extend(unit.first.to_be_bytes());
        trace.extend(unit.geometry.cylinders.to_be_bytes());
        trace.extend([unit.geometry.heads, unit.geometry.sectors]);
    }
    trace
}

impl Call<'_> {
    /// Writes the call behind a trace.
    pub fn write(&self, trace: &mut Vec<u8>) {
        trace.extend([self.kind.number(), self.host]);
        match self.kind {
            Kind::Command(message) => {
                trace.extend((message.len() as u16).to_be_bytes());
                trace.extend(message);
            }
            Kind::Segment(buffer) | Kind::Report(buffer) => {
                let Buffer { size, given } = buffer;
                trace.extend((size as u32).to_be_bytes());
                trace.extend((given.len() as u32).to_be_bytes());
                trace.extend(given);
            }
            _ => {}
        }
    }
}

impl Kind<'_> {
    pub const fn number(&self) -> u8 {
        match self {
            Self::Command(_) => 0,
            Self::Segment(_) => 1,
            Self::Report(_) => 2,
            Self::Cancel => 3,
            Self::Clear => 4,
            Self::Notice => 5,
            Self::Fault => 6,
            Self::Parameters => 7,
            Self::Locks => 8,
            Self::Activity => 9,
        }
    }

    /// A segment whose buffer has this size, and the bytes that stand in the output.
    pub const fn segment(size: usize) -> Self {
        Self::Segment(Buffer { size, given: &[] })
    }

    /// A report whose buffer has this size, and the bytes that stand in the output.
    pub const fn report(size: usize) -> Self {
        Self::Report(Buffer { size, given: &[] })
    }
}
