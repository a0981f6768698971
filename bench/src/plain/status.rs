//! The statuses that the device answers with.

use std::fmt;

#[derive(Clone, Copy, Debug, PartialEq, Eq, Hash)]
pub enum Status {
    IllegalOpcode,
    ModuleAddressing,
    AddressBounds,
    ParameterBounds,
    MessageSequence,
    MessageLength,
    PowerOn,
    DeviceAvailable,
    ResourceUnavailable,
    UnitAvailable,
    UnitFault,
    UnrecoverableData,
    EndOfVolume,
    BadUnitMap,
    StoreTooSmall,
    BadImage,
    BadHost,
    BadBuffer,
}

impl Status {
    /// The group, and the code within it.
    pub const fn numbers(self) -> (u8, u8) {
        match self {
            Self::IllegalOpcode => (1, 1),
            Self::ModuleAddressing => (1, 2),
            Self::AddressBounds => (1, 3),
            Self::ParameterBounds => (1, 4),
            Self::MessageSequence => (1, 6),
            Self::MessageLength => (2, 0),
            Self::PowerOn => (3, 1),
            Self::DeviceAvailable => (4, 1),
            Self::ResourceUnavailable => (4, 3),
            Self::UnitAvailable => (4, 8),
            Self::UnitFault => (5, 4),
            Self::UnrecoverableData => (8, 4),
            Self::EndOfVolume => (8, 5),
            Self::BadUnitMap => (128, 1),
            Self::StoreTooSmall => (128, 2),
            Self::BadImage => (128, 3),
            Self::BadHost => (128, 4),
            Self::BadBuffer => (128, 5),
        }
    }
}

impl fmt::Display for Status {
    fn fmt(&self, f: &mut fmt::Formatter<'_>) -> fmt::Result {
        let (group, code) = self.numbers();
        write!(f, "{group}/{code}")
    }
}
