//! Command messages: what a host's bytes ask for.

use super::geometry::{Geometry, Vector};
use super::status::Status;
use super::store::BLOCK;
use super::units::UnitMap;

/// The length that stands for the whole unit.
pub const WHOLE_UNIT: u32 = u32::MAX;

const LONGEST: usize = 1024;

/// What a host's next message goes by where it does not say otherwise.
#[derive(Clone, Copy, Debug, PartialEq, Eq)]
pub struct Parameters {
    pub unit: u8,
    pub address: u32,
    /// In bytes.
    pub length: u32,
}

impl Parameters {
    pub const AT_POWER_ON: Self = Self {
        unit: 0,
        address: 0,
        length: WHOLE_UNIT,
    };
}

#[derive(Clone, Copy, Debug, PartialEq, Eq)]
pub enum Command {
    Read,
    Write,
    Verify,
    ExtendedDescribe,
    SetDeviceLock,
    DeleteDeviceLock,
    SetUnitLock,
    DeleteUnitLock,
}

impl Command {
    pub fn is_on_unit(self) -> bool {
        !matches!(
            self,
            Self::ExtendedDescribe | Self::SetDeviceLock | Self::DeleteDeviceLock
        )
    }
}

/// What a message asks for.
#[derive(Clone, Copy, Debug, PartialEq, Eq)]
pub struct Message {
    pub parameters: Parameters,
    pub command: Option<Command>,
}

#[derive(Clone, Copy)]
enum Code {
    NoOp,
    SetUnit(u8),
    SetSingleAddress,
    SetVectorAddress,
    SetLength,
    Real(Command),
}

impl TryFrom<u8> for Code {
    type Error = Status;

    fn try_from(byte: u8) -> Result<Self, Status> {
        Ok(match byte {
            0x34 => Self::NoOp,
            0x20..=0x2F => Self::SetUnit(byte - 0x20),
            0x10 => Self::SetSingleAddress,
            0x11 => Self::SetVectorAddress,
            0x18 => Self::SetLength,
            0x00 => Self::Real(Command::Read),
            0x02 => Self::Real(Command::Write),
            0x04 => Self::Real(Command::Verify),
            0x0C => Self::Real(Command::ExtendedDescribe),
            0x63 => Self::Real(Command::SetDeviceLock),
            0x6B => Self::Real(Command::DeleteDeviceLock),
            0x73 => Self::Real(Command::SetUnitLock),
            0x7B => Self::Real(Command::DeleteUnitLock),
            _ => return Err(Status::IllegalOpcode),
        })
    }
}

/// What the codes read so far have set.
#[derive(Default)]
struct Draft {
    unit: Option<u8>,
    address: Option<u32>,
    length: Option<u32>,
    command: Option<Command>,
}

impl Draft {
    fn allows(&self, code: Code) -> bool {
        match code {
            Code::NoOp => true,
            Code::SetUnit(_) => {
                self.unit.is_none()
                    && self.address.is_none()
                    && self.length.is_none()
                    && self.command.is_none()
            }
            Code::SetSingleAddress | Code::SetVectorAddress => {
                self.address.is_none() && self.command.is_none()
            }
            Code::SetLength => self.length.is_none() && self.command.is_none(),
            Code::Real(_) => self.command.is_none(),
        }
    }

    /// Takes a code that may stand here, and its bytes off the front of `rest`.
    #[inline]
    fn take(
        &mut self,
        code: Code,
        rest: &mut &[u8],
        map: &UnitMap,
        own: Parameters,
    ) -> Result<(), Status> {
        match code {
            Code::NoOp => {}
            Code::SetUnit(unit) => {
                map.geometry(unit).ok_or(Status::ModuleAddressing)?;
                self.unit = Some(unit);
            }
            Code::SetSingleAddress => {
                let address = single_address(operand(rest)?);
                let size = self.geometry(map, own).size();
                let within = u32::try_from(address).ok().filter(|&a| a < size);
                self.address = Some(within.ok_or(Status::AddressBounds)?);
            }
            Code::SetVectorAddress => {
                let vector = vector(operand(rest)?);
                let address = self.geometry(map, own).address_at(vector);
                self.address = Some(address.ok_or(Status::AddressBounds)?);
            }
            Code::SetLength => {
                let length = u32::from_be_bytes(operand(rest)?);
                if length != WHOLE_UNIT && !length.is_multiple_of(BLOCK as u32) {
                    return Err(Status::ParameterBounds);
                }
                self.length = Some(length);
            }
            Code::Real(command) => self.command = Some(command),
        }
        Ok(())
    }

    /// The geometry of the unit in effect; a unit that is not in the map has no block.
    fn geometry(&self, map: &UnitMap, own: Parameters) -> Geometry {
        map.geometry(self.unit.unwrap_or(own.unit))
            .unwrap_or(Geometry::NONE)
    }

    fn parameters(&self, own: Parameters) -> Parameters {
        let unit = self.unit.unwrap_or(own.unit);
        let kept = if unit == own.unit { own.address } else { 0 };
        Parameters {
            unit,
            address: self.address.unwrap_or(kept),
            length: self.length.unwrap_or(own.length),
        }
    }
}

/// Reads a message against a host's own parameters.
pub fn decode(map: &UnitMap, own: Parameters, bytes: &[u8]) -> Result<Message, Status> {
    if !(1..=LONGEST).contains(&bytes.len()) {
        return Err(Status::MessageLength);
    }
    let mut draft = Draft::default();
    let mut rest = bytes;
    while let Some((&byte, after)) = rest.split_first() {
        rest = after;
        let code = Code::try_from(byte)?;
        if !draft.allows(code) {
            return Err(Status::MessageSequence);
        }
        draft.take(code, &mut rest, map, own)?;
    }
    Ok(Message {
        parameters: draft.parameters(own),
        command: draft.command,
    })
}

fn operand<const N: usize>(rest: &mut &[u8]) -> Result<[u8; N], Status> {
    let (&bytes, after) = rest.split_first_chunk().ok_or(Status::MessageLength)?;
    *rest = after;
    Ok(bytes)
}

fn single_address([a, b, c, d, e, f]: [u8; 6]) -> u64 {
    u64::from_be_bytes([0, 0, a, b, c, d, e, f])
}

fn vector([a, b, c, head, e, f]: [u8; 6]) -> Vector {
    Vector {
        cylinder: u32::from_be_bytes([0, a, b, c]),
        head,
        sector: u16::from_be_bytes([e, f]),
    }
}
