//! A transaction: what one accepted message still has to move, and what it will report.

use super::message::{Command, Message, WHOLE_UNIT};
use super::status::Status;
use super::store::{BLOCK, Fault, Store};
use super::units::Unit;
use std::hint::black_box;

/// The most blocks of a segment.
pub const SEGMENT: u32 = 32;

/// The bytes of a report.
pub const REPORT: usize = 13;

#[derive(Clone, Copy, Debug, PartialEq, Eq)]
pub enum Phase {
    Execution,
    Report,
}

/// What there is to report so far.
#[derive(Clone, Copy, Debug, PartialEq, Eq)]
pub enum Outcome {
    Good,
    /// The first block that could not be read is at this address of the unit.
    Unreadable(u32),
    Unwritable,
    PastEnd,
}

impl Outcome {
    pub fn report(self) -> [u8; REPORT] {
        let (status, address) = match self {
            Self::Good => return [0; REPORT],
            Self::Unreadable(address) => (Status::UnrecoverableData, address),
            Self::Unwritable => (Status::UnitFault, 0),
            Self::PastEnd => (Status::EndOfVolume, 0),
        };
        let (group, code) = status.numbers();
        let mut report = [0; REPORT];
        report[..3].copy_from_slice(&[1, group, code]);
        report[9..].copy_from_slice(&address.to_be_bytes());
        report
    }
}

#[derive(Clone, Debug)]
pub struct Transaction {
    command: Option<Command>,
    unit: u8,
    /// The address of the next block.
    next: u32,
    /// How many blocks are left; none in the report phase.
    left: u32,
    /// An Extended Describe whose description is still to be handed over.
    describing: bool,
    outcome: Outcome,
}

/// What a segment did: how many blocks it tried, and the first fault with the address that it was met at.
#[derive(Clone, Copy, Debug, PartialEq, Eq)]
pub struct Tried {
    pub blocks: u32,
    pub fault: Option<(Fault, u32)>,
}

impl Transaction {
    /// Opens one for a message, whose address it sets to 0 where the blocks pass the unit's end.
    pub fn open(message: &mut Message, unit: Option<Unit>) -> Self {
        let size = unit.map_or(0, |unit| unit.geometry.size());
        let parameters = &mut message.parameters;
        let (left, outcome) = match message.command {
            Some(Command::Read | Command::Write | Command::Verify) => {
                let blocks = match parameters.length {
                    WHOLE_UNIT => size,
                    bytes => bytes / BLOCK as u32,
                };
                let room = size
                    .checked_sub(parameters.address)
                    .filter(|&room| room > 0);
                if room.is_some_and(|room| blocks <= room) {
                    (blocks, Outcome::Good)
                } else {
                    parameters.address = 0;
                    (0, Outcome::PastEnd)
                }
            }
            _ => (0, Outcome::Good),
        };
        Self {
            command: message.command,
            unit: parameters.unit,
            next: parameters.address,
            left,
            describing: message.command == Some(Command::ExtendedDescribe),
            outcome,
        }
    }

    pub fn phase(&self) -> Phase {
        if self.left > 0 || self.describing {
            Phase::Execution
        } else {
            Phase::Report
        }
    }

    pub fn unit(&self) -> u8 {
        self.unit
    }

    /// The address of the next block.
    pub fn next(&self) -> u32 {
        self.next
    }

    pub fn is_on(&self, unit: u8) -> bool {
        self.unit == unit && self.command.is_some_and(Command::is_on_unit)
    }

    pub fn report(&self) -> [u8; REPORT] {
        self.outcome.report()
    }

    pub fn is_describing(&self) -> bool {
        self.describing
    }

    /// The segment of an Extended Describe: the description goes into the buffer's front.
    pub fn describe(&mut self, description: &[u8], buffer: &mut [u8]) -> Result<(), Status> {
        let front = buffer
            .get_mut(..description.len())
            .ok_or(Status::BadBuffer)?;
        front.copy_from_slice(description);
        self.describing = false;
        Ok(())
    }

    /// Moves the next segment between the store, where the unit's blocks begin at `first`, and `buffer`.
    #[inline]
    pub fn move_segment<S: Store>(
        &mut self,
        store: &mut S,
        first: u32,
        buffer: &mut [u8],
    ) -> Result<Tried, Status> {
        let count = self.left.min(SEGMENT);
        let from = first + self.next;
        let tried = match self.command {
            Some(Command::Verify) => verify(store, from, count),
            Some(Command::Read) => read(store, from, blocks_of(buffer, count)?),
            _ => {
                let blocks = blocks_of(buffer, count)?;
                if self.outcome == Outcome::Unwritable {
                    NOT_TRIED
                } else {
                    write(store, from, blocks)
                }
            }
        };
        let tried = Tried {
            fault: tried.fault.map(|(fault, nth)| (fault, self.next + nth)),
            ..tried
        };
        if let (Some((_, address)), Outcome::Good) = (tried.fault, self.outcome) {
            self.outcome = match self.command {
                Some(Command::Write) => Outcome::Unwritable,
                _ => Outcome::Unreadable(address),
            };
        }
        self.next += count;
        self.left -= count;
        Ok(tried)
    }
}

const NOT_TRIED: Tried = Tried {
    blocks: 0,
    fault: None,
};

/// The places of so many blocks at the buffer's front.
#[inline]
fn blocks_of(buffer: &mut [u8], count: u32) -> Result<&mut [[u8; BLOCK]], Status> {
    let (blocks, _) = buffer.as_chunks_mut();
    blocks.get_mut(..count as usize).ok_or(Status::BadBuffer)
}

#[inline]
fn read<S: Store>(store: &mut S, from: u32, blocks: &mut [[u8; BLOCK]]) -> Tried {
    let mut fault = None;
    for (nth, bytes) in (0..).zip(blocks.iter_mut()) {
        if let Err(met) = store.read(from + nth, bytes) {
            bytes.fill(0);
            fault = fault.or(Some((met, nth)));
        }
    }
    Tried {
        blocks: blocks.len() as u32,
        fault,
    }
}

#[inline]
fn verify<S: Store>(store: &mut S, from: u32, count: u32) -> Tried {
    let mut bytes = [0; BLOCK];
    let mut fault = None;
    for nth in 0..count {
        if let Err(met) = store.read(from + nth, &mut bytes) {
            fault = fault.or(Some((met, nth)));
        }
        // A Verify reads its blocks. Nothing looks at their bytes, so the compiler would leave the reading out.
        black_box(&bytes);
    }
    Tried {
        blocks: count,
        fault,
    }
}

/// Stops at the first block that cannot be written.
#[inline]
fn write<S: Store>(store: &mut S, from: u32, blocks: &[[u8; BLOCK]]) -> Tried {
    for (nth, bytes) in (0..).zip(blocks) {
        if let Err(met) = store.write(from + nth, bytes) {
            return Tried {
                blocks: nth + 1,
                fault: Some((met, nth)),
            };
        }
    }
    Tried {
        blocks: blocks.len() as u32,
        fault: None,
    }
}
