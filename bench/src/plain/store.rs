//! What a store of blocks is, and the faults that it answers with.

use super::status::Status;

/// The bytes of a block.
pub const BLOCK: usize = 256;

/// The most blocks that a store has.
pub const MOST_BLOCKS: u32 = 4_194_304;

#[derive(Clone, Copy, Debug, PartialEq, Eq)]
pub enum FaultKind {
    Length,
    Beyond,
    Damaged,
    Protected,
}

/// A fault, and the number of the block that it met, as the store counts it.
#[derive(Clone, Copy, Debug, PartialEq, Eq)]
pub struct Fault {
    pub kind: FaultKind,
    pub block: u32,
}

#[derive(Clone, Copy, Debug, PartialEq, Eq)]
pub enum Protection {
    Open,
    Protected,
}

pub trait Store {
    /// How many blocks there are.
    fn size(&self) -> u32;

    /// Copies a sound block's bytes into `buffer`; after a fault `buffer` is as it was.
    fn read(&mut self, block: u32, buffer: &mut [u8]) -> Result<(), Fault>;

    /// Makes an open block sound, with these bytes.
    fn write(&mut self, block: u32, bytes: &[u8]) -> Result<(), Fault>;

    fn protection(&self, block: u32) -> Result<Protection, Fault>;

    /// Writes what is kept back to the memory at the bottom.
    fn settle(&mut self);
}

impl FaultKind {
    pub const fn at(self, block: u32) -> Fault {
        Fault { kind: self, block }
    }
}

/// The faults that every read and write has first: the buffer's length, then the block's number.
#[inline]
pub fn ask(size: u32, block: u32, length: usize) -> Result<(), Fault> {
    if length != BLOCK {
        return Err(FaultKind::Length.at(block));
    }
    in_store(size, block)
}

#[inline]
pub fn in_store(size: u32, block: u32) -> Result<(), Fault> {
    if block < size {
        Ok(())
    } else {
        Err(FaultKind::Beyond.at(block))
    }
}

/// An image's count of blocks, if a store can have so many.
pub(super) fn allowed(blocks: usize) -> Result<u32, Status> {
    u32::try_from(blocks)
        .ok()
        .filter(|&blocks| blocks <= MOST_BLOCKS)
        .ok_or(Status::BadImage)
}
