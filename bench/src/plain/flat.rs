//! The flat image: blocks one behind the other in lent memory, and a map with a bit for each.

use super::status::Status;
use super::store::{BLOCK, Fault, FaultKind, Protection, Store, allowed, ask, in_store};

#[derive(Debug)]
pub struct FlatImage<'m> {
    blocks: &'m mut [[u8; BLOCK]],
    /// One bit a block, eight to a byte, lowest first: 1 for damaged.
    damage: &'m mut [u8],
    protection: Protection,
}

impl<'m> FlatImage<'m> {
    pub fn open(
        memory: &'m mut [u8],
        damage: &'m mut [u8],
        protection: Protection,
    ) -> Result<Self, Status> {
        let (blocks, rest) = memory.as_chunks_mut();
        allowed(blocks.len())?;
        if !rest.is_empty() || damage.len() != blocks.len().div_ceil(8) {
            return Err(Status::BadImage);
        }
        Ok(Self {
            blocks,
            damage,
            protection,
        })
    }

    /// Marks a block damaged; a number past the end is passed over.
    pub fn mark_damaged(&mut self, block: u32) {
        if block < self.size() {
            self.damage[block as usize / 8] |= bit(block);
        }
    }
}

#[inline]
fn bit(block: u32) -> u8 {
    1 << (block % 8)
}

impl Store for FlatImage<'_> {
    #[inline]
    fn size(&self) -> u32 {
        self.blocks.len() as u32
    }

    #[inline]
    fn read(&mut self, block: u32, buffer: &mut [u8]) -> Result<(), Fault> {
        ask(self.size(), block, buffer.len())?;
        if self.damage[block as usize / 8] & bit(block) != 0 {
            return Err(FaultKind::Damaged.at(block));
        }
        buffer.copy_from_slice(&self.blocks[block as usize]);
        Ok(())
    }

    #[inline]
    fn write(&mut self, block: u32, bytes: &[u8]) -> Result<(), Fault> {
        ask(self.size(), block, bytes.len())?;
        if self.protection == Protection::Protected {
            return Err(FaultKind::Protected.at(block));
        }
        self.blocks[block as usize].copy_from_slice(bytes);
        self.damage[block as usize / 8] &= !bit(block);
        Ok(())
    }

    #[inline]
    fn protection(&self, block: u32) -> Result<Protection, Fault> {
        in_store(self.size(), block).map(|()| self.protection)
    }

    fn settle(&mut self) {}
}
