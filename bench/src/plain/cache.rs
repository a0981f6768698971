//! The cache, over any store: it keeps up to eight open blocks, and writes them below late.

use super::store::{BLOCK, Fault, FaultKind, Protection, Store, ask};

const SLOTS: usize = 8;

/// `release` settles it; one that is let go otherwise loses what it had not written below.
#[derive(Debug)]
pub struct Cache<S: Store> {
    below: S,
    /// The block that each slot keeps.
    kept: [Option<u32>; SLOTS],
    bytes: [[u8; BLOCK]; SLOTS],
    /// The slot that is to give up its block next.
    turn: usize,
}

impl<S: Store> Cache<S> {
    pub fn new(below: S) -> Self {
        Self {
            below,
            kept: [None; SLOTS],
            bytes: [[0; BLOCK]; SLOTS],
            turn: 0,
        }
    }

    pub fn release(mut self) -> S {
        self.settle();
        self.below
    }

    #[inline]
    fn slot_of(&self, block: u32) -> Option<usize> {
        self.kept.iter().position(|&kept| kept == Some(block))
    }

    /// A slot for a block that none keeps yet: a free one, or the one whose turn it is.
    fn slot_for(&mut self, block: u32) -> usize {
        let slot = match self.kept.iter().position(Option::is_none) {
            Some(free) => free,
            None => {
                let given_up = self.turn;
                self.write_below(given_up);
                self.turn = (self.turn + 1) % SLOTS;
                given_up
            }
        };
        self.kept[slot] = Some(block);
        slot
    }

    /// Writes a slot's block below. It is open there, or it would not be kept.
    fn write_below(&mut self, slot: usize) {
        if let Some(block) = self.kept[slot] {
            let written = self.below.write(block, &self.bytes[slot]);
            debug_assert_eq!(written, Ok(()));
        }
    }
}

impl<S: Store> Store for Cache<S> {
    #[inline]
    fn size(&self) -> u32 {
        self.below.size()
    }

    #[inline]
    fn read(&mut self, block: u32, buffer: &mut [u8]) -> Result<(), Fault> {
        ask(self.size(), block, buffer.len())?;
        if let Some(slot) = self.slot_of(block) {
            buffer.copy_from_slice(&self.bytes[slot]);
            return Ok(());
        }
        self.below.read(block, buffer)?;
        if self.below.protection(block)? == Protection::Open {
            let slot = self.slot_for(block);
            self.bytes[slot].copy_from_slice(buffer);
        }
        Ok(())
    }

    #[inline]
    fn write(&mut self, block: u32, bytes: &[u8]) -> Result<(), Fault> {
        ask(self.size(), block, bytes.len())?;
        let slot = match self.slot_of(block) {
            Some(slot) => slot,
            None if self.below.protection(block)? == Protection::Protected => {
                return Err(FaultKind::Protected.at(block));
            }
            None => self.slot_for(block),
        };
        self.bytes[slot].copy_from_slice(bytes);
        Ok(())
    }

    #[inline]
    fn protection(&self, block: u32) -> Result<Protection, Fault> {
        self.below.protection(block)
    }

    fn settle(&mut self) {
        for slot in 0..SLOTS {
            self.write_below(slot);
        }
        self.below.settle();
    }
}
