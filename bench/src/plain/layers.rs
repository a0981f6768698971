//! The window and the write guard, over any store.

use super::store::{Fault, FaultKind, Protection, Store, ask};

/// The `count` blocks from `first` on.
#[derive(Clone, Copy, Debug, PartialEq, Eq)]
pub struct Run {
    pub first: u32,
    pub count: u32,
}

impl Run {
    #[inline]
    pub fn contains(self, block: u32) -> bool {
        block
            .checked_sub(self.first)
            .is_some_and(|offset| offset < self.count)
    }

    /// How many blocks of the run a store of this size has.
    #[inline]
    pub fn count_in(self, size: u32) -> u32 {
        self.count.min(size.saturating_sub(self.first))
    }
}

/// Shows the blocks of a run, renumbered from 0.
#[derive(Debug)]
pub struct Window<S> {
    below: S,
    run: Run,
}

impl<S: Store> Window<S> {
    pub fn new(below: S, run: Run) -> Self {
        Self { below, run }
    }

    pub fn release(self) -> S {
        self.below
    }

    /// The number below, or past every store's end for a block that the window has not.
    #[inline]
    fn number_below(&self, block: u32) -> Result<u32, Fault> {
        if block < self.size() {
            Ok(self.run.first + block)
        } else {
            Err(FaultKind::Beyond.at(block))
        }
    }
}

impl<S: Store> Store for Window<S> {
    #[inline]
    fn size(&self) -> u32 {
        self.run.count_in(self.below.size())
    }

    #[inline]
    fn read(&mut self, block: u32, buffer: &mut [u8]) -> Result<(), Fault> {
        ask(self.size(), block, buffer.len())?;
        let below = self.number_below(block)?;
        self.below
            .read(below, buffer)
            .map_err(|fault| fault.kind.at(block))
    }

    #[inline]
    fn write(&mut self, block: u32, bytes: &[u8]) -> Result<(), Fault> {
        ask(self.size(), block, bytes.len())?;
        let below = self.number_below(block)?;
        self.below
            .write(below, bytes)
            .map_err(|fault| fault.kind.at(block))
    }

    #[inline]
    fn protection(&self, block: u32) -> Result<Protection, Fault> {
        let below = self.number_below(block)?;
        self.below
            .protection(below)
            .map_err(|fault| fault.kind.at(block))
    }

    fn settle(&mut self) {
        self.below.settle();
    }
}

/// Protects the blocks of a run, besides those protected below.
#[derive(Debug)]
pub struct WriteGuard<S> {
    below: S,
    run: Run,
}

impl<S: Store> WriteGuard<S> {
    pub fn new(below: S, run: Run) -> Self {
        Self { below, run }
    }

    pub fn release(self) -> S {
        self.below
    }
}

impl<S: Store> Store for WriteGuard<S> {
    #[inline]
    fn size(&self) -> u32 {
        self.below.size()
    }

    #[inline]
    fn read(&mut self, block: u32, buffer: &mut [u8]) -> Result<(), Fault> {
        self.below.read(block, buffer)
    }

    #[inline]
    fn write(&mut self, block: u32, bytes: &[u8]) -> Result<(), Fault> {
        if self.run.contains(block) {
            ask(self.size(), block, bytes.len())?;
            return Err(FaultKind::Protected.at(block));
        }
        self.below.write(block, bytes)
    }

    #[inline]
    fn protection(&self, block: u32) -> Result<Protection, Fault> {
        let below = self.below.protection(block)?;
        Ok(if self.run.contains(block) {
            Protection::Protected
        } else {
            below
        })
    }

    fn settle(&mut self) {
        self.below.settle();
    }
}
