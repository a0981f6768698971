//! The raw image: tracks of records as a drive has them, each track with one spare record.

use super::status::Status;
use super::store::{BLOCK, Fault, FaultKind, Protection, Store, allowed, ask, in_store};
use std::ops::Range;

/// A record: header, data, CRC and ECC.
pub const RECORD: usize = 276;
const DATA: Range<usize> = 6..6 + BLOCK;

#[derive(Debug)]
pub struct RawImage<'m> {
    records: &'m mut [[u8; RECORD]],
    /// For each track the place of its spare record.
    spares: &'m [u8],
    /// How many records of a track are blocks.
    a_track: u32,
    size: u32,
    protection: Protection,
}

impl<'m> RawImage<'m> {
    pub fn open(
        memory: &'m mut [u8],
        spares: &'m [u8],
        records_a_track: u32,
        protection: Protection,
    ) -> Result<Self, Status> {
        if !(2..=256).contains(&records_a_track) {
            return Err(Status::BadImage);
        }
        let (records, rest) = memory.as_chunks_mut();
        let whole = spares.len().checked_mul(records_a_track as usize);
        if !rest.is_empty() || whole != Some(records.len()) {
            return Err(Status::BadImage);
        }
        let size = allowed(records.len() - spares.len())?;
        if spares
            .iter()
            .any(|&place| u32::from(place) >= records_a_track)
        {
            return Err(Status::BadImage);
        }
        Ok(Self {
            records,
            spares,
            a_track: records_a_track - 1,
            size,
            protection,
        })
    }

    /// Marks a block damaged; a number past the end is passed over.
    pub fn mark_damaged(&mut self, block: u32) {
        if block < self.size {
            let place = self.place(block);
            self.records[place][0] = 1;
        }
    }

    /// Which record a block is: the spare records are passed over.
    #[inline]
    fn place(&self, block: u32) -> usize {
        let track = block / self.a_track;
        let nth = block % self.a_track;
        let spare = u32::from(self.spares[track as usize]);
        let first = track as usize * (self.a_track as usize + 1);
        first + nth as usize + usize::from(nth >= spare)
    }
}

impl Store for RawImage<'_> {
    #[inline]
    fn size(&self) -> u32 {
        self.size
    }

    #[inline]
    fn read(&mut self, block: u32, buffer: &mut [u8]) -> Result<(), Fault> {
        ask(self.size, block, buffer.len())?;
        let record = &self.records[self.place(block)];
        if record[0] != 0 {
            return Err(FaultKind::Damaged.at(block));
        }
        buffer.copy_from_slice(&record[DATA]);
        Ok(())
    }

    #[inline]
    fn write(&mut self, block: u32, bytes: &[u8]) -> Result<(), Fault> {
        ask(self.size, block, bytes.len())?;
        if self.protection == Protection::Protected {
            return Err(FaultKind::Protected.at(block));
        }
        let place = self.place(block);
        let record = &mut self.records[place];
        record[DATA].copy_from_slice(bytes);
        record[0] = 0;
        Ok(())
    }

    #[inline]
    fn protection(&self, block: u32) -> Result<Protection, Fault> {
        in_store(self.size, block).map(|()| self.protection)
    }

    fn settle(&mut self) {}
}
