//! Memory that begins at a page, so that no row depends on where memory happens to be.

use std::ops::{Deref, DerefMut};

const PAGE: usize = 4096;

#[derive(Debug)]
pub struct Pages {
    bytes: Vec<u8>,
    from: usize,
}

impl Pages {
    /// So many bytes of this value.
    pub fn new(byte: u8, count: usize) -> Self {
        let mut bytes = vec![byte; count + PAGE];
        let from = bytes.as_ptr().align_offset(PAGE);
        bytes.truncate(from + count);
        Self { bytes, from }
    }
}

impl Deref for Pages {
    type Target = [u8];

    fn deref(&self) -> &[u8] {
        &self.bytes[self.from..]
    }
}

impl DerefMut for Pages {
    fn deref_mut(&mut self) -> &mut [u8] {
        &mut self.bytes[self.from..]
    }
}
