//! A script over memory, run by either side, and the copies that its moves are measured by.

use super::pages::Pages;
use super::script::{Move, SEGMENT_BYTES, Script};
use crate::plain::layers::Run;
use crate::plain::raw::RECORD;
use crate::plain::store::BLOCK;
use crate::trials::case::{Lent, Side};
use std::hint::black_box;

/// The copies that a row's times are measured by: some of whole segments, and some of single blocks.
#[derive(Clone, Copy, Debug, PartialEq, Eq)]
pub enum Baseline {
    None,
    /// From the image to the buffers' places in the output.
    Read,
    /// The other way.
    Write,
    /// As for a Read; but single blocks all to one buffer, which stays warm.
    Verify,
}

#[derive(Debug)]
pub struct Scene {
    pub lent: Lent<Pages>,
    script: Script,
    output: Pages,
}

impl Scene {
    pub fn new(lent: Lent<Pages>, script: Script) -> Self {
        let output = Pages::new(0x5A, script.written);
        Self {
            lent,
            script,
            output,
        }
    }

    /// Runs the script once and sees that it was carried out.
    pub fn check<S: Side>(&mut self) {
        let ended = self.run::<S>();
        self.script.check(ended, &self.output);
    }

    fn run<S: Side>(&mut self) -> u64 {
        let trace = black_box(&self.script.trace);
        let ended = S::run(&mut self.lent, trace, &mut self.output);
        black_box(&mut self.output);
        ended
    }

    pub fn timed<S: Side>(&mut self) {
        black_box(self.run::<S>());
    }

    /// Where in the image's memory the bytes of a move begin: in a raw image only about there.
    fn offset(lent: &Lent<Pages>, moved: Move) -> usize {
        moved.block
            * match lent {
                Lent::Raw { .. } => RECORD,
                _ => BLOCK,
            }
    }

    /// A memcpy of each segment's bytes to its buffer's place in the output, `PIECE` bytes at a time.
    fn copy_from_image<const PIECE: usize>(&mut self) {
        for &moved in &self.script.moves {
            let from = &self.lent.image()[Self::offset(&self.lent, moved)..][..SEGMENT_BYTES];
            let to = &mut self.output[moved.place..][..SEGMENT_BYTES];
            copy::<PIECE>(to, from);
        }
        black_box(&mut self.output);
    }

    fn copy_to_image<const PIECE: usize>(&mut self) {
        for &moved in &self.script.moves {
            let from = &self.output[moved.place..][..SEGMENT_BYTES];
            let offset = Self::offset(&self.lent, moved);
            let to = &mut self.lent.image_mut()[offset..][..SEGMENT_BYTES];
            copy::<PIECE>(to, from);
        }
        black_box(self.lent.image_mut());
    }

    fn copy_blocks_to_one_buffer(&mut self) {
        let mut buffer = [0; BLOCK];
        for &moved in &self.script.moves {
            let from = &self.lent.image()[Self::offset(&self.lent, moved)..][..SEGMENT_BYTES];
            for block in from.chunks_exact(BLOCK) {
                buffer.copy_from_slice(block);
                black_box(&mut buffer);
            }
        }
    }
}

impl Baseline {
    /// The copies of whole segments, and of single blocks.
    pub fn copies(self) -> [fn(&mut Scene); 2] {
        match self {
            Self::None => [|_| (), |_| ()],
            Self::Read => [
                Scene::copy_from_image::<SEGMENT_BYTES>,
                Scene::copy_from_image::<BLOCK>,
            ],
            Self::Write => [
                Scene::copy_to_image::<SEGMENT_BYTES>,
                Scene::copy_to_image::<BLOCK>,
            ],
            Self::Verify => [
                Scene::copy_from_image::<SEGMENT_BYTES>,
                Scene::copy_blocks_to_one_buffer,
            ],
        }
    }
}

fn copy<const PIECE: usize>(to: &mut [u8], from: &[u8]) {
    for (to, from) in to.chunks_exact_mut(PIECE).zip(from.chunks_exact(PIECE)) {
        black_box(to).copy_from_slice(from);
    }
}

/// A flat image of sound blocks.
pub fn flat(blocks: usize) -> Lent<Pages> {
    Lent::Flat {
        image: Pages::new(0x11, blocks * BLOCK),
        damage: Pages::new(0, blocks.div_ceil(8)),
    }
}

/// A raw image of sound blocks, 64 to a track, the spare record in the middle of each.
pub fn raw(blocks: usize) -> Lent<Pages> {
    let tracks = blocks / 64;
    let mut image = Pages::new(0x11, tracks * 65 * RECORD);
    for record in image.chunks_exact_mut(RECORD) {
        record[0] = 0;
    }
    Lent::Raw {
        image,
        spares: Pages::new(32, tracks),
        records: 65,
    }
}

/// The same flat image below a window on all of it, a write guard on no block, and a cache.
pub fn pile(lent: Lent<Pages>, blocks: u32) -> Lent<Pages> {
    match lent {
        Lent::Flat { image, damage } => Lent::Pile {
            image,
            damage,
            window: Run {
                first: 0,
                count: blocks,
            },
            guard: Run {
                first: blocks,
                count: 0,
            },
        },
        other => other,
    }
}
