//! How long a comparison of equal discs takes, beside a memcmp of the same bytes.

use super::clock::medians;
use super::pages::Pages;
use crate::plain::store::{BLOCK, MOST_BLOCKS};
use crate::proved::compare;
use std::hint::black_box;

/// How many blocks the discs have: some that stay in the processor's first cache, some that stay in its second, and the most.
const BLOCKS: [u32; 3] = [32, 1_024, MOST_BLOCKS];

/// A flat image, and a master of the same bytes.
#[derive(Debug)]
struct Discs {
    image: Pages,
    damage: Pages,
    master: Pages,
}

impl Discs {
    fn new(blocks: u32) -> Self {
        let blocks = blocks as usize;
        Self {
            image: Pages::new(0x11, blocks * BLOCK),
            damage: Pages::new(0, blocks.div_ceil(8)),
            master: Pages::new(0x11, blocks * BLOCK),
        }
    }

    fn blocks(&self) -> u32 {
        (self.image.len() / BLOCK) as u32
    }

    fn compare(&mut self) -> Option<u32> {
        let run = (0, self.blocks());
        compare(&mut self.image, &mut self.damage, run, &self.master, run)
    }

    /// Sees that a comparison finds none that differs, and the last block where a byte of it is changed.
    fn check(&mut self) {
        assert_eq!(self.compare(), None, "the discs are equal");
        let last = self.image.len() - 1;
        self.image[last] ^= 1;
        assert_eq!(self.compare(), Some(self.blocks() - 1), "a byte differs");
        self.image[last] ^= 1;
    }

    fn timed(&mut self) {
        black_box(self.compare());
    }

    fn memcmp(&mut self) {
        let blocks = self.image.chunks_exact(BLOCK);
        for (block, other) in blocks.zip(self.master.chunks_exact(BLOCK)) {
            assert!(black_box(block) == other, "the discs are equal");
        }
    }
}

/// Prints a row for each size.
pub fn print_comparisons() {
    println!("comparison of a flat image with a master of the same bytes, each through a window on all of it");
    println!("{:58} {:>11} {:>11} {:>8}", "", "proved", "memcmp 256", "ratio");
    for blocks in BLOCKS {
        let mut discs = Discs::new(blocks);
        discs.check();
        let bytes = discs.image.len() as f64;
        let [proved, memcmp] = medians(&mut discs, [Discs::timed, Discs::memcmp]);
        let rate = |seconds: f64| format!("{:.2} GB/s", bytes / seconds / 1e9);
        println!(
            "  {:56} {:>11} {:>11} {:>8.2}",
            format!("{blocks} blocks"),
            rate(proved),
            rate(memcmp),
            proved / memcmp
        );
    }
}
