//! Times the proved device, the plain one and memcpy, and prints one table.

use boundary_bench::proved::Proved;
use boundary_bench::timing::clock::RUNS;
use boundary_bench::timing::comparing::print_comparisons;
use boundary_bench::timing::pages::Pages;
use boundary_bench::timing::plans::{
    Blocks, Plan, commands, long_transfers, many_small_transfers, scattered_transfers, set_up,
    small_transfers,
};
use boundary_bench::timing::scene::{flat, pile, raw};
use boundary_bench::timing::table::{print_head, print_title, row};
use boundary_bench::trials::case::{Lent, Plain};

const LEGEND: &str = "\
A ratio is one of times: below 1 the proved device is the faster. Rows of segments count in the commands and the reports.
A Read and a Write are held against memcpy between the image and the buffers, once in copies of 8,192 bytes and once in
copies of 256; a Verify, which leaves the buffers alone, against the same copies of 8,192 bytes as a Read, and against
copies of each block's 256 bytes to one buffer that stays warm.
With 32 segments all that is moved stays in the processor's cache; 2,000 segments walk over 16 MB of output.";

fn main() {
    println!("Medians of {RUNS} runs in one process. {LEGEND}\n");
    print_head();
    for blocks in [Blocks::Few, Blocks::Most] {
        let image = flat(blocks.count() as usize);
        let image = part("flat image", blocks, image, over_flat(blocks));
        let pile = pile(image, blocks.count());
        let name = "cache, write guard, window, flat image";
        drop(part(name, blocks, pile, over_pile(blocks)));
        let image = raw(blocks.count() as usize);
        drop(part("raw image", blocks, image, over_raw(blocks)));
    }
    println!();
    print_comparisons();
}

/// Times some plans over one store.
fn part(store: &str, blocks: Blocks, lent: Lent<Pages>, plans: Vec<Plan>) -> Lent<Pages> {
    print_title(&format!("{store}, {}", blocks.name()));
    plans.into_iter().fold(lent, row::<Proved, Plain>)
}

fn over_flat(blocks: Blocks) -> Vec<Plan> {
    let mut plans = small_transfers(blocks);
    if blocks == Blocks::Most {
        plans.extend(long_transfers());
    }
    plans.extend(scattered_transfers(blocks));
    plans.extend(commands(blocks));
    plans.push(set_up(blocks));
    plans
}

fn over_pile(blocks: Blocks) -> Vec<Plan> {
    let mut plans = small_transfers(blocks);
    plans.extend(scattered_transfers(blocks));
    plans.push(set_up(blocks));
    plans
}

/// Opening a large raw image takes longer than a few segments.
fn over_raw(blocks: Blocks) -> Vec<Plan> {
    let mut plans = match blocks {
        Blocks::Few => small_transfers(blocks),
        Blocks::Most => many_small_transfers(blocks),
    };
    plans.extend(scattered_transfers(blocks));
    plans.push(set_up(blocks));
    plans
}
