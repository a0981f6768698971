//! Runs one row of the table on one side, for a profiler: one SIDE STORE TIMES ROW, as in `one proved flat 100 'No Op, report'`.
//!
//! The store has 64 blocks; the row is the first whose name begins so.

use boundary_bench::proved::Proved;
use boundary_bench::timing::plans::{Blocks, commands, set_up, small_transfers};
use boundary_bench::timing::scene::{Scene, flat, pile, raw};
use boundary_bench::trials::case::Plain;
use std::env;
use std::process::ExitCode;

fn main() -> ExitCode {
    let words: Vec<String> = env::args().skip(1).collect();
    if run(&words).is_some() {
        return ExitCode::SUCCESS;
    }
    eprintln!("one proved|plain flat|pile|raw TIMES ROW");
    ExitCode::FAILURE
}

fn run(words: &[String]) -> Option<()> {
    let [side, store, times, row] = words else {
        return None;
    };
    let blocks = Blocks::Few;
    let memory = flat(blocks.count() as usize);
    let lent = match store.as_str() {
        "flat" => memory,
        "pile" => pile(memory, blocks.count()),
        "raw" => raw(blocks.count() as usize),
        _ => return None,
    };
    let side = match side.as_str() {
        "proved" => Scene::timed::<Proved>,
        "plain" => Scene::timed::<Plain>,
        _ => return None,
    };
    let mut plans = small_transfers(blocks);
    plans.extend(commands(blocks));
    plans.push(set_up(blocks));
    let plan = plans.into_iter().find(|plan| plan.what.starts_with(row))?;
    let mut scene = Scene::new(lent, plan.script);
    for _ in 0..times.parse().ok()? {
        side(&mut scene);
    }
    Some(())
}
