//! Runs a case on both sides and says where they differ.

use super::case::{Case, Side};
use super::reading::Answers;
use std::fmt::Write;

/// What two runs of one case left.
#[derive(Debug)]
pub struct Compared {
    pub ended: u64,
    /// The case as the first side left it.
    pub left: Case,
    /// Where the second side differs, in words.
    pub differences: Vec<String>,
}

/// Runs a case on the first side, and the same case, over memory of its own, on the second.
pub fn compare<A: Side, B: Side>(mut left: Case, mut other: Case) -> Compared {
    let ended = left.run::<A>();
    let other_ended = other.run::<B>();
    let mut differences = Vec::new();
    if ended != other_ended {
        differences.push(format!(
            "returned {} and {}",
            returned(ended),
            returned(other_ended)
        ));
    }
    if left.output != other.output {
        differences.push(output_difference(&left, ended, &other, other_ended));
    }
    let memory = [
        ("image", left.lent.image(), other.lent.image()),
        (
            "memory beside the image",
            left.lent.beside(),
            other.lent.beside(),
        ),
    ];
    for (name, mine, theirs) in memory {
        if let Some(at) = first_difference(mine, theirs) {
            differences.push(format!(
                "{name} at byte {at}: {:02X} and {:02X}",
                mine[at], theirs[at]
            ));
        }
    }
    Compared {
        ended,
        left,
        differences,
    }
}

fn returned(number: u64) -> String {
    format!("{} with {} bytes", number >> 56, number & ((1 << 56) - 1))
}

fn first_difference(mine: &[u8], theirs: &[u8]) -> Option<usize> {
    if mine == theirs {
        return None;
    }
    mine.iter().zip(theirs).position(|(a, b)| a != b)
}

/// Names the first call whose answer or buffer differs.
fn output_difference(mine: &Case, ended: u64, theirs: &Case, other_ended: u64) -> String {
    let written = |case: &Case, ended: u64| {
        let count = (ended & ((1 << 56) - 1)) as usize;
        count.min(case.output.len())
    };
    let one = Answers::new(&mine.trace, &mine.output[..written(mine, ended)]);
    let two = Answers::new(
        &theirs.trace,
        &theirs.output[..written(theirs, other_ended)],
    );
    for (number, (a, b)) in one.zip(two).enumerate() {
        let mut text = format!("call {number}, host {}, {:02X?}:", a.call.host, a.call.kind);
        if a.answer != b.answer {
            let _ = write!(text, " answers {:02X?} and {:02X?}", a.answer, b.answer);
        } else if let Some(at) = first_difference(a.buffer, b.buffer) {
            let _ = write!(
                text,
                " buffer at byte {at}: {:02X} and {:02X}",
                a.buffer[at], b.buffer[at]
            );
        } else {
            continue;
        }
        return text;
    }
    match first_difference(&mine.output, &theirs.output) {
        Some(at) => format!(
            "output past the calls, at byte {at}: {:02X} and {:02X}",
            mine.output[at], theirs.output[at]
        ),
        None => String::new(),
    }
}
