//! A comparison sees every kind of difference.

use boundary_bench::trials::case::{Case, Entry, Lent, Plain, Side};
use boundary_bench::trials::comparing::compare;
use boundary_bench::trials::generating::{Size, case};
use std::ops::DerefMut;

/// What a wrong device does wrong.
const NOTHING: u8 = 0;
const NUMBER: u8 = 1;
const IMAGE: u8 = 2;
const BESIDE: u8 = 3;
const ANSWER: u8 = 4;
const PAST_THE_END: u8 = 5;

/// The plain device, gone wrong in one way.
struct Wrong<const HOW: u8>;

impl<const HOW: u8> Side for Wrong<HOW> {
    fn run<Bytes: DerefMut<Target = [u8]>>(
        lent: &mut Lent<Bytes>,
        trace: &[u8],
        output: &mut [u8],
    ) -> u64 {
        let ended = Plain::run(lent, trace, output);
        match HOW {
            NUMBER => return ended + 1,
            IMAGE => *lent.image_mut().last_mut().expect("an image") ^= 1,
            BESIDE => lent.beside_mut()[0] ^= 1,
            ANSWER => output[0] ^= 1,
            PAST_THE_END => output[(ended & 0xFF_FFFF_FFFF) as usize] ^= 1,
            _ => {}
        }
        ended
    }
}

/// A case whose trace is run to its end, with room past it.
fn sample() -> Case {
    let mut sample = case(Entry::Flat, Size::Long, 1_000_000);
    sample.output.push(0);
    sample
}

fn differences<const HOW: u8>() -> Vec<String> {
    compare::<Plain, Wrong<HOW>>(sample(), sample()).differences
}

#[test]
fn each_difference_is_told() {
    assert!(differences::<NOTHING>().is_empty());
    let told = [
        (differences::<NUMBER>(), "returned"),
        (differences::<IMAGE>(), "image"),
        (differences::<BESIDE>(), "memory beside"),
        (differences::<ANSWER>(), "call 0"),
        (differences::<PAST_THE_END>(), "output past"),
    ];
    for (differences, begins) in told {
        assert_eq!(differences.len(), 1, "{differences:?}");
        assert!(differences[0].starts_with(begins), "{differences:?}");
    }
}
