//! The proved device, by the C functions of `libboundary.a`. All that is unsafe stands here.

use crate::trials::case::{Lent, Side};
use std::ops::DerefMut;

unsafe extern "C" {
    fn cuwajimo_flat(
        image: *mut u8,
        image_len: usize,
        damage: *mut u8,
        damage_len: usize,
        trace: *const u8,
        trace_len: usize,
        output: *mut u8,
        output_len: usize,
    ) -> u64;

    fn cuwajimo_raw(
        image: *mut u8,
        image_len: usize,
        spares: *const u8,
        spares_len: usize,
        records: u32,
        trace: *const u8,
        trace_len: usize,
        output: *mut u8,
        output_len: usize,
    ) -> u64;

    fn cuwajimo_pile(
        image: *mut u8,
        image_len: usize,
        damage: *mut u8,
        damage_len: usize,
        window_first: u32,
        window_count: u32,
        guard_first: u32,
        guard_count: u32,
        trace: *const u8,
        trace_len: usize,
        output: *mut u8,
        output_len: usize,
    ) -> u64;
}

unsafe extern "C" {
    fn cuwajimo_compare(
        image: *mut u8,
        image_len: usize,
        damage: *mut u8,
        damage_len: usize,
        first: u32,
        count: u32,
        master: *const u8,
        master_len: usize,
        master_first: u32,
        master_count: u32,
    ) -> u64;
}

/// The first of a run of a flat image's blocks that differs from a master's, by the proved comparison. A run is its first block and how
/// many it has.
pub fn compare(
    image: &mut [u8],
    damage: &mut [u8],
    run: (u32, u32),
    master: &[u8],
    other: (u32, u32),
) -> Option<u32> {
    // SAFETY: as for the calls below.
    let number = unsafe {
        cuwajimo_compare(
            image.as_mut_ptr(),
            image.len(),
            damage.as_mut_ptr(),
            damage.len(),
            run.0,
            run.1,
            master.as_ptr(),
            master.len(),
            other.0,
            other.1,
        )
    };
    u32::try_from(number).ok()
}

/// The proved device.
#[derive(Clone, Copy, Debug)]
pub struct Proved;

impl Side for Proved {
    fn run<Bytes: DerefMut<Target = [u8]>>(
        lent: &mut Lent<Bytes>,
        trace: &[u8],
        output: &mut [u8],
    ) -> u64 {
        // SAFETY, of each call: each pointer comes with its slice's length, and the library keeps none after the call; a raw
        // image's spare places are only read.
        match lent {
            Lent::Flat { image, damage } => unsafe {
                cuwajimo_flat(
                    image.as_mut_ptr(),
                    image.len(),
                    damage.as_mut_ptr(),
                    damage.len(),
                    trace.as_ptr(),
                    trace.len(),
                    output.as_mut_ptr(),
                    output.len(),
                )
            },
            Lent::Raw {
                image,
                spares,
                records,
            } => unsafe {
                cuwajimo_raw(
                    image.as_mut_ptr(),
                    image.len(),
                    spares.as_ptr(),
                    spares.len(),
                    *records,
                    trace.as_ptr(),
                    trace.len(),
                    output.as_mut_ptr(),
                    output.len(),
                )
            },
            Lent::Pile {
                image,
                damage,
                window,
                guard,
            } => unsafe {
                cuwajimo_pile(
                    image.as_mut_ptr(),
                    image.len(),
                    damage.as_mut_ptr(),
                    damage.len(),
                    window.first,
                    window.count,
                    guard.first,
                    guard.count,
                    trace.as_ptr(),
                    trace.len(),
                    output.as_mut_ptr(),
                    output.len(),
                )
            },
        }
    }
}
