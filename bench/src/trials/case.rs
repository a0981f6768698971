//! One trace, with the memory that it is run over.

use crate::plain::layers::Run;
use crate::plain::trace;
use std::ops::DerefMut;

/// Which of the three entry points a case goes through.
#[derive(Clone, Copy, Debug, PartialEq, Eq)]
pub enum Entry {
    Flat,
    Raw,
    Pile,
}

impl Entry {
    pub const ALL: [Self; 3] = [Self::Flat, Self::Raw, Self::Pile];
}

/// A store's memory, and the numbers that go with it.
#[derive(Clone, Debug)]
pub enum Lent<Bytes = Vec<u8>> {
    Flat {
        image: Bytes,
        damage: Bytes,
    },
    Raw {
        image: Bytes,
        spares: Bytes,
        records: u32,
    },
    Pile {
        image: Bytes,
        damage: Bytes,
        window: Run,
        guard: Run,
    },
}

#[derive(Clone, Debug)]
pub struct Case {
    pub seed: u64,
    pub lent: Lent,
    pub trace: Vec<u8>,
    pub output: Vec<u8>,
}

/// One of the two devices.
pub trait Side {
    /// Runs a trace over lent memory, by the entry point that is the memory's.
    fn run<Bytes: DerefMut<Target = [u8]>>(
        lent: &mut Lent<Bytes>,
        trace: &[u8],
        output: &mut [u8],
    ) -> u64;
}

/// The device in plain Rust.
#[derive(Clone, Copy, Debug)]
pub struct Plain;

impl Side for Plain {
    fn run<Bytes: DerefMut<Target = [u8]>>(
        lent: &mut Lent<Bytes>,
        trace: &[u8],
        output: &mut [u8],
    ) -> u64 {
        match lent {
            Lent::Flat { image, damage } => trace::flat(image, damage, trace, output),
            Lent::Raw {
                image,
                spares,
                records,
            } => trace::raw(image, spares, *records, trace, output),
            Lent::Pile {
                image,
                damage,
                window,
                guard,
            } => trace::pile(image, damage, *window, *guard, trace, output),
        }
    }
}

impl<Bytes> Lent<Bytes> {
    pub fn image(&self) -> &Bytes {
        match self {
            Self::Flat { image, .. } | Self::Raw { image, .. } | Self::Pile { image, .. } => image,
        }
    }

    pub fn image_mut(&mut self) -> &mut Bytes {
        match self {
            Self::Flat { image, .. } | Self::Raw { image, .. } | Self::Pile { image, .. } => image,
        }
    }

    /// The damage map, or the places of the spare records.
    pub fn beside(&self) -> &Bytes {
        match self {
            Self::Flat { damage, .. } | Self::Pile { damage, .. } => damage,
            Self::Raw { spares, .. } => spares,
        }
    }

    pub fn beside_mut(&mut self) -> &mut Bytes {
        match self {
            Self::Flat { damage, .. } | Self::Pile { damage, .. } => damage,
            Self::Raw { spares, .. } => spares,
        }
    }
}

impl Case {
    /// Runs the trace over the case's memory and output.
    pub fn run<S: Side>(&mut self) -> u64 {
        S::run(&mut self.lent, &self.trace, &mut self.output)
    }
}
