//! Cases from a seed: the memory, and a trace that goes deep because its calls are chosen by what was answered before.

use super::case::{Case, Entry, Lent};
use super::messages::{Maker, Taste};
use super::random::Random;
use super::reading::head_length;
use super::writing::head;
use crate::plain::cache::Cache;
use crate::plain::device::HOSTS;
use crate::plain::flat::FlatImage;
use crate::plain::geometry::Geometry;
use crate::plain::layers::{Run, Window, WriteGuard};
use crate::plain::message::WHOLE_UNIT;
use crate::plain::raw::{RECORD, RawImage};
use crate::plain::status::Status;
use crate::plain::store::{BLOCK, MOST_BLOCKS, Protection, Store};
use crate::plain::trace::{ANSWER, Buffer, Call, Kind, Session, begin};
use crate::plain::units::Unit;

/// How much of a case there is.
#[derive(Clone, Copy, Debug, PartialEq, Eq)]
pub enum Size {
    /// Some tens of calls.
    Short,
    /// Many thousands.
    Long,
    /// Many thousands over the largest store.
    Large,
}

/// Makes a case. Some of the short ones have something wrong with them.
pub fn case(entry: Entry, size: Size, seed: u64) -> Case {
    let mut random = Random::new(seed);
    let (mut units, mut end) = units(size, &mut random);
    if size == Size::Short && random.percent(8) {
        nudge(&mut units, &mut end, &mut random);
    }
    let blocks = store_size(end, size, &mut random);
    let lent = memory(entry, blocks, &mut random);
    let number = random.word() as u32;
    let mut trace = head(number, end, &units);
    if size == Size::Short && random.percent(5) {
        spoil_head(&mut trace, &mut random);
    }
    let calls = match size {
        Size::Short => random.within(5, 150),
        Size::Long | Size::Large => random.within(10_000, 14_000),
    };
    let room = converse(&lent, &units, &mut trace, calls, &mut random);
    let mut case = Case {
        seed,
        lent,
        trace,
        output: random.bytes(room),
    };
    if size == Size::Short && random.percent(20) {
        spoil(&mut case, &mut random);
    }
    case
}

/// Some units, mostly apart from one another, and a stated end.
fn units(size: Size, random: &mut Random) -> (Vec<Unit>, u32) {
    let count = match random.below(10) {
        0..6 => random.within(1, 4),
        6..9 => random.within(2, 15),
        _ => 15,
    };
    let large = random.percent(30);
    let mut next = if size == Size::Large {
        MOST_BLOCKS - 20_000
    } else {
        0
    };
    let mut units: Vec<Unit> = (0..count)
        .map(|_| {
            let geometry = Geometry {
                cylinders: random.within(1, if large { 40 } else { 6 }) as u16,
                heads: random.within(1, 4) as u8,
                sectors: random.within(1, 8) as u8,
            };
            let gap = if random.percent(30) {
                random.below(9)
            } else {
                0
            };
            let first = next + gap;
            next = first + geometry.size();
            Unit { first, geometry }
        })
        .collect();
    if random.percent(20) {
        units.reverse();
    }
    let end = match size {
        Size::Large => MOST_BLOCKS,
        _ => next + random.below(3),
    };
    (units, end)
}

/// Moves a unit, its end or the stated end by one, so that a map is made or only just not.
fn nudge(units: &mut [Unit], end: &mut u32, random: &mut Random) {
    let count = units.len() as u32;
    let unit = &mut units[random.below(count) as usize];
    match random.below(5) {
        0 => unit.first = unit.first.saturating_sub(1),
        1 => unit.first += 1,
        2 => unit.geometry.cylinders += 1,
        3 => unit.geometry.sectors -= 1,
        _ => *end = (*end).max(2) - 1,
    }
}

/// How many blocks the store is to have: now and then too few.
fn store_size(end: u32, size: Size, random: &mut Random) -> u32 {
    match size {
        Size::Short if random.percent(2) => end - 1,
        Size::Large => MOST_BLOCKS,
        _ => end + random.below(10),
    }
}

fn memory(entry: Entry, blocks: u32, random: &mut Random) -> Lent {
    match entry {
        Entry::Flat => {
            let (image, damage) = flat_memory(blocks, random);
            Lent::Flat { image, damage }
        }
        Entry::Raw => raw_memory(blocks, random),
        Entry::Pile => {
            let before = if blocks == MOST_BLOCKS {
                0
            } else {
                random.below(10)
            };
            let after = if blocks == MOST_BLOCKS {
                0
            } else {
                random.below(10)
            };
            let (image, damage) = flat_memory(before + blocks + after, random);
            let count = if random.percent(10) { u32::MAX } else { blocks };
            let window = Run {
                first: before,
                count,
            };
            let guard = guard(blocks, random);
            Lent::Pile {
                image,
                damage,
                window,
                guard,
            }
        }
    }
}

fn guard(blocks: u32, random: &mut Random) -> Run {
    let near = blocks.min(20_000);
    let (first, count) = match random.below(10) {
        0 => (0, 0),
        1 => (random.below(blocks + 5), u32::MAX),
        2 => (random.word() as u32, random.word() as u32),
        3 => (0, u32::MAX),
        _ => (
            blocks - near + random.below(near),
            random.below(near / 3 + 2),
        ),
    };
    Run { first, count }
}

/// How many blocks of a hundred are damaged.
fn damaged(random: &mut Random) -> u32 {
    random.pick(&[0, 1, 5, 5, 20, 60])
}

fn flat_memory(blocks: u32, random: &mut Random) -> (Vec<u8>, Vec<u8>) {
    let image = random.bytes(blocks as usize * BLOCK);
    let chance = damaged(random);
    let damage = (0..blocks.div_ceil(8))
        .map(|_| (0..8).fold(0, |bits, _| bits << 1 | u8::from(random.percent(chance))))
        .collect();
    (image, damage)
}

fn raw_memory(blocks: u32, random: &mut Random) -> Lent {
    let records = match random.below(10) {
        0 => 2,
        1 => 256,
        _ => random.within(2, 40),
    };
    let mut tracks = blocks.div_ceil(records - 1);
    if tracks * (records - 1) > MOST_BLOCKS {
        tracks -= 1;
    }
    let spares: Vec<u8> = (0..tracks).map(|_| random.below(records) as u8).collect();
    let mut image = random.bytes(RECORD * (records * tracks) as usize);
    let chance = damaged(random);
    for record in image.chunks_exact_mut(RECORD) {
        record[0] = if random.percent(chance) {
            random.byte()
        } else {
            0
        };
    }
    Lent::Raw {
        image,
        spares,
        records,
    }
}

/// Chooses calls over a copy of the memory; gives the bytes of output that they need.
fn converse(
    lent: &Lent,
    units: &[Unit],
    trace: &mut Vec<u8>,
    calls: u32,
    random: &mut Random,
) -> usize {
    match lent.clone() {
        Lent::Flat {
            mut image,
            mut damage,
        } => {
            let store = FlatImage::open(&mut image, &mut damage, Protection::Open);
            talk(store, units, trace, calls, random)
        }
        Lent::Raw {
            mut image,
            spares,
            records,
        } => {
            let store = RawImage::open(&mut image, &spares, records, Protection::Open);
            talk(store, units, trace, calls, random)
        }
        Lent::Pile {
            mut image,
            mut damage,
            window,
            guard,
        } => {
            let store = FlatImage::open(&mut image, &mut damage, Protection::Open)
                .map(|image| Cache::new(WriteGuard::new(Window::new(image, window), guard)));
            talk(store, units, trace, calls, random)
        }
    }
}

fn talk<S: Store>(
    store: Result<S, Status>,
    units: &[Unit],
    trace: &mut Vec<u8>,
    calls: u32,
    random: &mut Random,
) -> usize {
    let Ok((session, _)) = begin(store, trace) else {
        // Nothing answers, so calls of the right form are all that there is to choose.
        for host in 0..HOSTS as u8 {
            Call {
                host,
                kind: Kind::Clear,
            }
            .write(trace);
        }
        return ANSWER * HOSTS;
    };
    let mut talk = Talk::new(session, units, random);
    talk.start(trace);
    for _ in 0..calls {
        talk.step(trace);
    }
    talk.room
}

/// What a host is known to have.
#[derive(Clone, Copy, Debug, PartialEq, Eq)]
enum Holds {
    Nothing,
    /// An execution ticket, with so many blocks left.
    Execution(u32),
    Report,
}

/// How a case's hosts go about things.
#[derive(Clone, Copy, Debug)]
struct Habits {
    hosts: u32,
    /// Of a hundred calls, how many do what the host's ticket is for.
    diligence: u32,
    taste: Taste,
}

impl Habits {
    fn new(random: &mut Random) -> Self {
        let commands = random.pick(&[
            [3, 10, 10, 6, 3, 1, 4, 1, 2],
            [1, 10, 10, 10, 1, 0, 0, 0, 0],
            [4, 4, 4, 4, 4, 5, 10, 3, 3],
            [1, 3, 20, 3, 2, 0, 2, 0, 0],
        ]);
        let blocks = random.pick(&[3, 10, 80]);
        Self {
            hosts: random.pick(&[1, 2, 3, 5, 8, 8]),
            diligence: random.pick(&[50, 80, 90, 97]),
            taste: Taste { commands, blocks },
        }
    }
}

struct Talk<'a, S> {
    session: Session<S>,
    units: &'a [Unit],
    random: &'a mut Random,
    habits: Habits,
    holds: [Holds; HOSTS],
    scratch: Vec<u8>,
    /// The bytes of output that the calls so far need.
    room: usize,
}

impl<'a, S: Store> Talk<'a, S> {
    fn new(session: Session<S>, units: &'a [Unit], random: &'a mut Random) -> Self {
        let habits = Habits::new(random);
        Self {
            session,
            units,
            random,
            habits,
            holds: [Holds::Nothing; HOSTS],
            scratch: vec![0; 16_384],
            room: 0,
        }
    }

    /// Most hosts clear before anything else.
    fn start(&mut self, trace: &mut Vec<u8>) {
        for host in 0..HOSTS as u8 {
            if self.random.percent(90) {
                self.call(trace, host, Kind::Clear);
            }
        }
    }

    fn step(&mut self, trace: &mut Vec<u8>) {
        if self.random.percent(1) {
            let host = self.random.byte();
            return self.any(trace, host);
        }
        let host = self.random.below(self.habits.hosts) as u8;
        if self.random.percent(8) {
            return self.look(trace, host);
        }
        if !self.random.percent(self.habits.diligence) {
            return self.any(trace, host);
        }
        match self.holds[usize::from(host)] {
            Holds::Nothing => self.command(trace, host),
            Holds::Execution(left) => {
                let longer = if self.random.percent(10) {
                    self.random.below(600)
                } else {
                    0
                };
                let size = left.min(32) as usize * BLOCK + longer as usize;
                self.segment(trace, host, size);
            }
            Holds::Report => {
                let size = 13
                    + if self.random.percent(20) {
                        self.random.below(9)
                    } else {
                        0
                    };
                self.report(trace, host, size as usize);
            }
        }
    }

    /// Asks what a host was left with.
    fn look(&mut self, trace: &mut Vec<u8>, host: u8) {
        let kind = match self.random.weighted(&[8, 8, 2, 2, 1]) {
            0 => Kind::Notice,
            1 => Kind::Fault,
            2 => Kind::Parameters,
            3 => Kind::Locks,
            _ => Kind::Activity,
        };
        self.call(trace, host, kind);
    }

    /// A call of any kind, whether it makes sense or not.
    fn any(&mut self, trace: &mut Vec<u8>, host: u8) {
        let size = match self.random.below(4) {
            0 => 0,
            1 => self.random.below(30) as usize,
            2 => self.random.below(40) as usize * BLOCK,
            _ => self.random.below(4) as usize * BLOCK,
        };
        match self.random.weighted(&[10, 8, 6, 4, 4, 12, 12, 10, 10, 6]) {
            0 => self.command(trace, host),
            1 => self.segment(trace, host, size),
            2 => self.report(trace, host, size),
            3 => self.call(trace, host, Kind::Cancel),
            4 => self.call(trace, host, Kind::Clear),
            5 => self.call(trace, host, Kind::Notice),
            6 => self.call(trace, host, Kind::Fault),
            7 => self.call(trace, host, Kind::Parameters),
            8 => self.call(trace, host, Kind::Locks),
            _ => self.call(trace, host, Kind::Activity),
        }
    }

    fn command(&mut self, trace: &mut Vec<u8>, host: u8) {
        let device = self.session.device();
        // A host that there is not gets the messages of host 0.
        let like = if usize::from(host) < HOSTS { host } else { 0 };
        let (Ok(own), Ok(locks)) = (device.parameters(like), device.locks(like)) else {
            return;
        };
        let maker = Maker {
            units: self.units,
            own,
            locks,
            taste: self.habits.taste,
        };
        let message = maker.message(self.random);
        self.call(trace, host, Kind::Command(&message));
    }

    /// A segment with a buffer of this size, of which some bytes may be given.
    fn segment(&mut self, trace: &mut Vec<u8>, host: u8, size: usize) {
        let given = self.given(size);
        let given = &given;
        self.call(trace, host, Kind::Segment(Buffer { size, given }));
    }

    /// A report likewise.
    fn report(&mut self, trace: &mut Vec<u8>, host: u8, size: usize) {
        let given = self.given(size);
        let given = &given;
        self.call(trace, host, Kind::Report(Buffer { size, given }));
    }

    /// Bytes for a buffer of this size: mostly none, else for all of it or its front.
    fn given(&mut self, size: usize) -> Vec<u8> {
        let count = match self.random.below(8) {
            0 => size,
            1 => place(size, self.random),
            _ => 0,
        };
        self.random.bytes(count)
    }

    /// Makes a call, and marks what its host has after it.
    fn call(&mut self, trace: &mut Vec<u8>, host: u8, kind: Kind<'_>) {
        let from = trace.len();
        Call { host, kind }.write(trace);
        let (_, written) = self.session.calls(&trace[from..], &mut self.scratch);
        self.room += written;
        let allowed = self.blocks_asked(host);
        let Some(holds) = self.holds.get_mut(usize::from(host)) else {
            return;
        };
        match (self.scratch[0], kind) {
            (1, Kind::Report(_) | Kind::Cancel) => *holds = Holds::Nothing,
            (2, Kind::Segment(_)) => {
                if let Holds::Execution(left) = holds {
                    *left = left.saturating_sub(32);
                }
            }
            (2, _) => *holds = Holds::Execution(allowed),
            (3, _) => *holds = Holds::Report,
            _ => {}
        }
    }

    /// How many blocks a host's length says.
    fn blocks_asked(&self, host: u8) -> u32 {
        let Ok(own) = self.session.device().parameters(host) else {
            return 0;
        };
        match own.length {
            WHOLE_UNIT => self
                .units
                .get(usize::from(own.unit))
                .map_or(0, |unit| unit.geometry.size()),
            bytes => bytes / BLOCK as u32,
        }
    }
}

/// Makes the head one that is refused, mostly.
fn spoil_head(trace: &mut [u8], random: &mut Random) {
    let place = random.within(4, trace.len() as u32 - 1) as usize;
    trace[place] = match random.below(3) {
        0 => 0,
        1 => random.byte(),
        _ => trace[place].wrapping_add(1),
    };
}

/// Puts something wrong into a case: trace, memory or output.
fn spoil(case: &mut Case, random: &mut Random) {
    match random.below(11) {
        0 => case.trace.truncate(place(case.trace.len(), random)),
        1 => {
            let head = head_length(&case.trace).unwrap_or(0);
            case.trace.truncate(place(head, random));
        }
        2..5 => spoil_calls(&mut case.trace, random),
        5 => resize(case.lent.image_mut(), random),
        6 => resize(case.lent.beside_mut(), random),
        7 => spoil_numbers(&mut case.lent, random),
        8 => add_bad_call(&mut case.trace, random),
        9 => {
            let room = case.output.len();
            case.output.truncate(room - place(room.min(20), random));
        }
        _ => case.output.truncate(place(case.output.len(), random)),
    }
}

fn place(length: usize, random: &mut Random) -> usize {
    random.below(length as u32 + 1) as usize
}

/// Changes some bytes of the calls, so that lengths and kinds come out wrong.
fn spoil_calls(trace: &mut Vec<u8>, random: &mut Random) {
    let Some(from) = head_length(trace) else {
        return;
    };
    for _ in 0..random.within(1, 3) {
        let at = from + place(trace.len() - from, random);
        match random.below(3) {
            0 => trace.insert(at, random.byte()),
            _ if at == trace.len() => trace.push(random.byte()),
            1 => trace[at] = random.byte(),
            _ => {
                trace.remove(at);
            }
        }
    }
}

/// Adds a call of no kind, or one that gives more bytes than its buffer has.
fn add_bad_call(trace: &mut Vec<u8>, random: &mut Random) {
    let host = random.below(8) as u8;
    if random.percent(50) {
        trace.extend([random.pick(&[10, 11, 16, 128, 255]), host]);
        return;
    }
    let size = random.below(20);
    let more = random.within(1, 2);
    let given = random.bytes((size + more) as usize);
    trace.extend([random.within(1, 2) as u8, host]);
    trace.extend(size.to_be_bytes());
    trace.extend((given.len() as u32).to_be_bytes());
    trace.extend(given);
}

fn resize(bytes: &mut Vec<u8>, random: &mut Random) {
    let length = match random.below(5) {
        0 => bytes.len() + 1,
        1 => bytes.len().saturating_sub(1),
        2 => bytes.len() + BLOCK,
        3 => bytes.len().saturating_sub(RECORD),
        _ => place(bytes.len(), random),
    };
    bytes.resize(length, 0);
}

fn spoil_numbers(lent: &mut Lent, random: &mut Random) {
    match lent {
        Lent::Flat { damage, .. } => damage.clear(),
        Lent::Raw {
            spares, records, ..
        } => match random.below(3) {
            0 => *records = random.pick(&[0, 1, 2, 255, 256, 257, u32::MAX, 1 << 31]),
            1 => *records += 1,
            _ => {
                if let Some(spare) = spares.last_mut() {
                    *spare = (*spare).max(*records as u8);
                }
            }
        },
        Lent::Pile { window, guard, .. } => {
            let number = random.pick(&[0, 1, 7, u32::MAX, u32::MAX - 1, 1 << 31]);
            match random.below(4) {
                0 => window.first = number,
                1 => window.count = number,
                2 => guard.first = number,
                _ => guard.count = number,
            }
        }
    }
}
