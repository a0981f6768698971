//! Traces: many device calls over lent memory, from bytes to bytes. The format is in `docs/TRACE.md`.

use super::cache::Cache;
use super::device::{Device, HOSTS};
use super::flat::FlatImage;
use super::geometry::Geometry;
use super::host::HostFault;
use super::layers::{Run, Window, WriteGuard};
use super::raw::RawImage;
use super::status::Status;
use super::store::{FaultKind, Protection, Store};
use super::ticket::{Returned, Ticket};
use super::units::{Unit, UnitMap};

/// The bytes of an answer.
pub const ANSWER: usize = 16;

/// How a trace ended.
#[derive(Clone, Copy, Debug, PartialEq, Eq)]
pub enum Ending {
    AllMade = 0,
    BadHead = 1,
    ImageRefused = 2,
    NoMap = 3,
    BadCall = 4,
    NoRoom = 5,
}

impl Ending {
    /// The one number that says how a trace ended, and how many bytes it wrote.
    pub fn with(self, written: usize) -> u64 {
        ((self as u64) << 56) | written as u64
    }
}

pub fn flat(image: &mut [u8], damage: &mut [u8], trace: &[u8], output: &mut [u8]) -> u64 {
    let store = FlatImage::open(image, damage, Protection::Open);
    run(store, trace, output)
}

pub fn raw(image: &mut [u8], spares: &[u8], records: u32, trace: &[u8], output: &mut [u8]) -> u64 {
    let store = RawImage::open(image, spares, records, Protection::Open);
    run(store, trace, output)
}

pub fn pile(
    image: &mut [u8],
    damage: &mut [u8],
    window: Run,
    guard: Run,
    trace: &[u8],
    output: &mut [u8],
) -> u64 {
    let store = FlatImage::open(image, damage, Protection::Open)
        .map(|image| Cache::new(WriteGuard::new(Window::new(image, window), guard)));
    run(store, trace, output)
}

/// Makes a trace's calls of a device over a store, if there is one.
fn run<S: Store>(store: Result<S, Status>, trace: &[u8], output: &mut [u8]) -> u64 {
    let (mut session, calls) = match begin(store, trace) {
        Ok(begun) => begun,
        Err(ending) => return ending.with(0),
    };
    let (ending, written) = session.calls(calls, output);
    session.end();
    ending.with(written)
}

/// Reads a trace's head and powers the device on; what is left of the trace is its calls.
pub fn begin<S: Store>(
    store: Result<S, Status>,
    trace: &[u8],
) -> Result<(Session<S>, &[u8]), Ending> {
    let mut trace = Reader(trace);
    let head = Head::read(&mut trace).ok_or(Ending::BadHead)?;
    let store = store.map_err(|_| Ending::ImageRefused)?;
    let map = head.map().map_err(|_| Ending::NoMap)?;
    let device = Device::power_on(head.number, map, store);
    Ok((Session::new(device), trace.0))
}

struct Head<'t> {
    number: u32,
    end: u32,
    units: &'t [[u8; 8]],
}

impl<'t> Head<'t> {
    fn read(trace: &mut Reader<'t>) -> Option<Self> {
        let number = trace.u32()?;
        let end = trace.u32()?;
        let count = usize::from(trace.u8()?);
        let (units, _) = trace.bytes(8 * count)?.as_chunks();
        Some(Self { number, end, units })
    }

    fn map(&self) -> Result<UnitMap, Status> {
        let units: Vec<Unit> = self.units.iter().copied().map(unit).collect();
        UnitMap::new(&units, self.end)
    }
}

fn unit([a, b, c, d, e, f, heads, sectors]: [u8; 8]) -> Unit {
    Unit {
        first: u32::from_be_bytes([a, b, c, d]),
        geometry: Geometry {
            cylinders: u16::from_be_bytes([e, f]),
            heads,
            sectors,
        },
    }
}

/// Reads numbers and bytes off the front of a trace.
struct Reader<'t>(&'t [u8]);

impl<'t> Reader<'t> {
    fn chunk<const N: usize>(&mut self) -> Option<[u8; N]> {
        let (&chunk, rest) = self.0.split_first_chunk()?;
        self.0 = rest;
        Some(chunk)
    }

    fn bytes(&mut self, count: usize) -> Option<&'t [u8]> {
        let (bytes, rest) = self.0.split_at_checked(count)?;
        self.0 = rest;
        Some(bytes)
    }

    fn u8(&mut self) -> Option<u8> {
        self.chunk().map(|[byte]| byte)
    }

    fn u16(&mut self) -> Option<u16> {
        self.chunk().map(u16::from_be_bytes)
    }

    fn u32(&mut self) -> Option<u32> {
        self.chunk().map(u32::from_be_bytes)
    }
}

/// One call of a trace.
#[derive(Clone, Copy, Debug, PartialEq, Eq)]
pub struct Call<'t> {
    pub host: u8,
    pub kind: Kind<'t>,
}

#[derive(Clone, Copy, Debug, PartialEq, Eq)]
pub enum Kind<'t> {
    Command(&'t [u8]),
    Segment(Buffer<'t>),
    Report(Buffer<'t>),
    Cancel,
    Clear,
    Notice,
    Fault,
    Parameters,
    Locks,
    Activity,
}

/// The size of a call's buffer, and the bytes laid into its front.
#[derive(Clone, Copy, Debug, PartialEq, Eq)]
pub struct Buffer<'t> {
    pub size: usize,
    pub given: &'t [u8],
}

impl<'t> Call<'t> {
    /// Reads the first call off the front of `calls`: none if it is not whole, or of no kind.
    #[inline]
    pub fn read(calls: &mut &'t [u8]) -> Option<Self> {
        let mut reader = Reader(calls);
        let call = Self::take(&mut reader)?;
        *calls = reader.0;
        Some(call)
    }

    #[inline]
    fn take(calls: &mut Reader<'t>) -> Option<Self> {
        let [kind, host] = calls.chunk()?;
        let kind = match kind {
            0 => {
                let length = calls.u16()?;
                Kind::Command(calls.bytes(length.into())?)
            }
            1 => Kind::Segment(Buffer::read(calls)?),
            2 => Kind::Report(Buffer::read(calls)?),
            3 => Kind::Cancel,
            4 => Kind::Clear,
            5 => Kind::Notice,
            6 => Kind::Fault,
            7 => Kind::Parameters,
            8 => Kind::Locks,
            9 => Kind::Activity,
            _ => return None,
        };
        Some(Self { host, kind })
    }

    /// The size of the buffer that stands behind the call's answer.
    #[inline]
    pub fn buffer_size(&self) -> usize {
        match self.kind {
            Kind::Segment(buffer) | Kind::Report(buffer) => buffer.size,
            _ => 0,
        }
    }
}

impl<'t> Buffer<'t> {
    #[inline]
    fn read(calls: &mut Reader<'t>) -> Option<Self> {
        let size = calls.u32()? as usize;
        let given = calls.u32()? as usize;
        if given > size {
            return None;
        }
        let given = calls.bytes(given)?;
        Some(Self { size, given })
    }
}

/// What a call answers, before it is bytes.
enum Answer {
    Refused(Status),
    Done,
    Has(Next),
    NoTicket,
    Notice(Status),
    Fault(HostFault),
    Parameters(super::message::Parameters),
    Locks(super::host::Locks),
    Activity(u64),
}

/// The kind of ticket that a host now has.
enum Next {
    Execution,
    Report,
}

impl Answer {
    #[inline]
    fn write(&self, place: &mut [u8; ANSWER]) {
        *place = [0; ANSWER];
        let mut set = |first: u8, rest: &[u8]| {
            place[0] = first;
            place[1..=rest.len()].copy_from_slice(rest);
        };
        match *self {
            Self::Refused(status) => set(0, &numbers(status)),
            Self::Done => set(1, &[]),
            Self::Has(Next::Execution) => set(2, &[]),
            Self::Has(Next::Report) => set(3, &[]),
            Self::NoTicket => set(4, &[]),
            Self::Notice(status) => set(5, &numbers(status)),
            Self::Fault(met) => {
                let [a, b, c, d] = met.fault.block.to_be_bytes();
                let [e, f, g, h] = met.address.to_be_bytes();
                let kind = match met.fault.kind {
                    FaultKind::Length => 0,
                    FaultKind::Beyond => 1,
                    FaultKind::Damaged => 2,
                    FaultKind::Protected => 3,
                };
                set(6, &[kind, a, b, c, d, met.unit, e, f, g, h]);
            }
            Self::Parameters(parameters) => {
                let [a, b, c, d] = parameters.address.to_be_bytes();
                let [e, f, g, h] = parameters.length.to_be_bytes();
                set(7, &[parameters.unit, a, b, c, d, e, f, g, h]);
            }
            Self::Locks(locks) => {
                let [high, low] = locks.units.to_be_bytes();
                set(8, &[locks.device.into(), high, low]);
            }
            Self::Activity(count) => set(9, &count.to_be_bytes()),
        }
    }
}

fn numbers(status: Status) -> [u8; 2] {
    let (group, code) = status.numbers();
    [group, code]
}

/// A device, and the ticket that each host has.
#[derive(Debug)]
pub struct Session<S> {
    device: Device<S>,
    tickets: [Option<Ticket>; HOSTS],
}

impl<S: Store> Session<S> {
    fn new(device: Device<S>) -> Self {
        Self {
            device,
            tickets: [const { None }; HOSTS],
        }
    }

    pub fn device(&self) -> &Device<S> {
        &self.device
    }

    /// Makes calls as long as there are any: how it ended, and how many bytes of the output were written.
    pub fn calls(&mut self, mut calls: &[u8], output: &mut [u8]) -> (Ending, usize) {
        let mut written = 0;
        while !calls.is_empty() {
            let Some(call) = Call::read(&mut calls) else {
                return (Ending::BadCall, written);
            };
            let Some(room) = output[written..].get_mut(..ANSWER + call.buffer_size()) else {
                return (Ending::NoRoom, written);
            };
            written += room.len();
            if let Some((place, buffer)) = room.split_first_chunk_mut() {
                self.call(call, buffer).write(place);
            }
        }
        (Ending::AllMade, written)
    }

    /// Cancels the open tickets and powers the device off.
    pub fn end(mut self) -> S {
        for ticket in self.tickets.iter_mut().filter_map(Option::take) {
            let cancelled = self.device.cancel(ticket);
            debug_assert!(cancelled.is_ok());
        }
        self.device.power_off()
    }

    #[inline]
    fn call(&mut self, Call { host, kind }: Call<'_>, buffer: &mut [u8]) -> Answer {
        match kind {
            Kind::Command(message) => {
                let answer = self.device.command(host, message);
                answer.map_or_else(Answer::Refused, |ticket| self.keep(host, ticket))
            }
            Kind::Segment(lent) => {
                buffer[..lent.given.len()].copy_from_slice(lent.given);
                self.segment(host, buffer)
            }
            Kind::Report(lent) => {
                buffer[..lent.given.len()].copy_from_slice(lent.given);
                self.report(host, buffer)
            }
            Kind::Cancel => self.cancel(host),
            Kind::Clear => {
                let answer = self.device.clear(host);
                answer.map_or_else(Answer::Refused, |()| Answer::Done)
            }
            Kind::Notice => {
                let answer = self.device.notice(host);
                answer.map_or_else(Answer::Refused, |notice| {
                    notice.map_or(Answer::Done, Answer::Notice)
                })
            }
            Kind::Fault => {
                let answer = self.device.fault(host);
                answer.map_or_else(Answer::Refused, |fault| {
                    fault.map_or(Answer::Done, Answer::Fault)
                })
            }
            Kind::Parameters => {
                let answer = self.device.parameters(host);
                answer.map_or_else(Answer::Refused, Answer::Parameters)
            }
            Kind::Locks => {
                let answer = self.device.locks(host);
                answer.map_or_else(Answer::Refused, Answer::Locks)
            }
            Kind::Activity => Answer::Activity(self.device.activity()),
        }
    }

    /// Keeps a ticket for its host's next call.
    fn keep(&mut self, host: u8, ticket: Ticket) -> Answer {
        let next = match ticket {
            Ticket::Execution(_) => Next::Execution,
            Ticket::Report(_) => Next::Report,
        };
        self.put_back(host, ticket);
        Answer::Has(next)
    }

    fn put_back(&mut self, host: u8, ticket: Ticket) {
        if let Some(place) = self.tickets.get_mut(usize::from(host)) {
            *place = Some(ticket);
        }
    }

    fn refuse(&mut self, host: u8, ticket: Ticket, status: Status) -> Answer {
        self.put_back(host, ticket);
        Answer::Refused(status)
    }

    fn taken(&mut self, host: u8) -> Option<Ticket> {
        self.tickets.get_mut(usize::from(host))?.take()
    }

    fn segment(&mut self, host: u8, buffer: &mut [u8]) -> Answer {
        match self.taken(host) {
            Some(Ticket::Execution(ticket)) => match self.device.segment(ticket, buffer) {
                Ok(next) => self.keep(host, next),
                Err(Returned { ticket, status }) => {
                    self.refuse(host, Ticket::Execution(ticket), status)
                }
            },
            other => self.without(host, other),
        }
    }

    fn report(&mut self, host: u8, buffer: &mut [u8]) -> Answer {
        match self.taken(host) {
            Some(Ticket::Report(ticket)) => match self.device.report(ticket, buffer) {
                Ok(()) => Answer::Done,
                Err(Returned { ticket, status }) => {
                    self.refuse(host, Ticket::Report(ticket), status)
                }
            },
            other => self.without(host, other),
        }
    }

    /// Answers that there is no ticket of a call's kind; the one of the other kind stays.
    fn without(&mut self, host: u8, ticket: Option<Ticket>) -> Answer {
        if let Some(ticket) = ticket {
            self.put_back(host, ticket);
        }
        Answer::NoTicket
    }

    fn cancel(&mut self, host: u8) -> Answer {
        match self.taken(host) {
            Some(ticket) => match self.device.cancel(ticket) {
                Ok(()) => Answer::Done,
                Err(Returned { ticket, status }) => self.refuse(host, ticket, status),
            },
            None => Answer::NoTicket,
        }
    }
}
