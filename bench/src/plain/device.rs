//! The device: eight hosts over one store.

use super::description::description;
use super::host::{Host, HostFault, Locks, Want};
use super::message::{Command, Message, Parameters, decode};
use super::status::Status;
use super::store::Store;
use super::ticket::{Bearer, ExecutionTicket, ReportTicket, Returned, Ticket};
use super::transaction::{Phase, REPORT, Transaction};
use super::units::{CONTROLLER, UnitMap};

pub const HOSTS: usize = 8;

#[derive(Debug)]
pub struct Device<S> {
    number: u32,
    map: UnitMap,
    hosts: [Host; HOSTS],
    /// How many blocks segments have asked the store for.
    activity: u64,
    store: S,
}

impl<S: Store> Device<S> {
    pub fn power_on(number: u32, map: UnitMap, store: S) -> Self {
        Self {
            number,
            map,
            hosts: [Host::AT_POWER_ON; HOSTS],
            activity: 0,
            store,
        }
    }

    /// Settles the store and hands it back.
    pub fn power_off(mut self) -> S {
        self.store.settle();
        self.store
    }

    pub fn command(&mut self, host: u8, bytes: &[u8]) -> Result<Ticket, Status> {
        let record = self.record(host)?;
        if self.store.size() < self.map.end() {
            return Err(Status::StoreTooSmall);
        }
        if record.transaction.is_some() {
            return Err(Status::MessageSequence);
        }
        if record.interlocked {
            return Err(Status::PowerOn);
        }
        match decode(&self.map, record.parameters, bytes) {
            Ok(message) => self.obey(host, message),
            Err(status) => {
                if status == Status::AddressBounds {
                    self.host(host)?.parameters.address = 0;
                }
                Err(status)
            }
        }
    }

    /// Takes a message that could be read, unless its unit or another host forbids it.
    fn obey(&mut self, host: u8, mut message: Message) -> Result<Ticket, Status> {
        let unit = message.parameters.unit;
        if message.command.is_some_and(Command::is_on_unit) && unit == CONTROLLER {
            return Err(Status::ModuleAddressing);
        }
        let want = Want::of(&message);
        let hindered = self.hindered(host, want);
        let record = &mut self.hosts[usize::from(host)];
        if hindered {
            record.wait = Some(want);
            return Err(Status::ResourceUnavailable);
        }
        let transaction = Transaction::open(&mut message, self.map.unit(unit));
        let phase = transaction.phase();
        record.accept(&message, transaction);
        self.judge_waits();
        Ok(self.ticket(host, phase))
    }

    pub fn segment(
        &mut self,
        ticket: ExecutionTicket,
        buffer: &mut [u8],
    ) -> Result<Ticket, Returned<ExecutionTicket>> {
        let bearer = ticket.bearer();
        match self.move_segment(bearer, buffer) {
            Ok(phase) => Ok(self.ticket(bearer.host, phase)),
            Err(status) => Err(Returned { ticket, status }),
        }
    }

    #[inline]
    fn move_segment(&mut self, bearer: Bearer, buffer: &mut [u8]) -> Result<Phase, Status> {
        let record = fitting(self.number, &mut self.hosts, bearer)?;
        let transaction = in_phase(record.transaction.as_mut(), Phase::Execution)?;
        if transaction.is_describing() {
            transaction.describe(&description(&self.map, bearer.host), buffer)?;
            return Ok(transaction.phase());
        }
        let number = transaction.unit();
        let unit = self.map.unit(number).ok_or(Status::MessageSequence)?;
        let next = transaction.next();
        let tried = transaction.move_segment(&mut self.store, unit.first, buffer)?;
        if tried.blocks > 0 {
            record.parameters.address = next + tried.blocks;
        }
        if let Some((fault, address)) = tried.fault {
            record.fault.get_or_insert(HostFault {
                fault,
                unit: number,
                address,
            });
        }
        self.activity = self.activity.saturating_add(tried.blocks.into());
        Ok(transaction.phase())
    }

    pub fn report(
        &mut self,
        ticket: ReportTicket,
        buffer: &mut [u8],
    ) -> Result<(), Returned<ReportTicket>> {
        self.write_report(ticket.bearer(), buffer)
            .map_err(|status| Returned { ticket, status })
    }

    fn write_report(&mut self, bearer: Bearer, buffer: &mut [u8]) -> Result<(), Status> {
        let record = fitting(self.number, &mut self.hosts, bearer)?;
        let transaction = in_phase(record.transaction.as_mut(), Phase::Report)?;
        let place = buffer.get_mut(..REPORT).ok_or(Status::BadBuffer)?;
        place.copy_from_slice(&transaction.report());
        record.transaction = None;
        self.judge_waits();
        Ok(())
    }

    pub fn cancel(&mut self, ticket: Ticket) -> Result<(), Returned<Ticket>> {
        let (bearer, phase) = match &ticket {
            Ticket::Execution(ticket) => (ticket.bearer(), Phase::Execution),
            Ticket::Report(ticket) => (ticket.bearer(), Phase::Report),
        };
        self.drop_transaction(bearer, phase)
            .map_err(|status| Returned { ticket, status })
    }

    fn drop_transaction(&mut self, bearer: Bearer, phase: Phase) -> Result<(), Status> {
        let record = fitting(self.number, &mut self.hosts, bearer)?;
        in_phase(record.transaction.as_mut(), phase)?;
        record.transaction = None;
        self.judge_waits();
        Ok(())
    }

    pub fn clear(&mut self, host: u8) -> Result<(), Status> {
        let record = self.host(host)?;
        if record.transaction.is_some() {
            return Err(Status::MessageSequence);
        }
        *record = Host::CLEARED;
        self.judge_waits();
        Ok(())
    }

    /// Hands the host's notice over, which is then gone.
    pub fn notice(&mut self, host: u8) -> Result<Option<Status>, Status> {
        Ok(self.host(host)?.notice.take())
    }

    pub fn fault(&mut self, host: u8) -> Result<Option<HostFault>, Status> {
        Ok(self.host(host)?.fault)
    }

    pub fn parameters(&self, host: u8) -> Result<Parameters, Status> {
        Ok(self.record(host)?.parameters)
    }

    pub fn locks(&self, host: u8) -> Result<Locks, Status> {
        Ok(self.record(host)?.locks)
    }

    pub fn activity(&self) -> u64 {
        self.activity
    }

    pub fn size(&self) -> u32 {
        self.store.size()
    }

    fn record(&self, host: u8) -> Result<&Host, Status> {
        self.hosts.get(usize::from(host)).ok_or(Status::BadHost)
    }

    fn host(&mut self, host: u8) -> Result<&mut Host, Status> {
        self.hosts.get_mut(usize::from(host)).ok_or(Status::BadHost)
    }

    fn ticket(&self, host: u8, phase: Phase) -> Ticket {
        let bearer = Bearer {
            device: self.number,
            host,
        };
        match phase {
            Phase::Execution => Ticket::Execution(ExecutionTicket::new(bearer)),
            Phase::Report => Ticket::Report(ReportTicket::new(bearer)),
        }
    }

    /// Whether another host stands in this one's way.
    fn hindered(&self, host: u8, want: Want) -> bool {
        (0..)
            .zip(&self.hosts)
            .any(|(other, record)| other != host && record.hinders(want))
    }

    /// Ends the waits that nothing hinders any more. Only a call that ends a lock or a transaction can free one.
    fn judge_waits(&mut self) {
        for host in 0..HOSTS {
            if let Some(want) = self.hosts[host].wait
                && !self.hindered(host as u8, want)
            {
                let record = &mut self.hosts[host];
                record.wait = None;
                record.notice = Some(want.notice());
            }
        }
    }
}

/// The host that a ticket bears, if the ticket is of this device.
#[inline]
fn fitting(number: u32, hosts: &mut [Host], bearer: Bearer) -> Result<&mut Host, Status> {
    hosts
        .get_mut(usize::from(bearer.host))
        .filter(|_| bearer.device == number)
        .ok_or(Status::MessageSequence)
}

/// The open transaction, if it is in the ticket's phase.
#[inline]
fn in_phase(
    transaction: Option<&mut Transaction>,
    phase: Phase,
) -> Result<&mut Transaction, Status> {
    transaction
        .filter(|transaction| transaction.phase() == phase)
        .ok_or(Status::MessageSequence)
}
