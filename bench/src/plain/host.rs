//! What the device keeps of a host: parameters, locks, transaction, fault, and what it waits for.

use super::message::{Command, Message, Parameters};
use super::status::Status;
use super::store::Fault;
use super::transaction::Transaction;

#[derive(Clone, Copy, Debug, Default, PartialEq, Eq)]
pub struct Locks {
    pub device: bool,
    /// A bit for each unit, unit 0 lowest.
    pub units: u16,
}

impl Locks {
    fn has_unit(self, unit: u8) -> bool {
        self.units & (1 << unit) != 0
    }

    fn has_any(self) -> bool {
        self.device || self.units != 0
    }

    fn change(&mut self, command: Command, unit: u8) {
        match command {
            Command::SetDeviceLock => self.device = true,
            Command::DeleteDeviceLock => self.device = false,
            Command::SetUnitLock => self.units |= 1 << unit,
            Command::DeleteUnitLock => self.units &= !(1 << unit),
            Command::Read | Command::Write | Command::Verify | Command::ExtendedDescribe => {}
        }
    }
}

/// What a message needs that another host may have.
#[derive(Clone, Copy, Debug, PartialEq, Eq)]
pub enum Want {
    Pass,
    Unit(u8),
    Lock(u8),
    Device,
}

impl Want {
    pub fn of(message: &Message) -> Self {
        let unit = message.parameters.unit;
        match message.command {
            None | Some(Command::ExtendedDescribe | Command::DeleteDeviceLock) => Self::Pass,
            Some(Command::SetDeviceLock) => Self::Device,
            Some(Command::SetUnitLock) => Self::Lock(unit),
            Some(Command::Read | Command::Write | Command::Verify | Command::DeleteUnitLock) => {
                Self::Unit(unit)
            }
        }
    }

    /// The notice to a host that waited for it.
    pub fn notice(self) -> Status {
        match self {
            Self::Unit(_) | Self::Lock(_) => Status::UnitAvailable,
            Self::Pass | Self::Device => Status::DeviceAvailable,
        }
    }
}

/// A store's fault, and where the host had the block.
#[derive(Clone, Copy, Debug, PartialEq, Eq)]
pub struct HostFault {
    pub fault: Fault,
    pub unit: u8,
    pub address: u32,
}

#[derive(Clone, Debug)]
pub struct Host {
    pub parameters: Parameters,
    pub interlocked: bool,
    pub locks: Locks,
    pub transaction: Option<Transaction>,
    pub fault: Option<HostFault>,
    pub wait: Option<Want>,
    pub notice: Option<Status>,
}

impl Host {
    pub const AT_POWER_ON: Self = Self {
        interlocked: true,
        notice: Some(Status::PowerOn),
        ..Self::CLEARED
    };

    pub const CLEARED: Self = Self {
        parameters: Parameters::AT_POWER_ON,
        interlocked: false,
        locks: Locks {
            device: false,
            units: 0,
        },
        transaction: None,
        fault: None,
        wait: None,
        notice: None,
    };

    /// Whether this host stands in another's way.
    #[inline]
    pub fn hinders(&self, want: Want) -> bool {
        match want {
            Want::Pass => self.locks.device,
            Want::Unit(unit) => self.locks.device || self.locks.has_unit(unit),
            Want::Lock(unit) => {
                self.locks.device || self.locks.has_unit(unit) || self.works_on(unit)
            }
            Want::Device => self.locks.has_any() || self.transaction.is_some(),
        }
    }

    fn works_on(&self, unit: u8) -> bool {
        self.transaction
            .as_ref()
            .is_some_and(|transaction| transaction.is_on(unit))
    }

    /// Takes an accepted message: parameters and locks change at once.
    pub fn accept(&mut self, message: &Message, transaction: Transaction) {
        self.parameters = message.parameters;
        if let Some(command) = message.command {
            self.locks.change(command, message.parameters.unit);
        }
        self.transaction = Some(transaction);
        self.fault = None;
    }
}
