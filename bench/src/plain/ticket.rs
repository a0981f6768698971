//! Tickets: what a host may do next of its transaction. Only the device makes them.

use super::status::Status;

#[derive(Debug)]
#[must_use = "its transaction stays open"]
pub struct ExecutionTicket(Bearer);

#[derive(Debug)]
#[must_use = "its transaction stays open"]
pub struct ReportTicket(Bearer);

#[derive(Debug)]
#[must_use = "its transaction stays open"]
pub enum Ticket {
    Execution(ExecutionTicket),
    Report(ReportTicket),
}

/// A refused call hands its ticket back.
#[derive(Debug)]
pub struct Returned<T> {
    pub ticket: T,
    pub status: Status,
}

#[derive(Clone, Copy, Debug)]
pub(super) struct Bearer {
    pub device: u32,
    pub host: u8,
}

impl ExecutionTicket {
    pub(super) fn new(bearer: Bearer) -> Self {
        Self(bearer)
    }

    pub(super) fn bearer(&self) -> Bearer {
        self.0
    }
}

impl ReportTicket {
    pub(super) fn new(bearer: Bearer) -> Self {
        Self(bearer)
    }

    pub(super) fn bearer(&self) -> Bearer {
        self.0
    }
}
