//! A trace to be timed: what it must answer, and which blocks it moves to and from where.

use crate::plain::message::WHOLE_UNIT;
use crate::plain::store::BLOCK;
use crate::plain::trace::{ANSWER, Call, Kind};
use crate::plain::transaction::{REPORT, SEGMENT};
use crate::plain::units::Unit;
use crate::trials::writing::head;

/// The bytes of a whole segment.
pub const SEGMENT_BYTES: usize = SEGMENT as usize * BLOCK;

/// The first bytes of answers.
pub const REFUSED: u8 = 0;
pub const DONE: u8 = 1;
pub const EXECUTION: u8 = 2;
pub const REPORTING: u8 = 3;

/// A segment: its first block, and the place of its buffer in the output.
#[derive(Clone, Copy, Debug)]
pub struct Move {
    pub block: usize,
    pub place: usize,
}

#[derive(Clone, Copy, Debug, PartialEq, Eq)]
pub enum Transfer {
    Read = 0x00,
    Write = 0x02,
    Verify = 0x04,
}

#[derive(Clone, Debug)]
pub struct Script {
    units: Vec<Unit>,
    pub trace: Vec<u8>,
    /// The first byte of each answer.
    pub expected: Vec<u8>,
    /// The bytes of output that the trace writes.
    pub written: usize,
    pub moves: Vec<Move>,
}

impl Script {
    /// A trace in which hosts 0 and 1 clear first.
    pub fn new(units: &[Unit], end: u32) -> Self {
        let mut script = Self {
            units: units.to_vec(),
            trace: head(1, end, units),
            expected: Vec::new(),
            written: 0,
            moves: Vec::new(),
        };
        script.call(0, Kind::Clear, DONE);
        script.call(1, Kind::Clear, DONE);
        script
    }

    pub fn call(&mut self, host: u8, kind: Kind<'_>, expected: u8) {
        let call = Call { host, kind };
        call.write(&mut self.trace);
        self.expected.push(expected);
        self.written += ANSWER + call.buffer_size();
    }

    pub fn report(&mut self, host: u8) {
        self.call(host, Kind::report(REPORT), DONE);
    }

    /// A whole transaction of host 0: command, so many whole segments, report.
    pub fn transfer(&mut self, transfer: Transfer, unit: u8, address: u32, segments: u32) {
        let message = self.message(transfer as u8, unit, address, segments * SEGMENT);
        self.call(0, Kind::Command(&message), EXECUTION);
        for segment in 0..segments {
            let address = address + segment * SEGMENT;
            self.moves.push(Move {
                block: (self.units[usize::from(unit)].first + address) as usize,
                place: self.written + ANSWER,
            });
            let next = if segment + 1 == segments {
                REPORTING
            } else {
                EXECUTION
            };
            self.call(0, Kind::segment(SEGMENT_BYTES), next);
        }
        self.report(0);
    }

    /// A message with Set Unit, Set Address, Set Length and a command.
    pub fn message(&self, command: u8, unit: u8, address: u32, blocks: u32) -> [u8; 14] {
        let [a, b, c, d] = address.to_be_bytes();
        let length = if blocks == WHOLE_UNIT {
            WHOLE_UNIT
        } else {
            blocks * BLOCK as u32
        };
        let [e, f, g, h] = length.to_be_bytes();
        [
            0x20 + unit,
            0x10,
            0,
            0,
            a,
            b,
            c,
            d,
            0x18,
            e,
            f,
            g,
            h,
            command,
        ]
    }

    /// Sees that an output has the answers that the script must have.
    pub fn check(&self, ended: u64, output: &[u8]) {
        assert_eq!(
            ended, self.written as u64,
            "every call of a timed trace is made"
        );
        let answers = crate::trials::reading::Answers::new(&self.trace, &output[..self.written]);
        let firsts: Vec<u8> = answers.map(|answered| answered.answer[0]).collect();
        assert_eq!(firsts, self.expected, "a timed trace answers as planned");
    }
}
