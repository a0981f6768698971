//! Reads what a trace has left in its output.

use crate::plain::trace::{ANSWER, Call, Kind};
use std::collections::BTreeMap;
use std::fmt;

/// A call of a trace, its answer, and its buffer as the call left it.
#[derive(Clone, Copy, Debug)]
pub struct Answered<'t> {
    pub call: Call<'t>,
    pub answer: [u8; ANSWER],
    pub buffer: &'t [u8],
}

/// How many bytes a trace's head has.
pub fn head_length(trace: &[u8]) -> Option<usize> {
    let length = 9 + 8 * usize::from(*trace.get(8)?);
    (length <= trace.len()).then_some(length)
}

/// Goes through the calls of a trace that wrote to an output.
#[derive(Clone, Debug)]
pub struct Answers<'t> {
    calls: &'t [u8],
    written: &'t [u8],
}

impl<'t> Answers<'t> {
    pub fn new(trace: &'t [u8], written: &'t [u8]) -> Self {
        let calls = head_length(trace).map_or(&[][..], |length| &trace[length..]);
        Self { calls, written }
    }
}

impl<'t> Iterator for Answers<'t> {
    type Item = Answered<'t>;

    fn next(&mut self) -> Option<Self::Item> {
        let (&answer, rest) = self.written.split_first_chunk()?;
        let call = Call::read(&mut self.calls)?;
        let (buffer, rest) = rest.split_at_checked(call.buffer_size())?;
        self.written = rest;
        Some(Answered {
            call,
            answer,
            buffer,
        })
    }
}

/// How many calls there were, and what they were answered.
#[derive(Clone, Debug, Default)]
pub struct Tally {
    pub calls: u64,
    pub answers: [u64; 10],
    /// Refusals by group and code.
    pub refused: BTreeMap<(u8, u8), u64>,
    /// Notices by group and code.
    pub notices: BTreeMap<(u8, u8), u64>,
    /// Reports that were done, by the group and code that they tell.
    pub reports: BTreeMap<(u8, u8), u64>,
    /// Faults by kind.
    pub faults: BTreeMap<u8, u64>,
    /// Segments that were moved.
    pub segments: u64,
    /// Commands that were accepted.
    pub accepted: u64,
    /// Lock calls that tell a lock.
    pub locks: u64,
    /// How traces ended.
    pub endings: BTreeMap<u8, u64>,
}

impl Tally {
    /// Counts a trace that was run: its number and its output.
    pub fn add(&mut self, trace: &[u8], ended: u64, output: &[u8]) {
        *self.endings.entry((ended >> 56) as u8).or_default() += 1;
        let written = (ended & ((1 << 56) - 1)) as usize;
        for answered in Answers::new(trace, &output[..written.min(output.len())]) {
            self.count(&answered);
        }
    }

    fn count(&mut self, answered: &Answered) {
        let [first, a, b, c, ..] = answered.answer;
        self.calls += 1;
        if let Some(count) = self.answers.get_mut(usize::from(first)) {
            *count += 1;
        }
        match (first, answered.call.kind) {
            (0, _) => *self.refused.entry((a, b)).or_default() += 1,
            (1, Kind::Report(_)) => {
                if let [_, group, code, ..] = *answered.buffer {
                    *self.reports.entry((group, code)).or_default() += 1;
                }
            }
            (2 | 3, Kind::Segment(_)) => self.segments += 1,
            (2 | 3, _) => self.accepted += 1,
            (5, _) => *self.notices.entry((a, b)).or_default() += 1,
            (6, _) => *self.faults.entry(a).or_default() += 1,
            (8, _) if (a, b, c) != (0, 0, 0) => self.locks += 1,
            _ => {}
        }
    }

    pub fn merge(&mut self, other: &Self) {
        self.calls += other.calls;
        self.segments += other.segments;
        self.accepted += other.accepted;
        self.locks += other.locks;
        for (count, more) in self.answers.iter_mut().zip(other.answers) {
            *count += more;
        }
        for (counts, more) in [
            (&mut self.refused, &other.refused),
            (&mut self.notices, &other.notices),
            (&mut self.reports, &other.reports),
        ] {
            for (&key, &count) in more {
                *counts.entry(key).or_default() += count;
            }
        }
        for (counts, more) in [
            (&mut self.faults, &other.faults),
            (&mut self.endings, &other.endings),
        ] {
            for (&key, &count) in more {
                *counts.entry(key).or_default() += count;
            }
        }
    }
}

/// The words for an answer's first byte.
const ANSWERS: [&str; 10] = [
    "refused",
    "done",
    "execution ticket",
    "report ticket",
    "no ticket",
    "notice",
    "fault",
    "parameters",
    "locks",
    "activity",
];

const ENDINGS: [&str; 6] = [
    "every call made",
    "head not whole",
    "image refused",
    "no map",
    "call not whole",
    "no room",
];

impl fmt::Display for Tally {
    fn fmt(&self, f: &mut fmt::Formatter<'_>) -> fmt::Result {
        let endings = self.endings.iter().map(|(&ending, &count)| {
            let name = ENDINGS.get(usize::from(ending)).copied();
            (name.unwrap_or("unknown").to_owned(), count)
        });
        line(f, "traces that ended with", endings)?;
        writeln!(f, "{} calls compared, of these", self.calls)?;
        let answers = ANSWERS.iter().zip(self.answers);
        line(f, "answers", answers.map(|(&name, n)| (name.to_owned(), n)))?;
        line(f, "refusals", statuses(&self.refused))?;
        line(f, "notices", statuses(&self.notices))?;
        line(f, "reports", statuses(&self.reports))?;
        let faults = self.faults.iter();
        line(
            f,
            "faults of kind",
            faults.map(|(k, &n)| (k.to_string(), n)),
        )?;
        write!(
            f,
            "    accepted commands {}, moved segments {}, lock calls with a lock {}",
            self.accepted, self.segments, self.locks
        )
    }
}

fn statuses(counts: &BTreeMap<(u8, u8), u64>) -> impl Iterator<Item = (String, u64)> {
    counts
        .iter()
        .map(|((group, code), &count)| (format!("{group}/{code}"), count))
}

fn line(
    f: &mut fmt::Formatter<'_>,
    title: &str,
    counts: impl Iterator<Item = (String, u64)>,
) -> fmt::Result {
    let words: Vec<String> = counts
        .map(|(name, count)| format!("{name} {count}"))
        .collect();
    writeln!(f, "    {title}: {}", words.join(", "))
}
