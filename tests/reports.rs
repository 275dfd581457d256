//! What servers tell each other of their logs: reports, the queues in which they wait, and the
//! notes that are made of them.

use super::{HIGHEST_POSITION, SERVERS, Server};

/// The most reports that wait at a server.
pub const REPORTS: usize = 8;

/// How far a server had come. Ordered by term, then last term, then length; unused is zero.
#[derive(Clone, Copy, PartialEq, Eq, PartialOrd, Ord, Debug)]
pub struct Note {
    pub term: u16,
    pub last_term: u16,
    pub length: usize,
}

/// A note under way, and whom it is about.
#[derive(Clone, Copy, PartialEq, Eq, Debug)]
pub struct Report {
    pub who: usize,
    pub note: Note,
}

/// The oldest report stands in slot 0.
#[derive(Clone, Copy, PartialEq, Eq, Debug)]
pub struct Queue {
    pub reports: [Report; REPORTS],
    pub length: usize,
}

/// One note for each server number.
pub type Notes = [Note; SERVERS];

impl Note {
    pub const UNUSED: Note = Note { term: 0, last_term: 0, length: 0 };

    pub fn is_used(&self) -> bool {
        *self != Note::UNUSED
    }

    /// Whether it says that so many entries, the last of them of this term, were there in this
    /// term.
    pub fn reaches(&self, term: u16, position: usize) -> bool {
        self.term == term && self.last_term == term && self.length >= position
    }

    fn in_range(&self) -> bool {
        (1..=HIGHEST_POSITION).contains(&self.length) && (1..=self.term).contains(&self.last_term)
    }
}

impl Report {
    pub(super) const ZERO: Report = Report { who: 0, note: Note::UNUSED };
}

impl Queue {
    pub(super) const EMPTY: Queue = Queue { reports: [Report::ZERO; REPORTS], length: 0 };

    /// The reports up to the length, which has to be tested first.
    fn waiting(&self) -> &[Report] {
        &self.reports[..self.length]
    }

    pub fn oldest(&self) -> Option<Report> {
        self.waiting().first().copied()
    }

    pub fn is_full(&self) -> bool {
        self.length == REPORTS
    }

    /// A report to a full queue is lost.
    pub(super) fn receive(&mut self, report: Report) {
        if !self.is_full() {
            self.reports[self.length] = report;
            self.length += 1;
        }
    }

    pub(super) fn take_oldest(&mut self) -> Option<Report> {
        let oldest = self.oldest()?;
        self.reports.copy_within(1..self.length, 0);
        self.length -= 1;
        self.reports[self.length] = Report::ZERO;
        Some(oldest)
    }

    fn well_formed(&self, count: usize) -> bool {
        self.length <= REPORTS
            && self.waiting().iter().all(|report| report.who < count && report.note.in_range())
            && self.reports[self.length..].iter().all(|slot| *slot == Report::ZERO)
    }
}

fn well_formed(notes: &Notes, count: usize) -> bool {
    let (counted, past) = notes.split_at(count);
    counted.iter().all(|note| !note.is_used() || note.in_range()) && !past.iter().any(Note::is_used)
}

/// What a server was told, and whom it tells.
impl Server {
    pub(super) fn report_of(&self, number: usize) -> Report {
        let (term, log) = (self.term, &self.log);
        Report { who: number, note: Note { term, last_term: log.last_term(), length: log.length } }
    }

    pub(super) fn forget_reports(&mut self) {
        self.notes = [Note::UNUSED; SERVERS];
        self.queue = Queue::EMPTY;
    }

    /// Its source, unless it is primary: then it passes nothing on.
    pub fn passes_on_to(&self) -> Option<usize> {
        self.source.filter(|_| self.role == super::Secondary)
    }

    /// The part of "well formed" that is about reports, for a count of at most seven.
    pub(super) fn reports_well_formed(&self, number: usize, count: usize) -> bool {
        well_formed(&self.notes, count)
            && self.queue.well_formed(count)
            && self.source.is_none_or(|source| source < count && source != number)
    }
}
