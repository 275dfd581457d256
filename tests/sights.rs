//! What a tally looks for in steps besides their answers: without it, lines wouldn't tell some
//! wrong program from a right one.

use self::Place::*;
use crate::model::reports::{Note, Report};
use crate::model::{Answer, Cluster, Condition, Condition::*, Entry, Role::*, SERVERS};
use crate::model::{Server, Step};
use std::cmp::Ordering::{self, *};

#[path = "limits.rs"]
mod limits;
#[path = "retired.rs"]
mod retired;
#[path = "stamps.rs"]
mod stamps;
#[path = "votes.rs"]
mod votes;

pub use self::stamps::Strays;

/// A step with its answer and the record on both sides of it.
pub struct Taken<'a> {
    pub step: Step,
    pub answer: Answer,
    pub before: &'a Cluster,
    pub after: &'a Cluster,
    /// That of the report that was sent, or taken: as if it was passed on this time.
    pub trail: Trail,
    pub trails: &'a Trails,
    pub strays: &'a Strays,
}

/// A kind, how its step ended, a name, and whether it is to be seen in such a step.
pub type Sight = (usize, Result<(), Condition>, &'static str, fn(&Taken) -> bool);

const DONE: Result<(), Condition> = Ok(());
const NONE_PASSES: Result<(), Condition> = Err(NothingPasses);

/// How many sights there are.
pub const COUNT: usize = SIGHTS.len()
    + limits::SIGHTS.len()
    + retired::SIGHTS.len()
    + stamps::SIGHTS.len()
    + votes::SIGHTS.len();

pub fn sights() -> impl Iterator<Item = &'static Sight> {
    let of_reports_and_limits = SIGHTS.iter().chain(limits::SIGHTS);
    of_reports_and_limits.chain(retired::SIGHTS).chain(stamps::SIGHTS).chain(votes::SIGHTS)
}

/// Those of reports, and of reads and commit points that go by them.
const SIGHTS: &[Sight] = &[
    (1, DONE, "with notes to empty", |t| has_notes(t.a())),
    (1, DONE, "with reports to empty", |t| has_reports(t.a())),
    (1, DONE, "with a source to keep", |t| t.a().source.is_some()),
    (1, DONE, "again, by a primary with notes", |t| t.a().role == Primary && has_notes(t.a())),
    (1, DONE, "beside an older primary's notes", |t| t.older_primaries().any(has_notes)),
    (1, DONE, "beside an older primary's reports", |t| t.older_primaries().any(has_reports)),
    (2, DONE, "with reports to pass on now", |t| has_reports(t.a()) && t.a().source.is_some()),
    (3, DONE, "secondary now, with reports to pass on", |t| {
        let stepped_down = t.a().role == Primary && t.a_after().role == Secondary;
        stepped_down && has_reports(t.a()) && t.a().source.is_some()
    }),
    (4, DONE, "to a full queue", |t| t.b().queue.is_full()),
    (4, DONE, "to a primary", |t| t.b().role == Primary),
    (4, DONE, "to one that passes on", |t| t.b().passes_on_to().is_some()),
    (4, DONE, "into a later term", |t| t.a().term < t.b().term),
    (4, DONE, "while in a later term", |t| t.a().term > t.b().term),
    (4, DONE, "from one source to another", |t| t.changes_source()),
    (4, DONE, "closes a loop", |t| t.b().source == Some(t.number())),
    (5, DONE, "to a full queue", |t| t.b().queue.is_full()),
    (5, DONE, "to a primary", |t| t.b().role == Primary),
    (5, DONE, "to one that passes on", |t| t.b().passes_on_to().is_some()),
    (5, DONE, "into a later term", |t| t.a().term < t.b().term),
    (5, DONE, "while in a later term", |t| t.a().term > t.b().term),
    (5, DONE, "from one source to another", |t| t.changes_source()),
    (5, DONE, "closes a loop", |t| t.b().source == Some(t.number())),
    (7, DONE, "at an overtaken primary", |t| t.is_overtaken()),
    (7, DONE, "only by one in a later term now", |t| !t.passes_by(|b| b.term == t.a().term)),
    (7, DONE, "only by one restarted since", |t| !t.passes_by(|b| b.source.is_some())),
    (7, DONE, "only by one of another source", |t| {
        !t.passes_by(|b| b.source.is_none_or(|source| source == t.number()))
    }),
    (7, DONE, "with a note about itself", |t| t.a().notes[t.number()].is_used()),
    (7, DONE, "below what most hold", |t| t.held_by_most() > Some(t.a_after().commit_point)),
    (7, NONE_PASSES, "but is held by most", |t| t.held_by_most().is_some()),
    (7, NONE_PASSES, "but for notes of an older term", |t| {
        t.passes_with(|_, note| note.term < t.a().term)
    }),
    (7, NONE_PASSES, "but for notes of a later term", |t| {
        t.passes_with(|_, note| note.term > t.a().term && note.last_term == t.a().term)
    }),
    (7, NONE_PASSES, "but for notes of an older last term", |t| {
        t.passes_with(|_, note| note.term == t.a().term && note.last_term < note.term)
    }),
    (7, NONE_PASSES, "but for terms that pulls raised", |t| t.passes_unraised(4)),
    (7, NONE_PASSES, "but for terms that rollbacks raised", |t| t.passes_unraised(5)),
    (9, DONE, "with notes to empty", |t| has_notes(t.a())),
    (9, DONE, "with reports to empty", |t| has_reports(t.a())),
    (9, DONE, "with a source to forget", |t| t.a().source.is_some()),
    (9, DONE, "while a report of its own waits", |t| t.is_reported_on()),
    (12, DONE, "about nothing", |t| t.entry().is_some_and(Entry::writes_nothing)),
    (14, DONE, "at an overtaken primary", |t| t.is_overtaken()),
    (15, DONE, "about nothing", |t| t.entry().is_some_and(Entry::writes_nothing)),
    (15, DONE, "about a write", |t| t.entry().is_some_and(|entry| !entry.writes_nothing())),
    (15, DONE, "at an overtaken primary", |t| t.is_overtaken()),
    (15, DONE, "shows a value", |t| t.shown() != 0),
    (15, DONE, "not the committed value", |t| t.shown() != t.read(t.a().commit_point)),
    (15, DONE, "not the log's value", |t| t.shown() != t.read(t.a().log.length)),
    (16, DONE, "by a primary with a source", |t| t.a().role == Primary && t.a().source.is_some()),
    (16, DONE, "with nowhere to go", |t| t.a().role == Secondary && t.a().source.is_none()),
    (16, DONE, "passed on to a full queue", |t| t.next().is_some_and(|b| b.queue.is_full())),
    (16, DONE, "passed on to a primary", |t| t.next().is_some_and(|b| b.role == Primary)),
    (16, DONE, "passed on a second time", |t| t.next().is_some() && t.trail.passed_on == 2),
    (16, DONE, "passed on a third time", |t| t.next().is_some() && t.trail.passed_on == 3),
    (16, DONE, "passed on round a loop", |t| {
        t.next().is_some_and(|b| b.passes_on_to() == Some(t.number()))
    }),
    (16, DONE, "passed on about itself", |t| t.next().is_some() && t.reported() == t.number()),
    (16, DONE, "about the primary", |t| t.a().role == Primary && t.reported() == t.number()),
    (16, DONE, "about one restarted since", |t| t.before.servers[t.reported()].source.is_none()),
    (16, DONE, "of a later term", |t| t.report().note.term > t.a().term),
    (16, DONE, "of a term that its pull raised", |t| t.takes_raised(4)),
    (16, DONE, "of a term that its rollback raised", |t| t.takes_raised(5)),
    (16, DONE, "a primary's note rises by term", |t| t.primary_notes(Greater, Term)),
    (16, DONE, "a primary's note rises by last term", |t| t.primary_notes(Greater, LastTerm)),
    (16, DONE, "a primary's note rises by length", |t| t.primary_notes(Greater, Length)),
    (16, DONE, "a primary's note stays by term", |t| t.primary_notes(Less, Term)),
    (16, DONE, "a primary's note stays by last term", |t| t.primary_notes(Less, LastTerm)),
    (16, DONE, "a primary's note stays by length", |t| t.primary_notes(Less, Length)),
    (16, DONE, "as noted already", |t| t.report().note == t.note()),
];

/// The places in which a report is compared with a note.
#[derive(Clone, Copy, PartialEq, Eq, Debug)]
enum Place {
    Term,
    LastTerm,
    Length,
}

fn has_notes(server: &Server) -> bool {
    server.notes.iter().any(Note::is_used)
}

fn has_reports(server: &Server) -> bool {
    server.queue.length > 0
}

/// A step's a and b, 0 where it has none.
fn numbers_of(step: &Step) -> (usize, usize) {
    let (a, b) = match *step {
        Step::Start { .. } | Step::ClocksAgree => (0, 0),
        Step::Hears { a, b } | Step::Pulls { a, b } | Step::RollsBack { a, b } => (a, b),
        Step::Elect { a, .. }
        | Step::StepDown { a }
        | Step::Writes { a, .. }
        | Step::Advances { a }
        | Step::WallClock { a }
        | Step::Restarts { a }
        | Step::LocalRead { a, .. }
        | Step::MajorityRead { a, .. }
        | Step::Acknowledged { a, .. }
        | Step::WritesNothing { a }
        | Step::NewestRead { a, .. }
        | Step::TakesReport { a } => (a, 0),
    };
    (a.into(), b.into())
}

/// The servers of the step; numbers out of range were refused otherwise than sights are about.
impl Taken<'_> {
    fn number(&self) -> usize {
        numbers_of(&self.step).0
    }

    fn a(&self) -> &Server {
        &self.before.servers[self.number()]
    }

    fn a_after(&self) -> &Server {
        &self.after.servers[self.number()]
    }

    fn b(&self) -> &Server {
        &self.before.servers[numbers_of(&self.step).1]
    }

    fn changes_source(&self) -> bool {
        self.a().source.is_some() && self.a().source != self.a_after().source
    }

    fn is_overtaken(&self) -> bool {
        self.before.counted().iter().any(|server| server.term > self.a().term)
    }

    /// Whom the election of a leaves primary.
    fn older_primaries(&self) -> impl Iterator<Item = &Server> {
        let term = self.a_after().term;
        self.after.counted().iter().filter(move |b| b.role == Primary && b.term < term)
    }

    fn is_reported_on(&self) -> bool {
        let queues = self.before.counted().iter().map(|server| &server.queue);
        let mut reports = queues.flat_map(|queue| &queue.reports[..queue.length]);
        reports.any(|report| report.who == self.number())
    }
}

/// What reads and commit points are about.
impl Taken<'_> {
    /// The position that is asked about; 0 by other kinds, where no entry is.
    fn position(&self) -> usize {
        match self.step {
            Step::Acknowledged { position, .. } | Step::NewestRead { position, .. } => {
                position.into()
            }
            _ => 0,
        }
    }

    fn entry(&self) -> Option<&Entry> {
        self.a().log.entry(self.position())
    }

    fn shown(&self) -> u16 {
        self.answer.map_or(0, |numbers| numbers.number)
    }

    /// What the same read would show among the first so many entries.
    fn read(&self, among: usize) -> u16 {
        let Step::NewestRead { key, .. } = self.step else { return 0 };
        self.a().log.value_of(key, among)
    }

    /// The highest position, above the commit point and of a's term, where this is a majority.
    fn highest(&self, backers: impl Fn(usize) -> usize) -> Option<usize> {
        let (a, log) = (self.a(), &self.a().log);
        let of_term = |n: &usize| log.entry(*n).is_some_and(|entry| entry.term == a.term);
        let mut above = (a.commit_point + 1..=log.length).rev().filter(of_term);
        above.find(|&n| self.before.is_majority(backers(n)))
    }

    /// The highest position that would pass if a could see into the voters' logs.
    fn held_by_most(&self) -> Option<usize> {
        let a = self.a();
        let holds = |b: &Server, n: usize| b.term == a.term && b.log.entry(n) == a.log.entry(n);
        let voters = || self.before.counted().iter().enumerate().filter(|(b, _)| self.votes(*b));
        self.highest(|n| voters().filter(|(_, b)| holds(b, n)).count())
    }

    /// How many back a position: a, and every other voter of which this holds.
    fn backers(&self, backs: impl Fn(usize, &Note) -> bool) -> usize {
        let others = self.a().notes[..self.before.count].iter().enumerate();
        let backs = |b: usize, note: &Note| b != self.number() && self.votes(b) && backs(b, note);
        1 + others.filter(|(b, note)| backs(*b, note)).count()
    }

    /// Whether the new commit point would have passed if only such servers' notes counted.
    fn passes_by(&self, counts: impl Fn(&Server) -> bool) -> bool {
        let (term, position) = (self.a().term, self.a_after().commit_point);
        let servers = &self.before.servers;
        let backers = self.backers(|b, note| note.reaches(term, position) && counts(&servers[b]));
        self.before.is_majority(backers)
    }

    /// Whether something would pass if such notes of these servers counted as well.
    fn passes_with(&self, counts: impl Fn(usize, &Note) -> bool) -> bool {
        let term = self.a().term;
        let counted = |b: usize, note: &Note, n: usize| counts(b, note) && note.length >= n;
        let backs = |b: usize, note: &Note, n: usize| note.reaches(term, n) || counted(b, note, n);
        self.highest(|n| self.backers(|b, note| backs(b, note, n))).is_some()
    }

    /// Whether something would pass if reports carried the term from before steps of this kind.
    fn passes_unraised(&self, kind: u8) -> bool {
        let (term, trails) = (self.a().term, &self.trails.noted[self.number()]);
        let was_here = |trail: &Trail| (trail.kind, trail.term) == (kind, term);
        self.passes_with(|b, note| was_here(&trails[b]) && note.last_term == term)
    }
}

/// What a report is about, and where it goes.
impl Taken<'_> {
    fn report(&self) -> Report {
        self.a().queue.reports[0]
    }

    fn reported(&self) -> usize {
        self.report().who
    }

    /// Whether the step of this kind that it was sent after had raised its term.
    fn takes_raised(&self, kind: u8) -> bool {
        self.trail.kind == kind && self.trail.term < self.report().note.term
    }

    /// Whom it is passed on to, lost there or not.
    fn next(&self) -> Option<&Server> {
        self.a().passes_on_to().map(|source| &self.before.servers[source])
    }

    /// What a has noted so far of whom the report is about.
    fn note(&self) -> Note {
        self.a().notes[self.reported()]
    }

    /// Whether a is primary and has a note already from which the report differs first in this
    /// place, and so.
    fn primary_notes(&self, order: Ordering, place: Place) -> bool {
        let (report, note) = (self.report().note, self.note());
        let places = [
            (report.term.cmp(&note.term), Term),
            (report.last_term.cmp(&note.last_term), LastTerm),
            (report.length.cmp(&note.length), Length),
        ];
        let differs = places.iter().find(|(order, _)| *order != Equal);
        self.a().role == Primary && note.is_used() && differs == Some(&(order, place))
    }
}

/// How often a report was passed on, the kind of the step that it was sent after, and the term that
/// its server was in before that.
#[derive(Clone, Copy)]
pub struct Trail {
    passed_on: usize,
    kind: u8,
    term: u16,
}

impl Trail {
    pub const NONE: Trail = Trail { passed_on: 0, kind: 0, term: 0 };
}

/// Beside each queue and each server's notes, the trails of the reports there.
pub struct Trails {
    waiting: [Vec<Trail>; SERVERS],
    noted: [[Trail; SERVERS]; SERVERS],
}

impl Trails {
    pub const NONE: Trails = Trails {
        waiting: [const { Vec::new() }; SERVERS],
        noted: [[Trail::NONE; SERVERS]; SERVERS],
    };

    /// Follows a step that was done, which lengthens one queue by one report at most, or empties
    /// queues. Gives the trail of the report that it sent or took.
    pub fn follow(&mut self, step: &Step, [before, after]: [&Cluster; 2]) -> Trail {
        let trail = match *step {
            Step::Pulls { a, .. } | Step::RollsBack { a, .. } => {
                let term = before.servers[usize::from(a)].term;
                Trail { passed_on: 0, kind: step.kind(), term }
            }
            Step::TakesReport { a } => self.take(a.into(), [before, after]),
            _ => Trail::NONE,
        };
        for (trails, server) in self.waiting.iter_mut().zip(&after.servers) {
            trails.resize(server.queue.length, trail);
        }
        trail
    }

    /// The trail of the report that a takes, which stays beside the note if there is a new one.
    fn take(&mut self, a: usize, [before, after]: [&Cluster; 2]) -> Trail {
        let taken = self.waiting[a].remove(0);
        let trail = Trail { passed_on: 1 + taken.passed_on, ..taken };
        let who = before.servers[a].queue.reports[0].who;
        if after.servers[a].notes[who] != before.servers[a].notes[who] {
            self.noted[a][who] = trail;
        }
        trail
    }
}
