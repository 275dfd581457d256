//! What a tally looks for in stamps: which of three clocks decided, at which boundary, and that a
//! time which was refused, or went to another server, did not.

use super::{DONE, Sight, Taken};
use crate::model::{AHEAD_MAX, Answer, Condition, Condition::*, Role::*};
use crate::model::{SERVERS, Server, Step, Time};

/// The last p and the last l.
const LAST: u16 = u16::MAX;
const AHEAD: Result<(), Condition> = Err(ClockAhead);
const AT_LIMIT: Result<(), Condition> = Err(TickAtLimit);

pub const SIGHTS: &[Sight] = &[
    (6, DONE, "without a client's time", |t| t.client() == Time::ZERO),
    (6, DONE, "client before by p, with a higher l", |t| {
        is_by_p(t.client(), t.cluster()) && t.differs_from(t.client())
    }),
    (6, DONE, "client before by l", |t| {
        is_by_l(t.client(), t.cluster()) && t.differs_from(t.client())
    }),
    (6, DONE, "client at the cluster time", |t| {
        t.client() == t.cluster() && t.client().p >= t.clock()
    }),
    (6, DONE, "client after by p, with a lower l", |t| {
        is_by_p(t.cluster(), t.client()) && t.client().p > t.clock()
    }),
    (6, DONE, "client after by l", |t| {
        is_by_l(t.cluster(), t.client()) && t.differs_from(t.cluster())
    }),
    (6, DONE, "client after, before the wall clock", |t| t.is_after() && t.client().p < t.clock()),
    (6, DONE, "client after, at the wall clock", |t| t.is_after() && t.client().p == t.clock()),
    (6, DONE, "client after, as seen elsewhere", |t| {
        t.is_seen_elsewhere() && t.differs_from(t.cluster())
    }),
    (6, DONE, "client 600 ahead", |t| t.is_ahead_by(AHEAD_MAX)),
    (6, DONE, "client 600 ahead at 65,535", |t| t.is_ahead_by(AHEAD_MAX) && t.client().p == LAST),
    (6, DONE, "client at 65,535, less than 600 ahead", |t| {
        t.client().p == LAST && t.clock() > LAST - AHEAD_MAX
    }),
    (6, DONE, "client too far ahead of another's clock", |t| {
        t.others().any(|b| b.is_outrun_by(t.client()))
    }),
    (6, DONE, "client's last l, before the wall clock", |t| {
        t.is_after() && t.client().l == LAST && t.client().p < t.clock()
    }),
    (6, DONE, "client's last l, before the cluster time", |t| {
        t.client() < t.cluster() && t.client().l == LAST && t.cluster().p >= t.clock()
    }),
    (6, DONE, "client after a cluster time at its last l", |t| {
        t.is_after() && t.cluster().l == LAST && t.cluster().p >= t.clock()
    }),
    (6, DONE, "to the last l", |t| t.a_after().cluster_time.l == LAST),
    (6, DONE, "after 11 refused a later time", |t| t.leaves_out(t.refused_with(ClockAhead))),
    (6, DONE, "after 4 refused a later time", |t| t.leaves_out(t.refused_with(NotPrimary))),
    (6, DONE, "after 6 refused a later time", |t| t.leaves_out(t.refused_with(LogFull))),
    (6, DONE, "after 7 refused a later time", |t| t.leaves_out(t.refused_with(TickAtLimit))),
    (6, DONE, "after a later time of another client", |t| t.leaves_out(t.strays.last)),
    (6, Err(ServerOutside), "client too far ahead", |t| {
        t.before.counted().iter().all(|b| b.is_outrun_by(t.client()))
    }),
    (6, Err(KeyOfNothing), "client too far ahead", |t| t.a().is_outrun_by(t.client())),
    (6, Err(KeyAbove15), "client too far ahead", |t| t.a().is_outrun_by(t.client())),
    (6, Err(ValueZero), "client too far ahead", |t| t.a().is_outrun_by(t.client())),
    (6, AHEAD, "by 601", |t| t.is_ahead_by(AHEAD_MAX + 1)),
    (6, AHEAD, "by 601 at 65,535", |t| t.is_ahead_by(AHEAD_MAX + 1) && t.client().p == LAST),
    (6, AHEAD, "at 65,535", |t| t.client().p == LAST),
    (6, AHEAD, "at a secondary", |t| t.a().role == Secondary),
    (6, AHEAD, "at a full log", |t| t.a().role == Primary && t.was_full()),
    (6, AHEAD, "with the last l", |t| {
        t.a().role == Primary && !t.was_full() && t.client().l == LAST
    }),
    (6, AHEAD, "within 600 of the cluster time", |t| {
        t.client().p.saturating_sub(t.cluster().p) <= AHEAD_MAX
    }),
    (6, AHEAD, "within 600 of another's clock", |t| {
        t.others().any(|b| !b.is_outrun_by(t.client()))
    }),
    (6, Err(NotPrimary), "client 600 ahead", |t| t.is_ahead_by(AHEAD_MAX)),
    (6, Err(LogFull), "with the last l", |t| t.is_stuck()),
    (6, AT_LIMIT, "by the client's l", |t| t.is_after()),
    (6, AT_LIMIT, "by the cluster time's l", |t| t.client() == Time::ZERO),
    (6, AT_LIMIT, "by the cluster time's l, client before", |t| {
        t.client() != Time::ZERO && t.client() < t.cluster()
    }),
    (8, DONE, "behind the cluster time", |t| t.a_after().wall_clock < t.cluster().p),
    (13, DONE, "behind a cluster time", |t| {
        t.after.counted().iter().any(|server| server.wall_clock < server.cluster_time.p)
    }),
    (14, DONE, "after 11 refused a later time", |t| t.leaves_out(t.refused_with(ClockAhead))),
    (14, DONE, "after 4 refused a later time", |t| t.leaves_out(t.refused_with(NotPrimary))),
    (14, DONE, "after 6 refused a later time", |t| t.leaves_out(t.refused_with(LogFull))),
    (14, DONE, "after 7 refused a later time", |t| t.leaves_out(t.refused_with(TickAtLimit))),
    (14, DONE, "after a client's later time", |t| t.leaves_out(t.strays.last)),
    (14, Err(LogFull), "with the last l", |t| t.is_stuck()),
];

/// Whether one time is before another by p, and would be after it by l.
fn is_by_p(one: Time, other: Time) -> bool {
    one.p < other.p && one.l > other.l
}

fn is_by_l(one: Time, other: Time) -> bool {
    one.p == other.p && one.l < other.l
}

/// The clocks of a step that appends.
impl Taken<'_> {
    /// What a client brought; nothing where none did.
    fn client(&self) -> Time {
        let Step::Writes { client, .. } = self.step else { return Time::ZERO };
        client
    }

    fn cluster(&self) -> Time {
        self.a().cluster_time
    }

    fn clock(&self) -> u16 {
        self.a().wall_clock
    }

    fn is_after(&self) -> bool {
        self.client() > self.cluster()
    }

    fn is_ahead_by(&self, by: u16) -> bool {
        self.clock().checked_add(by) == Some(self.client().p)
    }

    fn others(&self) -> impl Iterator<Item = &Server> {
        let counted = self.before.counted().iter().enumerate();
        counted.filter(move |(i, _)| *i != self.number()).map(|(_, server)| server)
    }

    fn is_seen_elsewhere(&self) -> bool {
        self.is_after() && self.others().any(|b| b.cluster_time == self.client())
    }

    fn tick_from(&self, time: Time) -> Option<Time> {
        time.tick(self.clock())
    }

    /// Whether a tick can't be made from where it starts.
    fn is_stuck(&self) -> bool {
        self.tick_from(self.client().max(self.cluster())).is_none()
    }

    /// Whether a tick that started there would have come out otherwise.
    fn differs_from(&self, start: Time) -> bool {
        self.tick_from(start) != self.tick_from(self.client().max(self.cluster()))
    }

    /// Whether a later time that is none of this step's would have shown in the stamp.
    fn leaves_out(&self, stray: Time) -> bool {
        stray > self.client().max(self.cluster()) && self.differs_from(stray)
    }

    fn refused_with(&self, condition: Condition) -> Time {
        self.strays.left[place_of(condition)][self.number()]
    }
}

/// The refusals of a write whose time could have been kept.
const REFUSING: [Condition; 4] = [ClockAhead, NotPrimary, LogFull, TickAtLimit];

/// The place of one of these.
fn place_of(condition: Condition) -> usize {
    REFUSING.iter().position(|refusing| *refusing == condition).unwrap_or(REFUSING.len())
}

/// Times that no server keeps: the last client's, and for each of these refusals the latest that
/// each server would know of if a refused write left its time behind.
pub struct Strays {
    left: [[Time; SERVERS]; REFUSING.len()],
    last: Time,
}

impl Strays {
    pub const NONE: Strays =
        Strays { left: [[Time::ZERO; SERVERS]; REFUSING.len()], last: Time::ZERO };

    /// Follows a step; what was left behind would spread and be forgotten as cluster times are.
    pub fn follow(&mut self, step: &Step, answer: Answer) {
        match (*step, answer) {
            (Step::Writes { client, .. }, Ok(_)) => self.last = client,
            (Step::Writes { a, client, .. }, Err(condition)) => self.leave(a, client, condition),
            (Step::Start { .. }, Ok(_)) => *self = Strays::NONE,
            (Step::Restarts { a }, Ok(_)) => {
                self.left.iter_mut().for_each(|times| times[usize::from(a)] = Time::ZERO)
            }
            (Step::Hears { a, b } | Step::Pulls { a, b } | Step::RollsBack { a, b }, Ok(_)) => {
                for times in &mut self.left {
                    times[usize::from(a)] = times[usize::from(a)].max(times[usize::from(b)]);
                }
            }
            _ => {}
        }
    }

    fn leave(&mut self, a: u8, client: Time, condition: Condition) {
        if let Some(times) = self.left.get_mut(place_of(condition)) {
            let time = &mut times[usize::from(a)];
            *time = client.max(*time);
            self.last = client;
        }
    }
}
