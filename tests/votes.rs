//! What a tally looks for where there are followers: that they copy, tell and are told as all do, and
//! that they have no part in elections and commit points where a vote of theirs would have told.

use super::{DONE, NONE_PASSES, Sight, Taken, has_notes, has_reports};
use crate::model::reports::Note;
use crate::model::{Cluster, Condition, Condition::*, FEWEST_VOTERS, Role::*, SERVERS};
use crate::model::{Server, Step, step};

const OUTSIDE: Result<(), Condition> = Err(FollowerOutside);
const FEW: Result<(), Condition> = Err(FewVoters);
const ELECTED: Result<(), Condition> = Err(FollowerElected);
const IN_SET: Result<(), Condition> = Err(FollowerInSet);
const NO_PRIMARY: Result<(), Condition> = Err(NotPrimary);

pub const SIGHTS: &[Sight] = &[
    (0, DONE, "without followers", |t| t.set() == 0),
    (0, DONE, "without followers, where some were", |t| t.set() == 0 && t.before.followers != 0),
    (0, DONE, "with other followers than before", |t| {
        t.set() != 0 && t.before.followers & !t.set() != 0
    }),
    (0, DONE, "with 1 follower", |t| t.set().count_ones() == 1),
    (0, DONE, "with 2 followers", |t| t.set().count_ones() == 2),
    (0, DONE, "with 3 followers", |t| t.set().count_ones() == 3),
    (0, DONE, "with 4 followers", |t| t.set().count_ones() == 4),
    (0, DONE, "with 5 followers", |t| t.set().count_ones() == 5),
    (0, DONE, "two voters of three", |t| t.starts_two_voters_of(3)),
    (0, DONE, "two voters of four", |t| t.starts_two_voters_of(4)),
    (0, DONE, "two voters of seven", |t| t.starts_two_voters_of(7)),
    (0, DONE, "the first server follows", |t| t.set() & 1 == 1),
    (0, DONE, "the last of seven follows", |t| t.set() >> (SERVERS - 1) == 1),
    (0, Err(StartBelow2), "without followers", |t| t.set() == 0),
    (0, Err(StartAbove7), "without followers", |t| t.set() == 0),
    (0, Err(StartAbove7), "eight, with followers below that", |t| {
        t.count_started() == SERVERS + 1 && t.set() != 0
    }),
    (0, OUTSIDE, "just past the count, voters enough", |t| {
        t.set() == 1 << t.count_started() && t.count_started() > FEWEST_VOTERS
    }),
    (0, OUTSIDE, "by bit 7 alone, voters enough", |t| {
        t.set() == 0x80 && t.count_started() > FEWEST_VOTERS
    }),
    (0, OUTSIDE, "beside one below the count", |t| t.voters_started() < t.count_started()),
    (0, OUTSIDE, "where few vote too", |t| t.voters_started() < FEWEST_VOTERS),
    (0, FEW, "one votes", |t| t.voters_started() == 1),
    (0, FEW, "one of two votes", |t| t.voters_started() == 1 && t.count_started() == 2),
    (0, FEW, "one of seven votes", |t| t.voters_started() == 1 && t.count_started() == SERVERS),
    (0, FEW, "nobody votes", |t| t.voters_started() == 0),
    (1, DONE, "beside followers", |t| t.before.followers != 0),
    (1, DONE, "by voters who aren't most servers", |t| !t.is_most(t.members())),
    (1, DONE, "by both voters of seven", |t| t.has_two_voters_of_seven()),
    (1, DONE, "behind a follower", |t| t.followers().any(|f| t.a().log.is_behind(&f.log))),
    (1, ELECTED, "by voters alone", |t| t.set() & t.before.followers == 0),
    (1, ELECTED, "that would be, if it had a vote", |t| t.is_done_if_all_vote()),
    (1, ELECTED, "that would be, ahead of all others in the set", |t| {
        t.is_done_if_all_vote() && t.is_ahead_in_set()
    }),
    (1, ELECTED, "by too few", |t| !t.before.is_majority(t.members())),
    (1, ELECTED, "where 5 would apply", |t| t.number_if_all_vote() == 5),
    (1, IN_SET, "that would be, if it had a vote", |t| t.is_done_if_all_vote()),
    (1, IN_SET, "beside enough voters", |t| t.before.is_majority(t.voting_members())),
    (1, IN_SET, "beside too few voters", |t| {
        !t.before.is_majority(t.voting_members()) && t.is_most(t.members())
    }),
    (1, IN_SET, "of too few", |t| !t.before.is_majority(t.members())),
    (1, IN_SET, "where 5 would apply", |t| t.number_if_all_vote() == 5),
    (1, Err(NotAMajority), "half of the voters, beside followers", |t| {
        t.before.followers != 0 && 2 * t.members() == t.before.voters()
    }),
    (1, Err(NotAMajority), "one of two voters of seven", |t| {
        t.has_two_voters_of_seven() && t.members() == 1
    }),
    (2, NO_PRIMARY, "at a follower", |t| t.is_at_follower()),
    (3, DONE, "a follower takes a commit point", |t| {
        t.is_at_follower() && t.a_after().commit_point > t.a().commit_point
    }),
    (3, DONE, "a follower takes a term", |t| t.is_at_follower() && t.a_after().term > t.a().term),
    (3, DONE, "a primary hears of a later term by a follower", |t| {
        t.is_by_follower() && t.a().role == Primary && t.a_after().role == Secondary
    }),
    (3, DONE, "a voter takes a follower's commit point", |t| {
        t.is_by_follower() && t.a_after().commit_point > t.a().commit_point
    }),
    (4, DONE, "a follower from a voter", |t| t.is_at_follower() && !t.is_by_follower()),
    (4, DONE, "a follower from a follower", |t| t.is_at_follower() && t.is_by_follower()),
    (4, DONE, "a voter from a follower", |t| !t.is_at_follower() && t.is_by_follower()),
    (5, DONE, "a follower to a voter", |t| t.is_at_follower() && !t.is_by_follower()),
    (5, DONE, "to a follower", |t| t.is_by_follower()),
    (6, NO_PRIMARY, "at a follower", |t| t.is_at_follower()),
    (7, DONE, "by voters who aren't most servers", |t| {
        let (term, covered) = (t.a().term, t.a_after().commit_point);
        !t.is_most(t.backers(|_, note| note.reaches(term, covered)))
    }),
    (7, DONE, "by both voters of seven", |t| t.has_two_voters_of_seven()),
    (7, DONE, "below what notes of followers tell", |t| {
        t.highest_if_told(|n| t.before.is_majority(n)) > Some(t.a_after().commit_point)
    }),
    (7, NO_PRIMARY, "at a follower", |t| t.is_at_follower()),
    (7, NONE_PASSES, "but for notes of followers", |t| {
        t.highest_if_told(|n| t.before.is_majority(n)).is_some()
    }),
    (7, NONE_PASSES, "but for notes of followers, by most servers", |t| {
        t.highest_if_told(|n| t.is_most(n)).is_some()
    }),
    (8, DONE, "at a follower", |t| t.is_at_follower()),
    (9, DONE, "a follower with notes to empty", |t| t.is_at_follower() && has_notes(t.a())),
    (9, DONE, "a follower with reports to empty", |t| t.is_at_follower() && has_reports(t.a())),
    (9, DONE, "a follower with a source to forget", |t| {
        t.is_at_follower() && t.a().source.is_some()
    }),
    (10, DONE, "a value at a follower", |t| t.is_at_follower() && t.shown() != 0),
    (10, Err(AppliedTimeBefore), "at a follower", |t| t.is_at_follower()),
    (11, DONE, "a value at a follower", |t| t.is_at_follower() && t.shown() != 0),
    (11, Err(CommitTimeBefore), "at a follower", |t| t.is_at_follower()),
    (12, DONE, "at a follower", |t| t.is_at_follower()),
    (12, Err(CommitPointBelow), "at a follower", |t| t.is_at_follower()),
    (13, DONE, "by a follower's clock", |t| {
        let greatest = t.after.servers[0].wall_clock;
        let is_behind = |b: usize| t.votes(b) && t.before.servers[b].wall_clock < greatest;
        t.before.followers != 0 && (0..t.before.count).all(|b| !t.votes(b) || is_behind(b))
    }),
    (13, DONE, "with a follower's clock to raise", |t| {
        t.followers().any(|f| f.wall_clock < t.after.servers[0].wall_clock)
    }),
    (14, NO_PRIMARY, "at a follower", |t| t.is_at_follower()),
    (15, NO_PRIMARY, "at a follower", |t| t.is_at_follower()),
    (16, DONE, "passed on by a follower, about a voter", |t| {
        t.is_at_follower() && t.is_passed_on() && t.votes(t.reported())
    }),
    (16, DONE, "passed on by a follower, about another", |t| {
        let another = t.reported() != t.number() && !t.votes(t.reported());
        t.is_at_follower() && t.is_passed_on() && another
    }),
    (16, DONE, "passed on to a follower", |t| {
        t.is_passed_on() && t.a().source.is_some_and(|source| !t.votes(source))
    }),
    (16, DONE, "a primary notes a follower", |t| {
        t.a().role == Primary && !t.votes(t.reported()) && t.report().note > t.note()
    }),
];

/// Who votes, and what would be if all did.
impl Taken<'_> {
    pub(super) fn votes(&self, number: usize) -> bool {
        !self.before.is_follower(number)
    }

    /// Whether so many are more than half of all servers.
    fn is_most(&self, servers: usize) -> bool {
        2 * servers > self.before.count
    }

    fn is_at_follower(&self) -> bool {
        !self.votes(self.number())
    }

    fn is_by_follower(&self) -> bool {
        !self.votes(super::numbers_of(&self.step).1)
    }

    fn followers(&self) -> impl Iterator<Item = &Server> {
        let counted = self.before.counted().iter().enumerate();
        counted.filter(move |(b, _)| !self.votes(*b)).map(|(_, server)| server)
    }

    /// Whether a report that is taken then waits with a's source.
    fn is_passed_on(&self) -> bool {
        let waiting = |cluster: &Cluster, b: usize| cluster.servers[b].queue.length;
        let waits = |b: usize| waiting(self.after, b) > waiting(self.before, b);
        self.a().source.is_some_and(waits)
    }

    fn has_two_voters_of_seven(&self) -> bool {
        (self.before.voters(), self.before.count) == (2, SERVERS)
    }

    /// The refusal of the step in the record without followers; 0 where it is done there.
    fn number_if_all_vote(&self) -> u8 {
        let mut all = Cluster { followers: 0, ..*self.before };
        step(&mut all, &self.step).map_or_else(Condition::number, |_| 0)
    }

    fn is_done_if_all_vote(&self) -> bool {
        self.number_if_all_vote() == 0
    }

    /// The highest position that would pass if notes of all counted, where so many are enough.
    fn highest_if_told(&self, is_enough: impl Fn(usize) -> bool) -> Option<usize> {
        let (a, own) = (self.a(), self.number());
        let counts = |b: usize, note: &Note, n: usize| b != own && note.reaches(a.term, n);
        let notes = || a.notes[..self.before.count].iter().enumerate();
        let backers = |n: usize| 1 + notes().filter(|(b, note)| counts(*b, note, n)).count();
        let mut above = (a.commit_point + 1..=a.log.length).rev();
        above.find(|&n| a.log.entries[n - 1].term == a.term && is_enough(backers(n)))
    }
}

/// The set of a start and of an election.
impl Taken<'_> {
    fn set(&self) -> u8 {
        match self.step {
            Step::Start { followers: set, .. } | Step::Elect { set, .. } => set,
            _ => 0,
        }
    }

    fn count_started(&self) -> usize {
        let Step::Start { servers, .. } = self.step else { return 0 };
        servers.into()
    }

    /// How many of those that a start counts, 2 to 7, are not in its set.
    fn voters_started(&self) -> usize {
        (0..self.count_started()).filter(|i| self.set() >> i & 1 == 0).count()
    }

    fn starts_two_voters_of(&self, count: usize) -> bool {
        (self.voters_started(), self.count_started()) == (2, count)
    }

    fn members(&self) -> usize {
        self.set().count_ones() as usize
    }

    fn voting_members(&self) -> usize {
        (self.set() & !self.before.followers).count_ones() as usize
    }

    /// Whether every other member of the set is behind a.
    fn is_ahead_in_set(&self) -> bool {
        let members = self.before.counted().iter().enumerate();
        let others = members.filter(|(i, _)| self.set() >> i & 1 == 1 && *i != self.number());
        others.map(|(_, member)| member).all(|member| member.log.is_behind(&self.a().log))
    }
}
