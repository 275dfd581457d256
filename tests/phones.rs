//! Phones in a session: the times that they carry to a write, and rounds about these.

use super::Run;
use crate::model::{AHEAD_MAX, ENTRIES, Role, Step, Time};

/// The last p and the last l.
const LAST: u16 = u16::MAX;
/// From this wall clock on nothing is too far ahead.
const NONE_TOO_FAR: u16 = LAST - AHEAD_MAX;

impl Run {
    /// The time that a client carries to a: mostly none, else one at or beside a boundary.
    pub(super) fn client_time(&mut self, a: u8) -> Time {
        if !self.prng.one_in(3) {
            return Time::ZERO;
        }
        let (cluster_time, wall_clock) = (self.at(a).cluster_time, self.at(a).wall_clock);
        let (latest, few) = (cluster_time.p.max(wall_clock), self.prng.below(4) as u16);
        match self.prng.below(40) {
            0..=9 => self.time_around(cluster_time),
            10..=21 => self.time_elsewhere(),
            22..=29 => self.time_around(Time { p: wall_clock, l: few }),
            30 => self.ahead(a, AHEAD_MAX),
            31..=33 => self.ahead(a, AHEAD_MAX + 1),
            34 | 35 => Time { p: LAST, l: few },
            36 => Time { p: wall_clock - wall_clock.min(1), l: LAST },
            37 | 38 => Time { p: latest, l: LAST },
            _ => Time { p: latest, l: LAST - 1 },
        }
    }

    /// What a client has seen at any server.
    fn time_elsewhere(&mut self) -> Time {
        let count = self.count();
        let any = self.prng.below(count) as u8;
        let server = *self.at(any);
        self.prng.pick(&[server.cluster_time, server.applied_time(), server.commit_time()])
    }

    /// A time so far ahead of a's wall clock, or the last p.
    pub(super) fn ahead(&mut self, a: u8, by: u16) -> Time {
        let p = self.at(a).wall_clock.saturating_add(by);
        Time { p, l: self.prng.pick(&[0, 0, 1, LAST]) }
    }

    /// A good write by a for a client with this time.
    pub(super) fn write_for(&mut self, a: u8, client: Time) -> Step {
        let (key, value) = (self.prng.below(4) as u8, 1 + self.prng.below(65_535) as u16);
        Step::Writes { a, key, value, client }
    }

    /// A write with one number out of range, for a client that is too far ahead of most clocks.
    fn wrong_write(&mut self, a: u8) -> Step {
        let (outside, client) = (self.count() as u8, Time { p: LAST, l: 0 });
        let numbers = [(outside, 0, 1), (a, 16, 1), (a, 255, 1), (a, 0, 0)];
        let (a, key, value) = self.prng.pick(&numbers);
        Step::Writes { a, key, value, client }
    }

    fn say_write(&mut self, a: u8, client: Time) {
        let write = self.write_for(a, client);
        self.say(write);
    }

    /// One of the rounds below, the longest least often.
    pub(super) fn phones(&mut self) {
        match self.prng.below(16) {
            0 => self.last_place(),
            1..=3 => self.stick(),
            4..=8 => self.misdirect(),
            _ => self.roam(),
        }
    }

    /// A phone that has written at one primary goes to the next, whose clock may be behind.
    fn roam(&mut self) {
        let old = self.elect_of(self.electors());
        for _ in 0..self.prng.below(4) {
            self.offer(Step::WallClock { a: old });
        }
        self.offer_entry(old);
        let seen = self.at(old).cluster_time;
        let new = self.elect_of(self.electors() & !(1 << old));
        self.offer(Step::WritesNothing { a: new });
        let write = self.write_for(new, seen);
        self.offer(write);
        self.offer_entry(old);
    }

    /// Phones whose time is refused, by a secondary or as too far ahead; then who refused it has an
    /// entry of its own.
    fn misdirect(&mut self) {
        let a = self.with_most(self.everyone(), |server| server.role == Role::Secondary);
        let by = self.prng.pick(&[1, AHEAD_MAX, AHEAD_MAX + 1]);
        let client = self.ahead(a, by);
        self.say_write(a, client);
        if self.prng.one_in(3) {
            let wrong = self.wrong_write(a);
            self.say(wrong);
        }
        if self.prng.one_in(2) {
            self.offer(Step::ClocksAgree);
        }
        let primary = self.elect_of(self.electors());
        if primary != a {
            self.offer(Step::Hears { a: primary, b: a });
        }
        self.offer_entry(primary);
        let client = self.ahead(primary, AHEAD_MAX + 1);
        self.say_write(primary, client);
        self.offer_entry(primary);
    }

    /// A phone brings the cluster time to its last l, where only a later p helps on.
    fn stick(&mut self) {
        let a = self.elect_of(self.electors());
        let p = self.at(a).cluster_time.p.max(self.at(a).wall_clock);
        self.say_write(a, Time { p, l: LAST });
        self.offer_entry(a);
        self.say_write(a, Time { p, l: LAST - 1 });
        self.say(Step::WritesNothing { a });
        let client = self.client_time(a);
        self.say_write(a, client);
        self.follow(a);
        if self.prng.one_in(2) {
            self.say_write(a, Time { p: p.saturating_add(1), l: 0 });
        }
        while self.at(a).wall_clock <= p && self.prng.below(4) > 0 {
            self.offer(Step::WallClock { a });
        }
        self.offer_entry(a);
    }

    /// The last entry that a log takes brings its cluster time to the last l; phones still come, and
    /// another primary hears of it all.
    fn last_place(&mut self) {
        let old = self.elect_of(self.electors());
        for _ in self.at(old).log.length..ENTRIES - 1 {
            self.say_write(old, Time::ZERO);
        }
        let p = self.at(old).cluster_time.p.max(self.at(old).wall_clock);
        if self.prng.one_in(2) {
            self.say_write(old, Time { p, l: LAST - 1 });
        } else {
            self.say_write(old, Time::ZERO);
        }
        self.say(Step::WritesNothing { a: old });
        for by in [1, AHEAD_MAX, AHEAD_MAX + 1] {
            let client = self.ahead(old, by);
            self.say_write(old, client);
        }
        let new = self.elect_of(self.electors() & !(1 << old));
        self.offer(Step::Hears { a: new, b: old });
        self.offer_entry(new);
        self.offer(Step::WritesNothing { a: new });
    }

    /// Phones at a clock from which the last p is 601 above, 600, or less, so that a sum would have
    /// passed it. What they wrote is rolled back after that, if a majority is there to do it.
    pub(super) fn near_the_end(&mut self, a: u8) {
        let wall_clock = self.at(a).wall_clock;
        if ![NONE_TOO_FAR - 1, NONE_TOO_FAR, NONE_TOO_FAR + 1, 65_000].contains(&wall_clock) {
            return;
        }
        self.promote(a);
        let new = self.elect_of(self.electors() & !(1 << a));
        for client in [Time { p: LAST, l: 7 }, Time { p: LAST, l: LAST }] {
            self.say_write(a, client);
        }
        self.say_write(new, Time::ZERO);
        self.offer(Step::Hears { a, b: new });
        self.offer(Step::RollsBack { a, b: new });
        self.offer(Step::Restarts { a });
    }
}
