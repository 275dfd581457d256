//! What happens in a bad night: entries that reach only some, primaries that are overtaken and
//! don't know it, restarts, followers left behind, reports that nobody has taken. Every line's step
//! is done, and no number comes to its end, so that the record can be got going again.

use crate::model::{AHEAD_MAX, Cluster, Role, Server, Step, Time, step};
use crate::prng::Prng;

/// The fewest and the most steps of a night, its start too.
pub const FEWEST: usize = 10;
pub const MOST: usize = 60;
/// The last of all numbers that end.
const LAST: u16 = u16::MAX;

/// A night under way: the record, the steps that led to it, how many there are to be, and whether
/// nobody writes.
struct Night<'a> {
    prng: &'a mut Prng,
    record: Cluster,
    steps: Vec<Step>,
    length: usize,
    is_idle: bool,
}

/// A night of so many servers with these followers: the record that it ends with, and its steps.
pub fn night(prng: &mut Prng, servers: u8, followers: u8) -> (Cluster, Vec<Step>) {
    let length = FEWEST + prng.below(MOST + 1 - FEWEST);
    let is_idle = prng.below(40) == 0;
    let mut night = Night { prng, record: Cluster::ZERO, steps: Vec::new(), length, is_idle };
    night.offer(Step::Start { servers, followers });
    while night.steps.len() < length {
        night.go_on();
    }
    (night.record, night.steps)
}

/// Whether something at a server has come to its end.
fn is_at_an_end(server: &Server) -> bool {
    let Server { term, wall_clock, cluster_time: Time { p, l }, .. } = *server;
    [term, wall_clock, p, l].contains(&LAST)
}

/// Drawing.
impl Night<'_> {
    fn one_in(&mut self, times: usize) -> bool {
        self.prng.below(times) == 0
    }

    fn at(&self, a: u8) -> &Server {
        &self.record.servers[usize::from(a)]
    }

    fn count(&self) -> u8 {
        self.record.count as u8
    }

    /// The servers of which something holds, as a set.
    fn those(&self, holds: impl Fn(&Server) -> bool) -> u8 {
        let servers = self.record.counted().iter().enumerate();
        servers.fold(0, |set, (number, server)| set | u8::from(holds(server)) << number)
    }

    fn voters(&self) -> u8 {
        self.those(|_| true) & !self.record.followers
    }

    fn primaries(&self) -> u8 {
        self.those(|server| server.role == Role::Primary)
    }

    /// The members of a set in any order.
    fn shuffled(&mut self, set: u8) -> Vec<u8> {
        let mut left: Vec<u8> = (0..8).filter(|a| set >> a & 1 == 1).collect();
        (0..left.len()).map(|_| left.swap_remove(self.prng.below(left.len()))).collect()
    }

    /// Any member of a set, and server 0 where there is none.
    fn any_of(&mut self, set: u8) -> u8 {
        self.shuffled(set).first().copied().unwrap_or(0)
    }

    fn other_than(&mut self, a: u8) -> u8 {
        self.any_of(self.those(|_| true) & !(1 << a))
    }

    /// The time that a client carries to a: mostly none, else what it saw elsewhere, or one ahead
    /// of a's clock, now and then with an l that is near its end.
    fn client_time(&mut self, a: u8) -> Time {
        let (elsewhere, ahead) = (self.other_than(a), self.prng.below(usize::from(AHEAD_MAX) + 1));
        let p = self.at(a).wall_clock + self.prng.below(ahead + 1) as u16;
        match self.prng.below(10) {
            0 => self.at(elsewhere).cluster_time,
            1 => Time { p, l: self.prng.below(3) as u16 },
            2 if self.one_in(3) => Time { p, l: LAST - 2 - self.prng.below(3) as u16 },
            _ => Time::ZERO,
        }
    }

    fn entry_by(&mut self, a: u8) -> Step {
        let (key, value) = (self.prng.below(16) as u8, 1 + self.prng.below(65_535) as u16);
        let client = self.client_time(a);
        match self.prng.below(5) {
            _ if self.is_idle => Step::WallClock { a },
            0 => Step::WritesNothing { a },
            _ => Step::Writes { a, key, value, client },
        }
    }
}

/// What happens.
impl Night<'_> {
    /// Takes a step if it is done, the night isn't over and no number comes to its end; true where
    /// it was taken.
    fn offer(&mut self, offered: Step) -> bool {
        let mut after = self.record;
        let is_taken = self.steps.len() < self.length
            && step(&mut after, &offered).is_ok()
            && !after.counted().iter().any(is_at_an_end);
        if is_taken {
            self.record = after;
            self.steps.push(offered);
        }
        is_taken
    }

    /// A round now and then, towards the end of the night more often; else one step.
    fn go_on(&mut self) {
        let is_late = self.length - self.steps.len() < 8;
        match self.prng.below(20) {
            0..=2 => self.spread(),
            3 | 4 => self.split(),
            5 => self.pester(),
            6 => self.fail(),
            7 => self.overtake(),
            8..=12 if is_late => self.overtake(),
            13 | 14 if is_late => self.fail(),
            _ => self.single(),
        }
    }

    fn single(&mut self) {
        let any = self.those(|_| true);
        let a = self.any_of(any);
        let b = self.other_than(a);
        let primary = self.any_of(self.primaries());
        let told = self.any_of(self.those(|server| server.queue.length > 0));
        let drawn = match self.prng.below(26) {
            0 => Step::StepDown { a: primary },
            1..=4 => Step::Hears { a, b },
            5..=9 => return self.come_after(a, b),
            10..=13 => self.entry_by(primary),
            14 | 15 => Step::Advances { a: primary },
            16 | 17 => Step::WallClock { a },
            18 => Step::Restarts { a },
            19 => Step::ClocksAgree,
            20..=22 => Step::TakesReport { a: told },
            _ => {
                self.elect_of(self.voters());
                return;
            }
        };
        self.offer(drawn);
    }

    /// Elects one of these voters by some of them, mostly after it heard of their latest term; none
    /// where too few would vote for whom it comes to.
    fn elect_of(&mut self, among: u8) -> Option<u8> {
        let latest = (0..self.count()).filter(|a| among >> a & 1 == 1);
        let latest = latest.max_by_key(|&a| self.at(a).term)?;
        self.shuffled(among).into_iter().find(|&a| {
            if self.at(latest).term > self.at(a).term && !self.one_in(4) {
                self.offer(Step::Hears { a, b: latest });
            }
            let set = self.electors_of(a, among);
            self.offer(Step::Elect { a, set })
        })
    }

    /// Some majority of those among these who would vote for a, if they are one.
    fn electors_of(&mut self, a: u8, among: u8) -> u8 {
        let candidate = *self.at(a);
        let would = |member: &Server| {
            member.term <= candidate.term && !candidate.log.is_behind(&member.log)
        };
        let all = self.those(would) & among;
        self.shuffled(all & !(1 << a)).into_iter().fold(all, |set, b| {
            let fewer = set & !(1 << b);
            let is_enough = self.record.is_majority(fewer.count_ones() as usize);
            if is_enough && self.one_in(2) { fewer } else { set }
        })
    }

    fn write_some(&mut self, a: u8) {
        for _ in 0..self.prng.below(4) {
            let entry = self.entry_by(a);
            self.offer(entry);
        }
    }

    /// Brings a after b by what is allowed, if anything is.
    fn come_after(&mut self, a: u8, b: u8) {
        if !self.offer(Step::Pulls { a, b }) {
            self.offer(Step::RollsBack { a, b });
        }
    }

    /// Some of the others come after a, or after one who did.
    fn follow(&mut self, a: u8) {
        let mut source = a;
        for b in self.shuffled(self.those(|_| true) & !(1 << a)) {
            if self.one_in(2) {
                self.come_after(b, source);
                source = if self.one_in(4) { b } else { a };
            }
        }
    }

    /// A primary's entries reach some, it takes some of their reports, covers what it can, and some
    /// hear of it.
    fn spread(&mut self) {
        let among = if self.primaries() == 0 { self.voters() } else { self.primaries() };
        let a = self.any_of(among);
        if self.at(a).role != Role::Primary {
            self.elect_of(self.voters());
        }
        self.write_some(a);
        self.follow(a);
        let waiting = self.at(a).queue.length;
        let taken = if self.one_in(3) { self.prng.below(waiting + 1) } else { waiting };
        for _ in 0..taken {
            self.offer(Step::TakesReport { a });
        }
        self.offer(Step::Advances { a });
        for b in self.shuffled(self.those(|_| true) & !(1 << a)) {
            if self.one_in(3) {
                self.offer(Step::Hears { a: b, b: a });
            }
        }
    }

    /// Primaries are overtaken, one after the other, and keep on writing.
    fn split(&mut self) {
        let mut left = self.voters();
        while let Some(a) = self.elect_of(left) {
            self.write_some(a);
            if self.one_in(2) {
                self.follow(a);
            }
            left &= !(1 << a);
            if self.one_in(3) {
                break;
            }
        }
        for a in self.shuffled(self.primaries()) {
            self.write_some(a);
        }
    }

    /// Whoever has most is left out of an election, and the later term that comes of it is all that
    /// some others hear of.
    fn overtake(&mut self) {
        let latest = (0..self.count()).filter(|&a| self.voters() >> a & 1 == 1);
        let latest = latest.max_by_key(|&a| (self.at(a).log.last_term(), self.at(a).log.length));
        let left = latest.map_or(0, |a| self.voters() & !(1 << a));
        let Some(a) = self.elect_of(left) else { return };
        for b in self.shuffled((left | self.record.followers) & !(1 << a)) {
            if !self.one_in(3) {
                self.offer(Step::Hears { a: b, b: a });
            }
        }
    }

    /// Somebody comes after a primary at every entry, and nobody takes those reports.
    fn pester(&mut self) {
        let a = self.any_of(self.primaries());
        let b = self.other_than(a);
        for _ in 0..1 + self.prng.below(9) {
            let entry = self.entry_by(a);
            self.offer(entry);
            self.come_after(b, a);
        }
    }

    /// A primary steps down, or some servers restart, or all do.
    fn fail(&mut self) {
        if self.one_in(3) {
            let a = self.any_of(self.primaries());
            self.offer(Step::StepDown { a });
            return;
        }
        let some = 1 + self.prng.below(3);
        for a in self.shuffled(self.those(|_| true)) {
            if self.one_in(some) {
                self.offer(Step::Restarts { a });
            }
        }
    }
}
