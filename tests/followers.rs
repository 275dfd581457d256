//! Followers in a session: which there are, starts that are refused for them or otherwise, and rounds
//! about what they have no part in, for all that they hold.

use super::Run;
use crate::model::{FEWEST_VOTERS, SERVERS, Server, Step};

/// So many of the first servers, as a set.
fn first(count: usize) -> u8 {
    (1u8 << count) - 1
}

impl Run {
    pub(super) fn has_followers(&self) -> bool {
        self.cluster.followers != 0
    }

    /// Mostly none; else any that leave enough voters, and now and then not one more.
    pub(super) fn some_followers(&mut self, servers: u8) -> u8 {
        if !self.prng.one_in(4) {
            return 0;
        }
        let servers = usize::from(servers);
        let most = servers - FEWEST_VOTERS;
        let so_many = if self.prng.one_in(3) { most } else { self.prng.below(most + 1) };
        self.any_of(first(servers), so_many)
    }

    /// Any so many members of a set, which has as many.
    fn any_of(&mut self, set: u8, so_many: usize) -> u8 {
        let mut left: Vec<u8> = (0..8).filter(|i| set >> i & 1 == 1).collect();
        (0..so_many).fold(0, |any, _| any | 1 << left.swap_remove(self.prng.below(left.len())))
    }

    /// A start that is refused: by its count, by a follower past that, or by too few voters; mostly
    /// by that alone.
    pub(super) fn refused_start(&mut self) -> Step {
        let count = 2 + self.prng.below(SERVERS - 1);
        let any = self.prng.below(256) as u8;
        let past = self.prng.pick(&[1 << count, 0x80, any | 1 << count]);
        let few = self.prng.below(FEWEST_VOTERS);
        match self.prng.below(9) {
            0 | 1 => Step::Start { servers: self.prng.pick(&[0, 1, 8, 9, 128, 255]), followers: 0 },
            2 => Step::Start { servers: self.prng.pick(&[0, 1, 8, 9, 128, 255]), followers: any },
            3 => Step::Start { servers: 8, followers: self.prng.pick(&[1, 0x80, 0x41]) },
            4 | 5 => Step::Start { servers: count as u8, followers: past },
            _ => {
                let followers = self.any_of(first(count), count - few);
                Step::Start { servers: count as u8, followers }
            }
        }
    }

    /// Some follower, in a session that has one.
    fn any_follower(&mut self) -> u8 {
        let followers = self.cluster.followers;
        self.any_of(followers, 1).trailing_zeros() as u8
    }

    /// One of the rounds below.
    pub(super) fn gate(&mut self) {
        match self.prng.below(4) {
            0 => self.candidate(),
            1 => self.pass_over(),
            2 => self.crowd(),
            _ => self.copied_by_one(),
        }
    }

    /// A primary is asked for again by no more than half of the voters. Then a follower that nobody
    /// is ahead of is asked for, by a set that would do if it had a vote, by voters alone, or by
    /// others of its sort; in the end it is the only one that is asked.
    fn candidate(&mut self) {
        let electors = self.electors();
        let primary = self.elect_of(electors);
        let half = self.any_of(electors & !(1 << primary), self.cluster.voters() / 2 - 1);
        self.say(Step::Elect { a: primary, set: half | 1 << primary });
        self.some_entry(primary);
        let a = self.any_follower();
        self.catch_up(a, primary);
        self.offer(Step::Hears { a, b: primary });
        let everyone = self.everyone();
        let sets = [everyone, electors | 1 << a, electors, self.cluster.followers, 1 << a];
        let set = self.prng.pick(&sets);
        self.say(Step::Elect { a, set });
        let set = self.voters(a, everyone);
        self.say(Step::Elect { a, set });
        self.say(Step::Elect { a: primary, set: 1 << a });
    }

    /// A follower has what its primary alone has, and no part in the election of the next, which is
    /// behind it: who asks it too is refused. The old primary comes after the next by that follower.
    fn pass_over(&mut self) {
        let electors = self.electors();
        let old = self.elect_of(electors);
        self.follow(old);
        self.some_entry(old);
        let a = self.any_follower();
        self.catch_up(a, old);
        let rest = electors & !(1 << old);
        let b = self.with_most(rest, |server| (server.log.last_term(), server.log.length));
        self.say(Step::Elect { a, set: rest | 1 << a });
        self.say(Step::Elect { a: b, set: rest | 1 << a });
        let new = self.elect_of(rest);
        if self.prng.one_in(2) {
            let set = self.voters(new, self.everyone()) | 1 << a;
            self.say(Step::Elect { a: new, set });
        }
        self.some_entry(new);
        self.offer(Step::Hears { a, b: new });
        self.come_after(a, new);
        self.offer(Step::Hears { a: old, b: a });
        self.come_after(old, a);
    }

    /// Followers come after a primary, and tell it so, before its voters do; each voter that comes
    /// after that may be the one that was missing.
    fn crowd(&mut self) {
        let a = self.elect_of(self.electors());
        self.some_entry(a);
        if self.prng.one_in(2) {
            self.follow(a);
            self.take_in(a);
            self.some_entry(a);
        }
        let (followers, voters): (Vec<u8>, Vec<u8>) = {
            let set = self.cluster.followers;
            self.others(&[a]).into_iter().partition(|b| set >> b & 1 == 1)
        };
        for b in followers {
            self.come_after(b, a);
        }
        self.take_in(a);
        self.say(Step::Advances { a });
        for b in voters {
            self.come_after(b, a);
            self.take_in(a);
            self.offer(Step::Advances { a });
        }
    }

    /// All others come after a follower, which passes on what they tell it; then it is asked for what
    /// a primary alone does, and for reads and an acknowledgement of what it may not have yet.
    fn copied_by_one(&mut self) {
        let primary = self.elect_of(self.electors());
        self.some_entry(primary);
        let a = self.any_follower();
        self.come_after(a, primary);
        for b in self.others(&[a, primary]) {
            self.come_after(b, a);
        }
        self.take_in(a);
        self.take_in(primary);
        self.offer(Step::Advances { a: primary });
        if self.prng.one_in(2) {
            self.offer(Step::Hears { a, b: primary });
        }
        self.write_some(primary);
        let entry = self.entry_by(a);
        let read = self.newest_read(a);
        let asked = [Step::StepDown { a }, entry, Step::Advances { a }, read];
        let said = self.prng.pick(&asked);
        self.say(said);
        let Server { log, term, .. } = *self.at(a);
        let (position, time) = (log.length as u16, self.at(primary).applied_time());
        self.offer(Step::LocalRead { a, key: 0, time });
        self.offer(Step::MajorityRead { a, key: 0, time });
        self.offer(Step::Acknowledged { a, count: 0, position, term });
    }
}
