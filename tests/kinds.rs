//! The step over the record, and one function a kind: its tests in order, then what holds afterwards.

use super::Condition::*;
use super::Role::*;
use super::{Answer, Cluster, Condition, ENTRIES, Entry, FEWEST_VOTERS, HIGHEST_POSITION};
use super::{KEY_MAX, KEY_OF_NOTHING, Numbers, SERVERS, Server, Step, Time, refuse_if};

/// Takes one step in place; a refused one leaves the record as it was.
pub fn step(cluster: &mut Cluster, step: &Step) -> Answer {
    step_where(Cluster::well_formed, cluster, step)
}

/// The same with another test of the record in the place of "well formed".
pub fn step_where(holds: impl Fn(&Cluster) -> bool, cluster: &mut Cluster, step: &Step) -> Answer {
    let looks_at_record = !matches!(step, Step::Start { .. });
    refuse_if(looks_at_record && !holds(cluster), NotWellFormed)?;
    match *step {
        Step::Start { servers, followers } => cluster.start(servers.into(), followers),
        Step::Elect { a, set } => cluster.elect(a.into(), set),
        Step::StepDown { a } => cluster.step_down(a.into()),
        Step::Hears { a, b } => cluster.hears(a.into(), b.into()),
        Step::Pulls { a, b } => cluster.pulls(a.into(), b.into()),
        Step::RollsBack { a, b } => cluster.rolls_back(a.into(), b.into()),
        Step::Writes { a, key, value, client } => cluster.writes(a.into(), key, value, client),
        Step::Advances { a } => cluster.advances(a.into()),
        Step::WallClock { a } => cluster.wall_clock(a.into()),
        Step::Restarts { a } => cluster.restarts(a.into()),
        Step::LocalRead { a, key, time } => cluster.local_read(a.into(), key, time),
        Step::MajorityRead { a, key, time } => cluster.majority_read(a.into(), key, time),
        Step::Acknowledged { a, count, position, term } => {
            cluster.acknowledged(a.into(), count.into(), position.into(), term)
        }
        Step::ClocksAgree => cluster.clocks_agree(),
        Step::WritesNothing { a } => cluster.writes_nothing(a.into()),
        Step::NewestRead { a, key, position, term } => {
            cluster.newest_read(a.into(), key, position.into(), term)
        }
        Step::TakesReport { a } => cluster.takes_report(a.into()),
    }
}

/// A key that can be written and read. That of nothing is a condition of its own, so that the tally
/// shows that it was asked for.
fn refuse_key(key: u8) -> Result<(), Condition> {
    refuse_if(key == KEY_OF_NOTHING, KeyOfNothing)?;
    refuse_if(key > KEY_MAX, KeyAbove15)
}

/// A position that an entry can have, and a term that it can have.
fn refuse_place(position: usize, term: u16) -> Result<(), Condition> {
    refuse_if(position == 0, PositionZero)?;
    refuse_if(position > HIGHEST_POSITION, PositionAboveHighest)?;
    refuse_if(term == 0, TermZero)
}

impl Server {
    /// What a write and an entry that writes nothing share: a primary's entry, stamped by a tick
    /// that starts from the later of the cluster time and the client's.
    fn append_stamped(&mut self, key: u8, value: u16, client: Time) -> Answer {
        refuse_if(self.role != Primary, NotPrimary)?;
        refuse_if(self.log.length == ENTRIES, LogFull)?;
        let from = self.cluster_time.max(client);
        let time = from.tick(self.wall_clock).ok_or(TickAtLimit)?;
        let entry = Entry { term: self.term, key, value, time };
        self.cluster_time = time;
        self.log.push(entry);
        Ok(Numbers::entry_at(self.log.length, &entry))
    }
}

impl Cluster {
    fn start(&mut self, servers: usize, followers: u8) -> Answer {
        refuse_if(servers < 2, StartBelow2)?;
        refuse_if(servers > SERVERS, StartAbove7)?;
        refuse_if(followers >> servers != 0, FollowerOutside)?;
        let started = Cluster { followers, ..Cluster::fresh(servers) };
        refuse_if(started.voters() < FEWEST_VOTERS, FewVoters)?;
        *self = started;
        Ok(Numbers::NONE)
    }

    fn elect(&mut self, a: usize, set: u8) -> Answer {
        let is_member = |i: usize| set >> i & 1 == 1;
        refuse_if(a >= self.count, ServerOutside)?;
        refuse_if(set >> self.count != 0, MemberOutside)?;
        refuse_if(self.is_follower(a), FollowerElected)?;
        refuse_if(set & self.followers != 0, FollowerInSet)?;
        refuse_if(!self.is_majority(set.count_ones() as usize), NotAMajority)?;
        refuse_if(!is_member(a), OutsideItsSet)?;
        let candidate = &self.servers[a];
        let members = || self.counted().iter().enumerate().filter(|(i, _)| is_member(*i));
        refuse_if(members().any(|(_, m)| m.term > candidate.term), MemberTermAbove)?;
        refuse_if(members().any(|(_, m)| candidate.log.is_behind(&m.log)), BehindAMember)?;
        let term = candidate.term.checked_add(1).ok_or(TermAtLimit)?;
        for i in (0..self.count).filter(|i| is_member(*i)) {
            self.servers[i].term = term;
            self.servers[i].role = if i == a { Primary } else { Secondary };
        }
        self.servers[a].forget_reports();
        Ok(Numbers { term, ..Numbers::NONE })
    }

    fn step_down(&mut self, a: usize) -> Answer {
        let a = self.server(a)?;
        refuse_if(a.role != Primary, NotPrimary)?;
        a.role = Secondary;
        Ok(Numbers::NONE)
    }

    fn hears(&mut self, a: usize, b: usize) -> Answer {
        let (a, b) = self.two_servers(a, b)?;
        a.cluster_time = a.cluster_time.max(b.cluster_time);
        if b.term > a.term {
            a.term = b.term;
            a.role = Secondary;
        }
        // Above a's commit point b's is at least 1, so b has an entry there and a must hold it.
        let n = b.commit_point;
        if n > a.commit_point && a.log.entry(n) == b.log.entry(n) {
            a.commit_point = n;
        }
        Ok(Numbers::NONE)
    }

    fn pulls(&mut self, a: usize, b: usize) -> Answer {
        let (puller, from) = self.two_servers(a, b)?;
        refuse_if(puller.role != Secondary, NotSecondary)?;
        refuse_if(puller.log.length >= from.log.length, NotShorter)?;
        // At position 0 neither has an entry, so an empty log passes.
        let n = puller.log.length;
        refuse_if(puller.log.entry(n) != from.log.entry(n), LastEntryDiffers)?;
        puller.log.append_rest_of(&from.log);
        puller.take_greater(from);
        Ok(self.reports_to(a, b))
    }

    fn rolls_back(&mut self, a: usize, b: usize) -> Answer {
        let (loser, winner) = self.two_servers(a, b)?;
        refuse_if(loser.role != Secondary, NotSecondary)?;
        refuse_if(loser.log.length == 0, LogEmpty)?;
        refuse_if(loser.log.last_term() >= winner.log.last_term(), LastTermNotBelow)?;
        let common = loser.log.common_with(&winner.log);
        refuse_if(common == loser.log.length, ABeginning)?;
        refuse_if(common < loser.commit_point, CommonBelowCommitPoint)?;
        // A common beginning and then the rest of b's log is b's log.
        loser.log = winner.log;
        loser.take_greater(winner);
        Ok(self.reports_to(a, b))
    }

    /// What a pull and a rollback end with, once a has b's entries: b is a's source and is told how
    /// far a has come.
    fn reports_to(&mut self, a: usize, b: usize) -> Numbers {
        self.servers[a].source = Some(b);
        let report = self.servers[a].report_of(a);
        self.servers[b].queue.receive(report);
        Numbers::place(report.note.length)
    }

    fn writes(&mut self, a: usize, key: u8, value: u16, client: Time) -> Answer {
        let a = self.server(a)?;
        refuse_key(key)?;
        refuse_if(value == 0, ValueZero)?;
        refuse_if(a.is_outrun_by(client), ClockAhead)?;
        a.append_stamped(key, value, client)
    }

    fn advances(&mut self, a: usize) -> Answer {
        refuse_if(a >= self.count, ServerOutside)?;
        let server = &self.servers[a];
        refuse_if(server.role != Primary, NotPrimary)?;
        let mut above = (server.commit_point + 1..=server.log.length).rev();
        let highest = above.find(|&position| self.passes(a, position));
        let commit_point = highest.ok_or(NothingPasses)?;
        self.servers[a].commit_point = commit_point;
        Ok(Numbers::place(commit_point))
    }

    fn wall_clock(&mut self, a: usize) -> Answer {
        let a = self.server(a)?;
        a.wall_clock = a.wall_clock.checked_add(1).ok_or(WallClockAtLimit)?;
        Ok(Numbers::NONE)
    }

    fn restarts(&mut self, a: usize) -> Answer {
        let a = self.server(a)?;
        a.role = Secondary;
        a.commit_point = 0;
        a.cluster_time = a.applied_time();
        a.forget_reports();
        a.source = None;
        Ok(Numbers::NONE)
    }

    fn local_read(&mut self, a: usize, key: u8, asked: Time) -> Answer {
        let a = self.server(a)?;
        refuse_key(key)?;
        let time = a.applied_time();
        refuse_if(time < asked, AppliedTimeBefore)?;
        Ok(Numbers::value(a.log.value_of(key, a.log.length), time))
    }

    fn majority_read(&mut self, a: usize, key: u8, asked: Time) -> Answer {
        let a = self.server(a)?;
        refuse_key(key)?;
        let time = a.commit_time();
        refuse_if(time < asked, CommitTimeBefore)?;
        Ok(Numbers::value(a.log.value_of(key, a.commit_point), time))
    }

    /// Only count 0 is answered, since what so many hold can still be lost. Refusal 10 comes before
    /// 8: only an entry of that term can be waited for.
    fn acknowledged(&mut self, a: usize, count: usize, position: usize, term: u16) -> Answer {
        refuse_if(a >= self.count, ServerOutside)?;
        refuse_if(count > self.count, CountAbove)?;
        refuse_place(position, term)?;
        refuse_if(count > 0, CountRetired)?;
        let server = &self.servers[a];
        let entry = server.log.entry_of(position, term)?;
        refuse_if(server.commit_point < position, CommitPointBelow)?;
        Ok(Numbers::entry_at(position, entry))
    }

    fn clocks_agree(&mut self) -> Answer {
        let greatest = self.counted().iter().fold(0, |clock, server| clock.max(server.wall_clock));
        for server in &mut self.servers[..self.count] {
            server.wall_clock = greatest;
        }
        Ok(Numbers::NONE)
    }

    /// It is nobody's write and so carries no time.
    fn writes_nothing(&mut self, a: usize) -> Answer {
        self.server(a)?.append_stamped(KEY_OF_NOTHING, 0, Time::ZERO)
    }

    /// Only the primary of the asked entry's own term answers, once that entry is committed.
    fn newest_read(&mut self, a: usize, key: u8, position: usize, term: u16) -> Answer {
        let a = self.server(a)?;
        refuse_key(key)?;
        refuse_place(position, term)?;
        refuse_if(a.role != Primary, NotPrimary)?;
        refuse_if(a.term != term, PrimaryOfOtherTerm)?;
        let entry = a.log.entry_of(position, term)?;
        refuse_if(a.commit_point < position, CommitPointBelow)?;
        Ok(Numbers::value(a.log.value_of(key, position), entry.time))
    }

    /// The oldest report is noted where it is greater than the note, and passed on as it came; a's
    /// own term stays, whatever the report's is.
    fn takes_report(&mut self, a: usize) -> Answer {
        let a = self.server(a)?;
        let report = a.queue.take_oldest().ok_or(QueueEmpty)?;
        let note = &mut a.notes[report.who];
        *note = report.note.max(*note);
        if let Some(source) = a.passes_on_to() {
            self.servers[source].queue.receive(report);
        }
        Ok(Numbers::NONE)
    }
}
