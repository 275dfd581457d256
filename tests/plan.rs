//! How to get going again: the steps after which one server is primary in the highest term, all
//! have its log and every commit point covers it; or the one refusal. Written from request [12] of
//! document 02 and the seven lines of the plan alone. Tests are in `plan_tests.rs`.

use crate::frames::line_of;
use crate::model::{Cluster, Condition, ENTRIES, KEY_MAX, Server, Step, Time, step};

/// The last term, wall clock, p and l.
const LAST: u16 = u16::MAX;

/// The steps, at most four times as many as there are servers, or the number of the first refusal
/// that applies. All ties go to the lowest number, so a record has one plan.
pub fn plan(record: &Cluster, key: u8, value: u16) -> Result<Vec<Step>, u8> {
    match refusal(record, key, value) {
        Some(number) => Err(number),
        None => Plan { record: *record, steps: Vec::new() }.made(key, value),
    }
}

/// The lines of steps, as they are written.
pub fn text_of(steps: &[Step]) -> Vec<u8> {
    steps.iter().flat_map(|step| [&line_of(step)[..], b"\n"].concat()).collect()
}

/// What refuses a plan before any of its steps is tried; a server that the plan has no need of
/// counts as well.
fn refusal(record: &Cluster, key: u8, value: u16) -> Option<u8> {
    if !record.well_formed() {
        return Some(2);
    }
    let is_at_an_end = |server: &Server| {
        let Server { term, wall_clock, cluster_time: Time { p, l }, .. } = *server;
        [term, wall_clock, p, l].contains(&LAST)
    };
    let mut servers = record.counted().iter();
    let refusals = [
        (key > KEY_MAX || value == 0, 3),
        (servers.clone().any(|server| server.log.length == ENTRIES), 6),
        (servers.any(is_at_an_end), 7),
    ];
    refusals.iter().find(|(applies, _)| *applies).map(|&(_, number)| number)
}

/// A plan in the making: its steps so far, and the record as they have left it.
struct Plan {
    record: Cluster,
    steps: Vec<Step>,
}

impl Plan {
    /// The seven lines of the plan, one after the other.
    fn made(mut self, key: u8, value: u16) -> Result<Vec<Step>, u8> {
        let c = self.candidate();
        let b = self.first_with_most(|_| true, |server| server.term);
        if self.at(b).term > self.at(c).term {
            self.take(Step::Hears { a: c, b })?;
        }
        let set = self.voters();
        self.take(Step::Elect { a: c, set })?;
        self.take(Step::Writes { a: c, key, value, client: Time::ZERO })?;
        let others: Vec<u8> = self.counted().filter(|&a| a != c).collect();
        for &a in &others {
            self.come_after(a, c)?;
        }
        for _ in &others {
            self.take(Step::TakesReport { a: c })?;
        }
        self.take(Step::Advances { a: c })?;
        for &a in &others {
            self.take(Step::Hears { a, b: c })?;
        }
        Ok(self.steps)
    }

    /// One step more; the number of its refusal ends the plan.
    fn take(&mut self, taken: Step) -> Result<(), u8> {
        step(&mut self.record, &taken).map_err(Condition::number)?;
        self.steps.push(taken);
        Ok(())
    }

    /// A pull where that is allowed, as the record now is, and otherwise a rollback.
    fn come_after(&mut self, a: u8, b: u8) -> Result<(), u8> {
        self.take(Step::Pulls { a, b }).or_else(|_| self.take(Step::RollsBack { a, b }))
    }

    /// The voter that no voter is ahead of.
    fn candidate(&self) -> u8 {
        let votes = |a: u8| !self.record.is_follower(a.into());
        self.first_with_most(votes, |server| (server.log.last_term(), server.log.length))
    }

    /// Of the servers that are among these, the first of those with most of something.
    fn first_with_most<K: Ord>(&self, among: impl Fn(u8) -> bool, what: fn(&Server) -> K) -> u8 {
        let members = self.counted().filter(|&a| among(a));
        // Of equals the last that comes is taken.
        members.rev().max_by_key(|&a| what(self.at(a))).unwrap_or(0)
    }

    fn voters(&self) -> u8 {
        self.counted().fold(0, |set, a| set | 1 << a) & !self.record.followers
    }

    /// The numbers of all servers, rising.
    fn counted(&self) -> std::ops::Range<u8> {
        0..self.record.count as u8
    }

    fn at(&self, a: u8) -> &Server {
        &self.record.servers[usize::from(a)]
    }
}

#[cfg(test)]
#[path = "plan_tests.rs"]
mod tests;
