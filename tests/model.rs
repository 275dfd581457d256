//! One small replica set that can be run: the cluster record, its steps and what comes back; the
//! seventeen kinds are in `kinds.rs`, what refuses them is in `conditions.rs`, and what servers
//! report to each other is in `reports.rs`. Written from document 01, requests [1], [3], [5], [7], [9]
//! and [11] of document 02 and the rulings alone; `plain.rs` runs it over lines and `sessions.rs` steers by
//! it. Record-level tests are in `model_tests.rs`.

pub use self::conditions::{CONDITIONS, Condition};

use self::Condition::*;
use self::Role::*;
use self::conditions::refuse_if;
use self::reports::{Note, Notes, Queue};

/// The most servers a cluster has, and the number of places in the record.
pub const SERVERS: usize = 7;
/// The fewest servers that vote.
pub const FEWEST_VOTERS: usize = 2;
/// The most entries a log keeps.
pub const ENTRIES: usize = 128;
/// The highest position that can be asked for, noted and reported.
pub const HIGHEST_POSITION: usize = 128;
/// The most entries of a whole committed log.
pub const COMMITTED_ENTRIES: usize = 128;
/// How many kinds of step there are.
pub const KINDS: usize = 17;
/// The highest key that can be written and read.
pub const KEY_MAX: u8 = 15;
/// The key of the entries that write nothing, and of no others; it is neither written nor read.
const KEY_OF_NOTHING: u8 = 255;
/// The most that a client's p may be above the wall clock.
pub const AHEAD_MAX: u16 = 600;

/// Ordered by p and then by l.
#[derive(Clone, Copy, PartialEq, Eq, PartialOrd, Ord, Debug)]
pub struct Time {
    pub p: u16,
    pub l: u16,
}

#[derive(Clone, Copy, PartialEq, Eq, Debug)]
pub struct Entry {
    pub term: u16,
    pub key: u8,
    pub value: u16,
    pub time: Time,
}

/// Positions count from 1, so position n stands in slot n - 1.
#[derive(Clone, Copy, PartialEq, Eq, Debug)]
pub struct Log {
    pub entries: [Entry; ENTRIES],
    pub length: usize,
}

#[derive(Clone, Copy, PartialEq, Eq, Debug)]
pub enum Role {
    Secondary,
    Primary,
}

#[derive(Clone, Copy, PartialEq, Eq, Debug)]
pub struct Server {
    pub log: Log,
    pub term: u16,
    pub role: Role,
    pub commit_point: usize,
    pub wall_clock: u16,
    pub cluster_time: Time,
    pub notes: Notes,
    pub queue: Queue,
    /// Whom it came after last, and passes reports on to.
    pub source: Option<usize>,
}

#[derive(Clone, Copy, PartialEq, Eq, Debug)]
pub struct Cluster {
    pub count: usize,
    /// A set, in which bit i is server i: they copy as all do, but have no vote.
    pub followers: u8,
    pub servers: [Server; SERVERS],
}

/// One step: just the fields its kind uses, each as wide as on the wire. A write's client has seen
/// a time; zero is none.
#[derive(Clone, Copy, PartialEq, Eq, Debug)]
pub enum Step {
    Start { servers: u8, followers: u8 },
    Elect { a: u8, set: u8 },
    StepDown { a: u8 },
    Hears { a: u8, b: u8 },
    Pulls { a: u8, b: u8 },
    RollsBack { a: u8, b: u8 },
    Writes { a: u8, key: u8, value: u16, client: Time },
    Advances { a: u8 },
    WallClock { a: u8 },
    Restarts { a: u8 },
    LocalRead { a: u8, key: u8, time: Time },
    MajorityRead { a: u8, key: u8, time: Time },
    Acknowledged { a: u8, count: u8, position: u16, term: u16 },
    ClocksAgree,
    WritesNothing { a: u8 },
    NewestRead { a: u8, key: u8, position: u16, term: u16 },
    TakesReport { a: u8 },
}

/// The numbers of an answer to a step that was done.
#[derive(Clone, Copy, PartialEq, Eq, Debug)]
pub struct Numbers {
    pub number: u16,
    pub term: u16,
    pub time: Time,
}

/// Either the numbers or the one condition that refused.
pub type Answer = Result<Numbers, Condition>;

impl Time {
    pub const ZERO: Time = Time { p: 0, l: 0 };

    /// None where l would have to pass its limit.
    pub fn tick(self, wall_clock: u16) -> Option<Time> {
        if self.p >= wall_clock {
            self.l.checked_add(1).map(|l| Time { p: self.p, l })
        } else {
            Some(Time { p: wall_clock, l: 0 })
        }
    }
}

impl Entry {
    const ZERO: Entry = Entry { term: 0, key: 0, value: 0, time: Time::ZERO };

    pub fn writes_nothing(&self) -> bool {
        self.key == KEY_OF_NOTHING
    }

    fn in_range(&self) -> bool {
        let written = self.key <= KEY_MAX && self.value >= 1;
        self.term >= 1 && (written || self.writes_nothing() && self.value == 0)
    }

    fn may_precede(&self, next: &Entry) -> bool {
        self.term <= next.term && self.time < next.time
    }
}

impl Log {
    const EMPTY: Log = Log { entries: [Entry::ZERO; ENTRIES], length: 0 };

    /// The entries up to the length, which has to be tested first.
    fn held(&self) -> &[Entry] {
        &self.entries[..self.length]
    }

    /// The entry at a position; none at 0 or past the length.
    pub fn entry(&self, position: usize) -> Option<&Entry> {
        self.held().get(position.wrapping_sub(1))
    }

    /// The entry of that term at that position, of which kinds 12 and 15 ask.
    fn entry_of(&self, position: usize, term: u16) -> Result<&Entry, Condition> {
        let entry = self.entry(position).ok_or(NoEntry)?;
        refuse_if(entry.term != term, OtherTerm)?;
        Ok(entry)
    }

    fn time_at(&self, position: usize) -> Time {
        self.entry(position).map_or(Time::ZERO, |entry| entry.time)
    }

    pub fn last_term(&self) -> u16 {
        self.entry(self.length).map_or(0, |entry| entry.term)
    }

    pub fn is_behind(&self, other: &Log) -> bool {
        (self.last_term(), self.length) < (other.last_term(), other.length)
    }

    /// The length of the longest common beginning.
    fn common_with(&self, other: &Log) -> usize {
        let pairs = self.held().iter().zip(other.held());
        pairs.take_while(|(mine, others)| mine == others).count()
    }

    /// The value of the last entry for the key among the first so many; 0 if none.
    pub fn value_of(&self, key: u8, among: usize) -> u16 {
        let last = self.entries[..among].iter().rev().find(|entry| entry.key == key);
        last.map_or(0, |entry| entry.value)
    }

    /// Only for a log that isn't full.
    fn push(&mut self, entry: Entry) {
        self.entries[self.length] = entry;
        self.length += 1;
    }

    /// Keeps its own entries, even where the other's beginning differs from them.
    fn append_rest_of(&mut self, other: &Log) {
        let rest = self.length..other.length;
        self.entries[rest.clone()].copy_from_slice(&other.entries[rest]);
        self.length = other.length;
    }

    fn well_formed(&self) -> bool {
        self.length <= ENTRIES
            && are_in_order(self.held())
            && self.entries[self.length..].iter().all(|slot| *slot == Entry::ZERO)
    }
}

/// Whether entries could stand so one after the other in a log that has room for them.
pub fn are_in_order(entries: &[Entry]) -> bool {
    entries.iter().all(Entry::in_range) && entries.windows(2).all(|two| two[0].may_precede(&two[1]))
}

impl Server {
    /// What stands in a place past the server count.
    const ZERO: Server = Server {
        log: Log::EMPTY,
        term: 0,
        role: Secondary,
        commit_point: 0,
        wall_clock: 0,
        cluster_time: Time::ZERO,
        notes: [Note::UNUSED; SERVERS],
        queue: Queue::EMPTY,
        source: None,
    };

    const FRESH: Server = Server { wall_clock: 1, ..Server::ZERO };

    pub fn applied_time(&self) -> Time {
        self.log.time_at(self.log.length)
    }

    pub fn commit_time(&self) -> Time {
        self.log.time_at(self.commit_point)
    }

    /// Whether a client's clock is further ahead than a sound one would be, in numbers wide enough
    /// for a sum that is past what a clock can show.
    pub fn is_outrun_by(&self, client: Time) -> bool {
        u32::from(client.p) > u32::from(self.wall_clock) + u32::from(AHEAD_MAX)
    }

    /// What a pull and a rollback take over besides the log.
    fn take_greater(&mut self, other: &Server) {
        self.term = self.term.max(other.term);
        self.cluster_time = self.cluster_time.max(other.cluster_time);
        self.commit_point = self.commit_point.max(other.commit_point);
    }

    /// The last entry bounds all terms and times, since neither falls along a log.
    fn well_formed(&self, number: usize, count: usize) -> bool {
        self.log.well_formed()
            && self.log.last_term() <= self.term
            && self.applied_time() <= self.cluster_time
            && self.commit_point <= self.log.length
            && (self.role == Secondary || self.term >= 1)
            && self.wall_clock >= 1
            && self.reports_well_formed(number, count)
    }
}

impl Numbers {
    /// The answer of the kinds that fill nothing.
    pub const NONE: Numbers = Numbers { number: 0, term: 0, time: Time::ZERO };

    /// A position or length, which in a well-formed record is at most the highest position.
    fn place(place: usize) -> Numbers {
        Numbers { number: place as u16, ..Numbers::NONE }
    }

    fn entry_at(position: usize, entry: &Entry) -> Numbers {
        Numbers { term: entry.term, time: entry.time, ..Numbers::place(position) }
    }

    /// What a read shows: a value, and the time up to which it was read.
    fn value(value: u16, time: Time) -> Numbers {
        Numbers { number: value, time, ..Numbers::NONE }
    }
}

impl Step {
    pub fn kind(&self) -> u8 {
        match self {
            Step::Start { .. } => 0,
            Step::Elect { .. } => 1,
            Step::StepDown { .. } => 2,
            Step::Hears { .. } => 3,
            Step::Pulls { .. } => 4,
            Step::RollsBack { .. } => 5,
            Step::Writes { .. } => 6,
            Step::Advances { .. } => 7,
            Step::WallClock { .. } => 8,
            Step::Restarts { .. } => 9,
            Step::LocalRead { .. } => 10,
            Step::MajorityRead { .. } => 11,
            Step::Acknowledged { .. } => 12,
            Step::ClocksAgree => 13,
            Step::WritesNothing { .. } => 14,
            Step::NewestRead { .. } => 15,
            Step::TakesReport { .. } => 16,
        }
    }
}

/// What the steps share.
impl Cluster {
    /// The record before the first start.
    pub const ZERO: Cluster = Cluster { count: 0, followers: 0, servers: [Server::ZERO; SERVERS] };

    /// Without followers.
    fn fresh(count: usize) -> Cluster {
        let mut cluster = Cluster { count, ..Cluster::ZERO };
        cluster.servers[..count].fill(Server::FRESH);
        cluster
    }

    pub fn well_formed(&self) -> bool {
        let counted = || self.counted().iter().enumerate();
        (2..=SERVERS).contains(&self.count)
            && self.followers >> self.count == 0
            && self.voters() >= FEWEST_VOTERS
            && !counted().any(|(number, server)| self.is_follower(number) && server.role == Primary)
            && counted().all(|(number, server)| server.well_formed(number, self.count))
            && self.servers[self.count..].iter().all(|place| *place == Server::ZERO)
    }

    /// The servers below the count, which has to be at most seven.
    pub fn counted(&self) -> &[Server] {
        &self.servers[..self.count]
    }

    /// Of a server below the count.
    pub fn is_follower(&self, number: usize) -> bool {
        self.followers >> number & 1 == 1
    }

    /// How many vote; only where every follower is below the count.
    pub fn voters(&self) -> usize {
        self.count - self.followers.count_ones() as usize
    }

    /// Whether so many voters are more than half of them.
    pub fn is_majority(&self, members: usize) -> bool {
        2 * members > self.voters()
    }

    fn server(&mut self, a: usize) -> Result<&mut Server, Condition> {
        refuse_if(a >= self.count, ServerOutside)?;
        Ok(&mut self.servers[a])
    }

    /// Both servers of kinds 3, 4 and 5; once both are counted, only a = b can overlap.
    fn two_servers(&mut self, a: usize, b: usize) -> Result<(&mut Server, &Server), Condition> {
        refuse_if(a >= self.count, ServerOutside)?;
        refuse_if(b >= self.count, OtherServerOutside)?;
        let both = self.servers.get_disjoint_mut([a, b]);
        let [a, b] = both.map_err(|_| SameServer)?;
        Ok((a, b))
    }

    /// Whether a position above a's commit point and inside its log passes at a, which counts
    /// itself and whom its notes say so of, followers left out; what it has noted of itself isn't
    /// looked at.
    fn passes(&self, a: usize, position: usize) -> bool {
        let Server { term, log, notes, .. } = &self.servers[a];
        let backs = |b: usize| b == a || notes[b].reaches(*term, position);
        let backers = (0..self.count).filter(|&b| !self.is_follower(b) && backs(b)).count();
        log.entries[position - 1].term == *term && self.is_majority(backers)
    }
}

#[path = "conditions.rs"]
mod conditions;
#[path = "kinds.rs"]
pub mod kinds;
#[path = "reports.rs"]
pub mod reports;

pub use self::kinds::step;

#[cfg(test)]
#[path = "model_tests.rs"]
mod tests;
