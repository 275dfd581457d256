//! Drawing the numbers of a step: mostly usual ones, now and then odd ones.

use super::Run;
use crate::model::{HIGHEST_POSITION, KINDS, Role, SERVERS, Server, Step, Time};

/// The highest position, as wide as in a step.
pub const HIGHEST: u16 = HIGHEST_POSITION as u16;
/// How often each kind is drawn among ordinary steps.
const WEIGHTS: [usize; KINDS] = [1, 3, 2, 12, 14, 6, 9, 8, 5, 3, 8, 10, 12, 2, 5, 10, 14];

impl Run {
    fn mostly<T: Copy>(&mut self, usual: T, odd: &[T]) -> T {
        if self.prng.one_in(25) { self.prng.pick(odd) } else { usual }
    }

    /// The server count, or 2 before the first start, where any number will do.
    pub(super) fn count(&self) -> usize {
        self.cluster.count.max(2)
    }

    pub(super) fn everyone(&self) -> u8 {
        (1 << self.cluster.count) - 1
    }

    /// Everyone who votes.
    pub(super) fn electors(&self) -> u8 {
        self.everyone() & !self.cluster.followers
    }

    /// The server at a number that may be out of range.
    pub(super) fn at(&self, a: u8) -> &Server {
        &self.cluster.servers[usize::from(a) % SERVERS]
    }

    fn server(&mut self) -> u8 {
        let count = self.count();
        let usual = self.prng.below(count) as u8;
        self.mostly(usual, &[count as u8, count as u8 + 1, 7, 8, 128, 255])
    }

    fn other_than(&mut self, a: u8) -> u8 {
        let count = self.count();
        let usual = (usize::from(a) + 1 + self.prng.below(count - 1)) % count;
        self.mostly(usual as u8, &[a, a, count as u8, 7, 8, 255])
    }

    pub(super) fn has_primary(&self) -> bool {
        self.cluster.counted().iter().any(|server| server.role == Role::Primary)
    }

    /// Mostly a primary; any server where there is none.
    pub(super) fn primary(&mut self) -> u8 {
        let (any, count) = (self.server(), self.count() as u8);
        let primary = self.with_most(self.everyone(), |server| server.role == Role::Primary);
        self.mostly(primary, &[any, any, count, 255])
    }

    /// Mostly a server at which reports wait; any server where none do.
    fn told(&mut self) -> u8 {
        let (any, count) = (self.server(), self.count() as u8);
        let told = self.with_most(self.everyone(), |server| server.queue.length > 0);
        self.mostly(told, &[any, any, count, 255])
    }

    /// Whom a should hear, pull from or roll back to: another primary, or just another.
    fn source_for(&mut self, a: u8) -> u8 {
        let primary = self.primary();
        if primary != a && self.prng.one_in(2) { primary } else { self.other_than(a) }
    }

    /// The server among these with most of something; of equals, any.
    pub(super) fn with_most<K: Ord>(&mut self, among: u8, what: fn(&Server) -> K) -> u8 {
        let count = self.count();
        let first = self.prng.below(count);
        let turned = (0..count).map(|i| ((first + i) % count) as u8);
        let members = turned.filter(|a| among >> a & 1 == 1);
        members.max_by_key(|&a| what(self.at(a))).unwrap_or(0)
    }

    /// Some majority that holds a, of those who would vote for it, if they are one.
    pub(super) fn voters(&mut self, a: u8, among: u8) -> u8 {
        let candidate = *self.at(a);
        let mut set = 0;
        for (i, member) in self.cluster.counted().iter().enumerate() {
            let votes = member.term <= candidate.term && !candidate.log.is_behind(&member.log);
            set |= u8::from(votes) << i & among;
        }
        for i in 0..self.count() as u8 {
            let fewer = set & !(1 << i);
            let enough = self.cluster.is_majority(fewer.count_ones() as usize);
            if i != a && enough && self.prng.one_in(2) {
                set = fewer;
            }
        }
        set
    }

    fn set(&mut self, a: u8) -> u8 {
        let any = self.prng.below(256) as u8;
        let (everyone, electors) = (self.everyone(), self.electors());
        match self.prng.below(15) {
            0 => any,
            1 => any & everyone,
            2 => everyone,
            3 => electors & !1u8.checked_shl(a.into()).unwrap_or(0),
            4 => self.voters(a, everyone),
            _ => self.voters(a, electors),
        }
    }

    fn key(&mut self) -> u8 {
        let usual = self.prng.below(4) as u8;
        self.mostly(usual, &[4, 9, 14, 15, 15, 16, 17, 254, 255, 255])
    }

    fn value(&mut self) -> u16 {
        let usual = 1 + self.prng.below(65_535) as u16;
        self.mostly(usual, &[0, 0, 1, 255, 256, 65_535])
    }

    /// A time at or beside a boundary.
    pub(super) fn time_around(&mut self, time: Time) -> Time {
        let Time { p, l } = time;
        match self.prng.below(16) {
            0 => Time { p, l: l.saturating_add(1) },
            1 => Time { p, l: l.saturating_sub(1) },
            2 => Time { p: p.saturating_add(1), l: 0 },
            3 => Time { p: p.saturating_sub(1), l: 65_535 },
            4 => Time::ZERO,
            5 => Time { p: self.prng.below(65_536) as u16, l: self.prng.below(65_536) as u16 },
            _ => time,
        }
    }

    /// Odd positions are common, so that those out of range meet every sort of count.
    fn acknowledged(&mut self, a: u8) -> Step {
        let length = self.at(a).log.length;
        let usual = 1 + self.prng.below(length.max(1)) as u16;
        let odd = [0, length as u16 + 1, HIGHEST, HIGHEST + 1, 256 + usual, 65_535];
        let position = if self.prng.one_in(8) { self.prng.pick(&odd) } else { usual };
        let term = self.at(a).log.entry(position.into()).map_or(1, |entry| entry.term);
        let term = self.mostly(term, &[0, 0, term.wrapping_add(1), term ^ 256, 65_535]);
        Step::Acknowledged { a, count: self.asked_count(), position, term }
    }

    /// Mostly 0, the only count that is answered; else a retired one, or one past the server count.
    fn asked_count(&mut self) -> u8 {
        let count = self.count() as u8;
        let below = self.prng.below(count.into()) as u8;
        let odd = [1, 1, below, count, count, count + 1, 255];
        if self.prng.one_in(3) { self.prng.pick(&odd) } else { 0 }
    }

    /// Mostly about an entry of a's own term, since only those are answered: they end its log. An
    /// older one is asked for in its own term or in a's.
    pub(super) fn newest_read(&mut self, a: u8) -> Step {
        let Server { term, log, .. } = *self.at(a);
        let older = log.entries[..log.length].iter().filter(|entry| entry.term < term).count();
        let before = if older == log.length || self.prng.one_in(8) { 0 } else { older };
        let usual = (before + 1 + self.prng.below((log.length - before).max(1))) as u16;
        let odd = [0, log.length as u16 + 1, HIGHEST, HIGHEST + 1, 256 + usual, 65_535];
        let position = self.mostly(usual, &odd);
        let of_entry = log.entry(position.into()).map_or(term, |entry| entry.term);
        let term = if self.prng.one_in(4) { of_entry } else { term };
        let term = self.mostly(term, &[0, 0, term.wrapping_add(1), term ^ 256, 65_535]);
        Step::NewestRead { a, key: self.key(), position, term }
    }

    pub(super) fn write_by(&mut self, a: u8) -> Step {
        Step::Writes { a, key: self.key(), value: self.value(), client: self.client_time(a) }
    }

    /// What makes an entry at a: mostly a write, else what writes nothing.
    pub(super) fn entry_by(&mut self, a: u8) -> Step {
        if self.prng.one_in(4) { Step::WritesNothing { a } } else { self.write_by(a) }
    }

    /// A step of a kind. A start comes out refused: a session's own begins it.
    pub(super) fn draw(&mut self, kind: usize) -> Step {
        let a = self.server();
        match kind {
            0 => self.refused_start(),
            1 => Step::Elect { a, set: self.set(a) },
            2 => Step::StepDown { a: self.primary() },
            3 => Step::Hears { a, b: self.source_for(a) },
            4 => Step::Pulls { a, b: self.source_for(a) },
            5 => Step::RollsBack { a, b: self.source_for(a) },
            6 => {
                let a = self.primary();
                self.write_by(a)
            }
            7 => Step::Advances { a: self.primary() },
            8 => Step::WallClock { a },
            9 => Step::Restarts { a },
            10 => {
                let time = self.time_around(self.at(a).applied_time());
                Step::LocalRead { a, key: self.key(), time }
            }
            11 => {
                let time = self.time_around(self.at(a).commit_time());
                Step::MajorityRead { a, key: self.key(), time }
            }
            12 => self.acknowledged(a),
            13 => Step::ClocksAgree,
            14 => Step::WritesNothing { a: self.primary() },
            15 => {
                let a = self.primary();
                self.newest_read(a)
            }
            _ => Step::TakesReport { a: self.told() },
        }
    }

    /// A kind, as often as its weight says.
    pub(super) fn kind(&mut self) -> usize {
        let mut left = self.prng.below(WEIGHTS.iter().sum());
        let mut kind = 0;
        while left >= WEIGHTS[kind] {
            left -= WEIGHTS[kind];
            kind += 1;
        }
        kind
    }
}
