//! What happens to reports in a session: they are taken, passed on, held up and lost.

use super::Run;
use crate::model::Step;
use crate::model::reports::REPORTS;

impl Run {
    /// Mostly takes all the reports that wait at a, and asks for one more.
    pub(super) fn take_in(&mut self, a: u8) {
        let waiting = self.at(a).queue.length;
        let taken = if self.prng.one_in(6) { self.prng.below(waiting + 1) } else { waiting + 1 };
        for _ in 0..taken {
            self.offer(Step::TakesReport { a });
        }
    }

    /// One of the rounds below, the longest least often.
    pub(super) fn relay(&mut self) {
        match self.prng.below(13) {
            0 => self.flood(),
            1 | 2 => self.row(),
            3 | 4 => self.circle(),
            5 | 6 => self.outlast(),
            7 | 8 => self.mislead(),
            9 | 10 => self.raise(),
            _ => self.detour(),
        }
    }

    /// All servers in any order.
    fn shuffled(&mut self) -> Vec<u8> {
        let mut left: Vec<u8> = (0..self.count() as u8).collect();
        (0..left.len()).map(|_| left.swap_remove(self.prng.below(left.len()))).collect()
    }

    /// All servers but these, in any order.
    pub(super) fn others(&mut self, these: &[u8]) -> Vec<u8> {
        self.shuffled().into_iter().filter(|a| !these.contains(a)).collect()
    }

    /// All voters but these, in any order.
    pub(super) fn peers(&mut self, these: &[u8]) -> Vec<u8> {
        let electors = self.electors();
        self.others(these).into_iter().filter(|a| electors >> a & 1 == 1).collect()
    }

    /// Elects a by these, after it heard of their latest term.
    pub(super) fn elect_by(&mut self, a: u8, set: u8) {
        let b = self.with_most(set, |server| server.term);
        if self.at(b).term > self.at(a).term {
            self.offer(Step::Hears { a, b });
        }
        self.offer(Step::Elect { a, set });
    }

    pub(super) fn some_entry(&mut self, a: u8) {
        self.offer_entry(a);
        self.write_some(a);
    }

    /// Servers come after one another in a row, and their reports go back along it.
    fn row(&mut self) {
        let first = self.elect_of(self.electors());
        self.some_entry(first);
        let mut row = vec![first];
        for a in self.others(&[first]) {
            self.come_after(a, row[row.len() - 1]);
            row.push(a);
        }
        if self.prng.one_in(4) {
            let a = self.prng.pick(&row);
            self.offer(Step::Restarts { a });
        }
        for &a in row.iter().rev() {
            self.take_in(a);
        }
        self.offer(Step::Advances { a: first });
    }

    /// More reports than a queue holds: the last that it loses is of one that may have to roll back
    /// and then has a report to pass on.
    fn flood(&mut self) {
        let old = self.elect_of(self.electors());
        let rest = self.electors() & !(1 << old);
        let split = self.cluster.is_majority(rest.count_ones() as usize);
        let new = if split { self.elect_of(rest) } else { old };
        self.some_entry(old);
        let others = self.others(&[old, new]);
        for _ in 0..2 * REPORTS {
            if !self.at(new).queue.is_full() {
                self.some_entry(new);
                for &a in &others {
                    self.come_after(a, new);
                }
            }
        }
        self.some_entry(new);
        let last = if split { old } else { others[0] };
        self.offer(Step::Hears { a: last, b: new });
        self.come_after(last, new);
        self.come_after(others[0], last);
        if self.prng.one_in(2) {
            self.take_in(new);
        }
        self.take_in(last);
        self.take_in(new);
        self.offer(Step::Advances { a: new });
    }

    /// Two servers come after each other, so that reports go round.
    fn circle(&mut self) {
        let a = self.elect_of(self.electors());
        self.some_entry(a);
        let b = self.peers(&[a])[0];
        self.come_after(b, a);
        let set = self.voters(b, self.electors());
        self.offer(Step::Elect { a: b, set });
        self.some_entry(b);
        self.come_after(a, b);
        for c in self.others(&[a, b]) {
            self.come_after(c, b);
        }
        if self.prng.one_in(2) {
            self.offer(Step::StepDown { a: b });
        } else if self.prng.one_in(2) {
            self.elect_of(self.electors());
        }
        for _ in 0..3 {
            self.take_in(b);
            self.take_in(a);
        }
        self.offer(Step::Advances { a: b });
        self.offer(Step::Advances { a });
    }

    /// A report waits on its way while its server sends a newer one straight to the primary.
    fn detour(&mut self) {
        let primary = self.elect_of(self.electors());
        self.some_entry(primary);
        let others = self.others(&[primary]);
        let (between, late) = (others[0], others[others.len() - 1]);
        self.come_after(between, primary);
        if self.prng.one_in(2) {
            self.elect_by(primary, self.electors() & !(1 << between));
        }
        self.come_after(late, between);
        if self.prng.one_in(2) {
            self.elect_of(self.electors());
        }
        self.some_entry(primary);
        self.come_after(late, primary);
        for a in self.shuffled() {
            self.take_in(a);
        }
        self.take_in(primary);
        self.offer(Step::Advances { a: primary });
    }

    /// Servers in a primary's term come after one with a longer log of an older term, which passes
    /// their reports on to that primary.
    fn mislead(&mut self) {
        let right = self.elect_of(self.electors());
        self.some_entry(right);
        let wrong = self.peers(&[right])[0];
        let others = self.others(&[right, wrong]);
        let [without_right, without_wrong] = [right, wrong].map(|a| self.electors() & !(1 << a));
        self.come_after(wrong, right);
        self.elect_by(wrong, without_right);
        for _ in 0..4 {
            self.some_entry(wrong);
        }
        for times in 0..1 + self.prng.below(2) {
            self.elect_by(right, without_wrong);
            self.offer_entry(right);
            for &a in others.iter().filter(|_| times == 0) {
                let b = self.prng.pick(&[right, wrong, wrong, wrong]);
                self.come_after(a, b);
            }
        }
        self.offer(Step::Hears { a: wrong, b: right });
        self.take_in(wrong);
        self.take_in(right);
        self.say(Step::Advances { a: right });
    }

    /// A primary hears of its entries from servers that got them in a later term.
    fn outlast(&mut self) {
        let old = self.elect_of(self.electors());
        self.some_entry(old);
        let new = self.peers(&[old])[0];
        self.come_after(new, old);
        self.elect_by(new, self.electors() & !(1 << old));
        for a in self.others(&[old, new]) {
            self.come_after(a, new);
        }
        self.offer(Step::StepDown { a: new });
        self.take_in(new);
        self.take_in(old);
        self.say(Step::Advances { a: old });
    }

    /// A primary hears of its entries from a server that was in its term until it got them: in that
    /// term it would make up the majority. Fewer than five can't elect the next without both.
    fn raise(&mut self) {
        if self.cluster.voters() < 5 {
            return self.outlast();
        }
        let electors = self.electors();
        let raised = self.elect_of(electors);
        if self.prng.one_in(2) {
            self.offer_entry(raised);
        }
        let old = self.elect_of(electors & !(1 << raised));
        self.some_entry(old);
        self.offer(Step::Hears { a: raised, b: old });
        let peers = self.peers(&[old, raised]);
        for &a in &peers[..self.cluster.voters() / 2 - 1] {
            self.come_after(a, old);
        }
        let new = peers[0];
        self.elect_by(new, electors & !(1 << old | 1 << raised));
        self.come_after(raised, new);
        self.offer(Step::StepDown { a: new });
        self.take_in(new);
        self.take_in(old);
        self.say(Step::Advances { a: old });
    }
}
