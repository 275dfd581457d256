//! Sessions in which phones keep diaries: they write, ask whether it is acknowledged, read with the
//! latest time that they have seen, and go from server to server, while all else goes on.

use super::Run;
use crate::honest::{honest, text_of};
use crate::lies::lies;
use crate::model::{AHEAD_MAX, ENTRIES, Numbers, Step, Time};
use crate::texts::write_texts;
use std::{fs, io};

/// How many phones there are.
const PHONES: usize = 4;

/// Where a phone is, the latest time that it has seen, and its writes that it awaits an
/// acknowledgement of, as they were answered.
struct Phone {
    at: u8,
    seen: Time,
    awaits: Vec<Numbers>,
}

impl Phone {
    const NEW: Phone = Phone { at: 0, seen: Time::ZERO, awaits: Vec::new() };
}

/// The lines of a run that has room to fill a log in the end.
const ROOM_TO_FILL: usize = 1_000;

pub fn write_diaries(seed: u64, lines: usize, most: usize, folder: &str) -> io::Result<()> {
    let mut run = Run::new(seed);
    run.diaries(lines);
    let honest = honest(&mut run.prng, &run.text);
    fs::create_dir_all(format!("{folder}/lies"))?;
    fs::write(format!("{folder}/steps"), &run.text)?;
    fs::write(format!("{folder}/phones"), text_of(&honest.records))?;
    for (sort, texts) in lies(&mut run.prng, &honest) {
        write_texts(&mut run.prng, most, &format!("{folder}/lies/{sort}"), texts)?;
    }
    Ok(())
}

impl Run {
    /// About so many lines; in some runs others come before the start, or a whole session. In most
    /// the first or the last voter alone covers what is covered last: nothing spreads after that. Of
    /// the others, long ones fill a log. In some no server covers anything any more in the end.
    pub(super) fn diaries(&mut self, lines: usize) {
        match self.prng.below(6) {
            0 => self.before_first_start(),
            1 => self.session(lines / 2),
            _ => {}
        }
        self.begin();
        let mut phones = [0; PHONES].map(|_| Phone::NEW);
        let [first, last] = self.outermost();
        let alone = self.prng.pick(&[None, Some(first), Some(last)]);
        let fills = alone.is_none() && lines >= ROOM_TO_FILL;
        while self.written < lines && !((alone.is_some() || fills) && self.is_nearly_full()) {
            let phone = &mut phones[self.prng.below(PHONES)];
            match self.prng.below(16) {
                0..=6 => self.visit(phone),
                7 => self.see_through(phone),
                8 => self.lose(phone),
                _ => self.go_on(),
            }
        }
        match alone {
            Some(a) => self.cover_alone(&mut phones[0], a),
            None if fills => self.fill_and_cover(),
            None => {}
        }
        while self.written < lines {
            let phone = self.prng.below(PHONES);
            self.visit(&mut phones[phone]);
        }
        if self.prng.one_in(6) {
            (0..self.count() as u8).for_each(|a| self.say(Step::Restarts { a }));
        }
        self.last_line();
    }

    /// A phone does one thing, where it is or elsewhere; now and then it is another phone.
    fn visit(&mut self, phone: &mut Phone) {
        if self.prng.one_in(12) {
            *phone = Phone::NEW;
        }
        if self.prng.one_in(3) {
            phone.at = self.any_server();
        }
        match self.prng.below(8) {
            0 => {
                let a = self.primary();
                self.phone_writes(phone, a);
            }
            1 | 2 => self.phone_asks(phone, phone.at),
            _ => self.phone_reads(phone, phone.at),
        }
    }

    /// The first and the last who vote.
    fn outermost(&self) -> [u8; 2] {
        let electors = self.electors();
        [electors.trailing_zeros() as u8, electors.ilog2() as u8]
    }

    fn any_server(&mut self) -> u8 {
        let count = self.count();
        self.prng.below(count) as u8
    }

    /// Mostly with the time that it has seen, else with none or one that its clock makes up.
    fn phone_writes(&mut self, phone: &mut Phone, a: u8) {
        let by = self.prng.pick(&[1, AHEAD_MAX, AHEAD_MAX + 1]);
        let client = match self.prng.below(12) {
            0 => self.ahead(a, by),
            1..=3 => Time::ZERO,
            _ => phone.seen,
        };
        let write = self.write_for(a, client);
        phone.awaits.extend(self.ask(write));
    }

    /// It may ask again, most often about what isn't acknowledged or was rolled back.
    fn phone_asks(&mut self, phone: &mut Phone, a: u8) {
        for written in std::mem::take(&mut phone.awaits) {
            let Numbers { number: position, term, time } = written;
            let answer = self.ask(Step::Acknowledged { a, count: 0, position, term });
            if answer.is_ok() {
                phone.seen = phone.seen.max(time);
            }
            if !self.prng.one_in(if answer.is_ok() { 2 } else { 6 }) {
                phone.awaits.push(written);
            }
        }
    }

    fn phone_reads(&mut self, phone: &mut Phone, a: u8) {
        let key = self.prng.below(5) as u8;
        if let Ok(Numbers { time, .. }) = self.ask(Step::MajorityRead { a, key, time: phone.seen })
        {
            phone.seen = time;
        }
    }

    /// A phone's write is taken over by others, covered and acknowledged; others hear of it, and the
    /// phone reads there.
    fn see_through(&mut self, phone: &mut Phone) {
        if !self.has_primary() {
            self.elect_of(self.electors());
        }
        let a = self.primary();
        self.phone_writes(phone, a);
        self.cover(a);
        self.phone_asks(phone, a);
        self.phone_reads(phone, a);
        phone.at = self.any_server();
        self.offer(Step::Hears { a: phone.at, b: a });
        self.phone_reads(phone, phone.at);
    }

    /// Half of the others come after a, which then covers what it can; where few vote, all of them.
    fn cover(&mut self, a: u8) {
        self.follow(a);
        if self.has_followers() {
            for b in self.peers(&[a]) {
                self.come_after(b, a);
            }
        }
        self.take_in(a);
        self.offer(Step::Advances { a });
    }

    /// A log is filled, and all of it covered.
    fn fill_and_cover(&mut self) {
        let a = self.elect_of(self.electors());
        self.fill_up(a);
        self.cover_all(a);
    }

    /// All others come after a, which takes all their reports.
    fn cover_all(&mut self, a: u8) {
        for b in self.others(&[a]) {
            self.catch_up(b, a);
        }
        while self.at(a).queue.length > 0 {
            self.offer(Step::TakesReport { a });
        }
        self.offer(Step::Advances { a });
    }

    /// Whether a log has room for hardly more than one write.
    fn is_nearly_full(&self) -> bool {
        self.cluster.counted().iter().any(|server| server.log.length + 2 >= ENTRIES)
    }

    /// A server covers a phone's write, and nobody hears of that.
    fn cover_alone(&mut self, phone: &mut Phone, a: u8) {
        self.promote(a);
        self.phone_writes(phone, a);
        self.cover_all(a);
        self.phone_asks(phone, a);
        self.phone_reads(phone, a);
    }

    /// A phone writes at a primary that has just lost an election, and is told that it isn't
    /// acknowledged; what the next one writes takes the place of that.
    fn lose(&mut self, phone: &mut Phone) {
        let electors = self.electors();
        let old = self.elect_of(electors);
        self.phone_writes(phone, old);
        self.cover(old);
        let new = self.elect_of(electors & !(1 << old));
        self.phone_writes(phone, old);
        self.phone_asks(phone, old);
        self.write_some(new);
        self.cover(new);
        self.offer(Step::Hears { a: old, b: new });
        self.offer(Step::RollsBack { a: old, b: new });
        self.phone_asks(phone, old);
        self.phone_reads(phone, old);
    }
}

#[cfg(test)]
#[path = "diaries_tests.rs"]
mod tests;
