//! What honest phones record of a run, whoever took its steps: an answered read under a session that
//! asked with the latest time it had seen, and an answered write when it is acknowledged.

use crate::lines::{read_line, write_bytes};
use crate::model::{COMMITTED_ENTRIES, Cluster, Entry, Numbers, SERVERS, Step, Time, step};
use crate::prng::Prng;
use crate::records::{Covered, READ, RECORD, RECORDS, Record, WRITE, is_written};

/// The records in the order in which they were answered, the log that was covered, how much of it
/// each server's commit points covered, and records of the answered writes that it doesn't have.
pub struct Honest {
    pub records: Vec<Record>,
    pub log: Vec<Entry>,
    pub reached: Vec<usize>,
    pub lost: Vec<Record>,
}

/// No time is later.
pub const LATEST: Time = Time { p: u16::MAX, l: u16::MAX };
/// The most sessions of a run.
const SESSIONS: usize = 16;

/// What is recorded since the last start, how late each session has seen, each answered write with
/// its term, how far each server's commit points have come, and whether records that tell little are
/// kept too.
struct Keeping {
    records: Vec<Record>,
    sessions: Vec<(u16, Time)>,
    answered: Vec<(u16, Record)>,
    reached: [usize; SERVERS],
    eager: bool,
}

/// Which steps are recorded, and under which sessions, is drawn.
pub fn honest(prng: &mut Prng, text: &[u8]) -> Honest {
    let (mut cluster, mut covered) = (Cluster::ZERO, Covered::default());
    let mut keeping = Keeping::new(prng);
    for line in text.split(|&character| character == b'\n') {
        let Ok(read) = read_line(line) else { continue };
        let answer = step(&mut cluster, &read);
        covered.follow(&read, answer, &cluster);
        if let Ok(numbers) = answer {
            keeping.follow(prng, &read, numbers);
            keeping.reach(&cluster);
        }
    }
    let Keeping { mut records, answered, reached, .. } = keeping;
    records.truncate(RECORDS);
    let writes = answered.into_iter().map(|(_, write)| write);
    let lost = writes.filter(|write| !is_written(&covered.entries, write)).collect();
    let reached = reached[..cluster.count].to_vec();
    Honest { records, log: covered.entries, reached, lost }
}

impl Keeping {
    fn new(prng: &mut Prng) -> Keeping {
        let eager = prng.below(2) == 0;
        let (records, sessions, answered) = (Vec::new(), Vec::new(), Vec::new());
        Keeping { records, sessions, answered, reached: [0; SERVERS], eager }
    }

    fn reach(&mut self, cluster: &Cluster) {
        for (reached, server) in self.reached.iter_mut().zip(cluster.counted()) {
            *reached = server.commit_point.max(*reached);
        }
    }

    /// A session that has seen nothing, mostly with a number that shares a byte with another's.
    fn open_session(&mut self, prng: &mut Prng) {
        let number = match prng.below(6) {
            0 => u16::MAX,
            1 => prng.below(65_536) as u16,
            _ => u16::from_be_bytes([prng.below(4) as u8, prng.below(4) as u8]),
        };
        let is_open = self.sessions.iter().any(|session| session.0 == number);
        if !is_open && self.sessions.len() < SESSIONS {
            self.sessions.push((number, Time::ZERO));
        }
    }

    /// Follows a step that was done.
    fn follow(&mut self, prng: &mut Prng, done: &Step, numbers: Numbers) {
        let Numbers { number, term, time } = numbers;
        match *done {
            Step::Start { .. } => *self = Keeping::new(prng),
            Step::Writes { key, value, .. } => {
                let kind = WRITE;
                let record = Record { session: 0, kind, key, value, position: number, time };
                self.answered.push((term, record));
            }
            Step::Acknowledged { count: 0, position, .. } => {
                let is_asked =
                    |(of, write): &&(u16, Record)| (*of, write.position) == (term, position);
                if let Some(&(_, write)) = self.answered.iter().find(is_asked) {
                    self.record(prng, LATEST, write);
                }
            }
            Step::MajorityRead { key, time: asked, .. } => {
                let position = prng.below(COMMITTED_ENTRIES + 8) as u16;
                let record = Record { session: 0, kind: READ, key, value: number, position, time };
                self.record(prng, asked, record);
            }
            _ => {}
        }
    }

    /// Mostly records it under a session that has seen nothing later than the time given, if there
    /// is one; less often where it has seen the record's own time, which then tells little.
    fn record(&mut self, prng: &mut Prng, not_after: Time, record: Record) {
        if prng.below(6) == 0 {
            self.open_session(prng);
        }
        let fits = |session: &&mut (u16, Time)| session.1 <= not_after;
        let mut fit: Vec<_> = self.sessions.iter_mut().filter(fits).collect();
        if fit.is_empty() {
            return;
        }
        let (session, seen) = fit.swap_remove(prng.below(fit.len()));
        let often = self.eager || record.time != *seen;
        if prng.below(8) < if often { 7 } else { 2 } {
            *seen = record.time.max(*seen);
            self.records.push(Record { session: *session, ..record });
        }
    }
}

/// The text of records, a line each.
pub fn text_of(records: &[Record]) -> Vec<u8> {
    records.iter().flat_map(line_of).collect()
}

fn line_of(record: &Record) -> Vec<u8> {
    let [s0, s1] = record.session.to_be_bytes();
    let [v0, v1] = record.value.to_be_bytes();
    let [n0, n1] = record.position.to_be_bytes();
    let [[p0, p1], [l0, l1]] = [record.time.p, record.time.l].map(u16::to_be_bytes);
    let bytes = [s0, s1, record.kind, record.key, v0, v1, n0, n1, p0, p1, l0, l1];
    let mut line = vec![b'\n'; 2 * RECORD + 1];
    write_bytes(&mut line, &bytes);
    line
}
