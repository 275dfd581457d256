//! What a phone records of an answer, and what a run has covered: the one is held against the other.

use crate::model::{Answer, Cluster, Entry, Step, Time};

/// The kind of a record of a majority write, and of one of a majority read: those of their steps.
pub const WRITE: u8 = 6;
pub const READ: u8 = 11;
/// The bytes of a record.
pub const RECORD: usize = 12;
/// The most records that are checked at once.
pub const RECORDS: usize = 256;

/// Each field as wide as in its line; a read's position means nothing.
#[derive(Clone, Copy, PartialEq, Eq, Debug)]
pub struct Record {
    pub session: u16,
    pub kind: u8,
    pub key: u8,
    pub value: u16,
    pub position: u16,
    pub time: Time,
}

/// The longest beginning of a log that any commit point has covered since the last start that was
/// done, and how many such starts there were.
#[derive(Default)]
pub struct Covered {
    pub entries: Vec<Entry>,
    pub starts: usize,
}

impl Covered {
    /// Follows a step; a refused one has changed nothing that could be covered.
    pub fn follow(&mut self, step: &Step, answer: Answer, after: &Cluster) {
        if let (Step::Start { .. }, Ok(_)) = (step, answer) {
            *self = Covered { entries: Vec::new(), starts: self.starts + 1 };
        }
        for server in after.counted() {
            if server.commit_point > self.entries.len() {
                self.entries = server.log.entries[..server.commit_point].to_vec();
            }
        }
    }
}

/// The value of the last entry for the key that is not after the time; 0 if none.
pub fn value_at(log: &[Entry], key: u8, time: Time) -> u16 {
    let last = log.iter().rev().find(|entry| entry.key == key && entry.time <= time);
    last.map_or(0, |entry| entry.value)
}

/// Whether the entry at a write's position is the one that it tells of.
pub fn is_written(log: &[Entry], write: &Record) -> bool {
    let Some(before) = write.position.checked_sub(1) else { return false };
    let told = |entry: &Entry| (entry.key, entry.value, entry.time);
    log.get(usize::from(before)).map(told) == Some((write.key, write.value, write.time))
}
