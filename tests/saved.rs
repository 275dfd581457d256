//! The saved form of a record, written and read, from docs/SAVED.md alone. A text is read in two
//! rounds: first its frames are taken off one after the other, which asks for the shape and nothing
//! else; then they are made a record of, unless they say what no record has, or none that the text's
//! own edition allows. Tests are in `saved_tests.rs`.

use crate::lines::{digit, write_bytes};
use crate::model::reports::{Note, Notes, Report};
use crate::model::{Cluster, Entry, Role, Server, Time};

/// Why a text isn't loaded, or a record isn't saved.
#[derive(Clone, Copy, PartialEq, Eq, Debug)]
pub enum Refusal {
    Shape,
    Value,
}

impl Refusal {
    pub fn number(self) -> u8 {
        match self {
            Refusal::Shape => 1,
            Refusal::Value => 2,
        }
    }
}

/// What is allowed in a text of an edition, whatever later ones allow; only the first frames of two
/// editions differ.
pub struct Edition {
    number: u8,
    /// The most entries of a log.
    entries: usize,
    /// The highest position in a note or a report.
    highest_position: usize,
    /// Whether its first frame tells the followers; without that there are none.
    tells_followers: bool,
}

/// The editions that can be read, by their numbers.
pub const EDITIONS: [Edition; 3] = [
    Edition { number: 1, entries: 32, highest_position: 32, tells_followers: false },
    Edition { number: 2, entries: 128, highest_position: 128, tells_followers: false },
    Edition { number: 3, entries: 128, highest_position: 128, tells_followers: true },
];
/// The edition that is written.
const WRITTEN: &Edition = &EDITIONS[2];

impl Edition {
    fn allows(&self, record: &Cluster) -> bool {
        let mut servers = record.counted().iter();
        (self.tells_followers || record.followers == 0)
            && servers.all(|Server { log, notes, queue, .. }| {
                let reports = queue.reports[..queue.length].iter().map(|report| report.note);
                let mut told = notes.iter().copied().chain(reports);
                log.length <= self.entries && told.all(|note| note.length <= self.highest_position)
            })
    }
}

// The sorts of frames, each told by a frame's first byte.
const FIRST: u8 = 0;
const SERVER: u8 = 1;
const ENTRY: u8 = 2;
const NOTE: u8 = 3;
const REPORT: u8 = 4;

// What follows that byte.
type ServerFields = [u8; 16];
type EntryFields = [u8; 9];
/// Whose it is or whom it is about, and the note.
type NoteFields = [u8; 7];

/// The text of a record; one that isn't well formed has none.
pub fn save(cluster: &Cluster) -> Result<Vec<u8>, Refusal> {
    save_as(WRITTEN, cluster)
}

/// The text in some edition, which may not allow the record.
pub fn save_as(edition: &Edition, cluster: &Cluster) -> Result<Vec<u8>, Refusal> {
    if !cluster.well_formed() || !edition.allows(cluster) {
        return Err(Refusal::Value);
    }
    let mut text = Vec::new();
    let followers = [cluster.followers];
    let told = if edition.tells_followers { &followers[..] } else { &[] };
    put_frame(&mut text, FIRST, &[&[edition.number, cluster.count as u8], told]);
    for server in cluster.counted() {
        put_server(&mut text, server);
    }
    Ok(text)
}

/// A server's frame and those that it announces; no number here is wider than its field.
fn put_server(text: &mut Vec<u8>, server: &Server) {
    let Server { log, queue, cluster_time: Time { p, l }, .. } = server;
    let notes = || server.notes.iter().enumerate().filter(|(_, note)| note.is_used());
    let source = server.source.map_or(0, |source| source as u8 + 1);
    let role = match server.role {
        Role::Secondary => 0,
        Role::Primary => 1,
    };
    let bytes = [notes().count() as u8, queue.length as u8, source, role];
    let numbers = [server.term, server.commit_point as u16, server.wall_clock, *p, *l];
    put_frame(text, SERVER, &[&pairs([log.length as u16]), &bytes, &pairs(numbers)]);
    for Entry { term, key, value, time } in &log.entries[..log.length] {
        let numbers = [*value, time.p, time.l];
        put_frame(text, ENTRY, &[&pairs([*term]), &[*key], &pairs(numbers)]);
    }
    for (who, note) in notes() {
        put_note(text, NOTE, who, note);
    }
    for Report { who, note } in &queue.reports[..queue.length] {
        put_note(text, REPORT, *who, note);
    }
}

fn put_note(text: &mut Vec<u8>, sort: u8, who: usize, note: &Note) {
    let numbers = [note.term, note.last_term, note.length as u16];
    put_frame(text, sort, &[&[who as u8], &pairs(numbers)]);
}

fn put_frame(text: &mut Vec<u8>, sort: u8, fields: &[&[u8]]) {
    let bytes = [&[sort], &fields.concat()[..]].concat();
    let mut line = vec![b'\n'; 2 * bytes.len() + 1];
    write_bytes(&mut line, &bytes);
    text.extend(line);
}

fn pairs<const N: usize>(numbers: [u16; N]) -> Vec<u8> {
    numbers.map(u16::to_be_bytes).concat()
}

/// The record that has this text in the text's own edition.
pub fn load(text: &[u8]) -> Result<Cluster, Refusal> {
    load_knowing(&EDITIONS, text)
}

/// The same by a reader that knows these editions alone.
pub fn load_knowing(known: &[Edition], text: &[u8]) -> Result<Cluster, Refusal> {
    let (edition, followers, told) = read_shape(known, text).ok_or(Refusal::Shape)?;
    record_of(followers, &told).filter(|record| edition.allows(record)).ok_or(Refusal::Value)
}

/// Whether a text is the record's in some edition, which then is the text's own.
#[cfg(test)]
pub fn is_form_of(record: &Cluster, text: &[u8]) -> bool {
    EDITIONS.iter().any(|edition| save_as(edition, record).as_deref() == Ok(text))
}

/// What the frames tell of a server, as many as they announce, whatever it is worth.
struct Told {
    server: ServerFields,
    entries: Vec<EntryFields>,
    notes: Vec<NoteFields>,
    reports: Vec<NoteFields>,
}

/// The edition of a text, its set of followers and what it tells of the servers.
fn read_shape<'a>(known: &'a [Edition], text: &[u8]) -> Option<(&'a Edition, u8, Vec<Told>)> {
    let mut text = Unread(text.iter());
    let (edition, count, followers) = text.first(known)?;
    let told: Option<Vec<Told>> = (0..count).map(|_| text.server()).collect();
    if text.0.next().is_some() { None } else { Some((edition, followers, told?)) }
}

/// The characters of a text that nothing has been made of yet.
struct Unread<'a>(std::slice::Iter<'a, u8>);

impl Unread<'_> {
    fn byte(&mut self) -> Option<u8> {
        let mut digit = || self.0.next().and_then(|&character| digit(character).ok());
        Some(digit()? << 4 | digit()?)
    }

    /// A whole line: its first byte is the sort, and so many follow.
    fn frame<const N: usize>(&mut self, sort: u8) -> Option<[u8; N]> {
        let mut fields = [0; N];
        let found = self.byte()?;
        for field in &mut fields {
            *field = self.byte()?;
        }
        (found == sort && self.line_ends()).then_some(fields)
    }

    fn line_ends(&mut self) -> bool {
        self.0.next() == Some(&b'\n')
    }

    /// The first line, which is as long as its edition says.
    fn first<'a>(&mut self, known: &'a [Edition]) -> Option<(&'a Edition, u8, u8)> {
        let (sort, number) = (self.byte()?, self.byte()?);
        let edition = known.iter().find(|edition| edition.number == number)?;
        let count = self.byte()?;
        let followers = if edition.tells_followers { self.byte()? } else { 0 };
        (sort == FIRST && self.line_ends()).then_some((edition, count, followers))
    }

    fn frames<const N: usize>(&mut self, sort: u8, count: usize) -> Option<Vec<[u8; N]>> {
        (0..count).map(|_| self.frame(sort)).collect()
    }

    fn server(&mut self) -> Option<Told> {
        let server: ServerFields = self.frame(SERVER)?;
        let [entries] = numbers(&server);
        Some(Told {
            server,
            entries: self.frames(ENTRY, entries.into())?,
            notes: self.frames(NOTE, server[2].into())?,
            reports: self.frames(REPORT, server[3].into())?,
        })
    }
}

/// The numbers of two bytes that stand at the beginning of some fields.
fn numbers<const N: usize>(fields: &[u8]) -> [u16; N] {
    std::array::from_fn(|i| u16::from_be_bytes([fields[2 * i], fields[2 * i + 1]]))
}

fn record_of(followers: u8, told: &[Told]) -> Option<Cluster> {
    let mut cluster = Cluster { count: told.len(), followers, ..Cluster::ZERO };
    for (place, told) in cluster.servers.get_mut(..told.len())?.iter_mut().zip(told) {
        fill(place, told)?;
    }
    cluster.well_formed().then_some(cluster)
}

/// Fills a place that is all zero; none where it has no room for what is told, or where the same
/// server would be told otherwise.
fn fill(place: &mut Server, told: &Told) -> Option<()> {
    let [term, commit_point, wall_clock, p, l] = numbers(&told.server[6..]);
    place.source = told.server[4].checked_sub(1).map(usize::from);
    place.role = [Role::Secondary, Role::Primary].get(usize::from(told.server[5])).copied()?;
    place.term = term;
    place.commit_point = commit_point.into();
    place.wall_clock = wall_clock;
    place.cluster_time = Time { p, l };
    place.log.length = told.entries.len();
    fill_slots(&mut place.log.entries, &told.entries, entry_of)?;
    place.queue.length = told.reports.len();
    fill_slots(&mut place.queue.reports, &told.reports, report_of)?;
    fill_notes(&mut place.notes, &told.notes)
}

fn fill_slots<T, F>(slots: &mut [T], told: &[F], read: fn(&F) -> T) -> Option<()> {
    for (slot, fields) in slots.get_mut(..told.len())?.iter_mut().zip(told) {
        *slot = read(fields);
    }
    Some(())
}

/// Used notes alone are told, by rising numbers.
fn fill_notes(notes: &mut Notes, told: &[NoteFields]) -> Option<()> {
    let mut free = 0;
    for Report { who, note } in told.iter().map(report_of) {
        if who < free || !note.is_used() {
            return None;
        }
        *notes.get_mut(who)? = note;
        free = who + 1;
    }
    Some(())
}

fn entry_of(fields: &EntryFields) -> Entry {
    let [term] = numbers(fields);
    let [value, p, l] = numbers(&fields[3..]);
    Entry { term, key: fields[2], value, time: Time { p, l } }
}

/// A report, or a note and whose it is.
fn report_of(fields: &NoteFields) -> Report {
    let [term, last_term, length] = numbers(&fields[1..]);
    Report { who: fields[0].into(), note: Note { term, last_term, length: length.into() } }
}
