//! Tests of the generator: its lines are read as what it meant, and the records on its way are saved
//! and loaded.

use super::*;
use model::reports::REPORTS;
use model::{AHEAD_MAX, Server};
use saved::{is_form_of, load, save};

#[test]
fn every_drawn_step_is_read_back() {
    let mut run = Run::new(1);
    run.begin();
    for kind in (0..KINDS).cycle().take(20_000) {
        let drawn = run.draw(kind);
        assert_eq!(usize::from(drawn.kind()), kind);
        assert_eq!(read_line(&line_of(&drawn)), Ok(drawn));
        run.say(drawn);
    }
}

/// A full log, a full queue, notes of most servers, a source, an entry that writes nothing, a cluster
/// time that a client brought past the wall clock, and one that it brought to the last l.
const SORTS: [fn(&Server) -> bool; 7] = [
    |server| server.log.length == ENTRIES,
    |server| server.queue.length == REPORTS,
    |server| server.notes.iter().filter(|note| note.is_used()).count() > 3,
    |server| server.source.is_some(),
    |server| server.log.entries.iter().any(|entry| entry.writes_nothing()),
    |server| server.cluster_time.p > server.wall_clock,
    |server| server.cluster_time.l == u16::MAX,
];

/// A run of some sessions, and one of full logs.
fn sessions(seed: u64) -> Run {
    let mut run = Run::new(seed);
    (0..60).for_each(|_| run.session(usize::MAX));
    run.brim();
    run
}

#[test]
fn records_on_the_way_are_loaded_as_they_were_saved() {
    let mut run = sessions(1);
    let (mut cluster, mut seen, mut followers) = (Cluster::ZERO, [0; SORTS.len()], 0);
    for line in run.text.split(|&character| character == b'\n') {
        let _ = read_line(line).and_then(|read| step(&mut cluster, &read));
        if run.prng.one_in(4) {
            let text = save(&cluster).unwrap();
            assert_eq!(load(&text), Ok(cluster));
            try_another_digit(&mut run.prng, text);
            followers |= cluster.followers;
            for (times, holds) in seen.iter_mut().zip(SORTS) {
                *times += u32::from(cluster.counted().iter().any(holds));
            }
        }
    }
    assert_eq!(cluster, run.cluster);
    assert_eq!(seen.map(|times| times > 0), [true; SORTS.len()], "{seen:?}");
    assert!(followers != 0);
}

/// How far the latest p of all is above the greatest wall clock; no entry is after its server's
/// cluster time.
fn ahead_of_clocks(cluster: &Cluster) -> u16 {
    let greatest = |of: fn(&Server) -> u16| cluster.counted().iter().map(of).max().unwrap_or(0);
    greatest(|server| server.cluster_time.p).saturating_sub(greatest(|server| server.wall_clock))
}

#[test]
fn stamps_are_after_what_clients_saw_and_never_too_far_ahead() {
    let run = sessions(2);
    let (mut cluster, mut farthest) = (Cluster::ZERO, 0);
    for line in run.text.split(|&character| character == b'\n') {
        let Ok(read) = read_line(line) else { continue };
        let before = cluster;
        let answer = step(&mut cluster, &read);
        if let (Step::Writes { a, client, .. }, Ok(numbers)) = (read, answer) {
            assert!(numbers.time > client.max(before.servers[usize::from(a)].cluster_time));
        }
        farthest = farthest.max(ahead_of_clocks(&cluster));
    }
    assert_eq!(farthest, AHEAD_MAX);
}

/// A text with a digit changed is another record's or none's, in its own edition.
fn try_another_digit(prng: &mut Prng, mut text: Vec<u8>) {
    let place = prng.below(text.len());
    text[place] = prng.pick(b"0123456789abcdef");
    if let Ok(record) = load(&text) {
        assert!(is_form_of(&record, &text));
    }
}
