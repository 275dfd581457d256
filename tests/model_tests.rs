//! Record-level tests of the model: document 01's twelve facts, and the cases that no lines reach
//! from a fresh start. Those of kinds 14 and 15 are in `newest_tests.rs`, those of reports in
//! `reports_tests.rs`, those of clients' times in `phones_tests.rs`, those of full logs and the highest
//! position in `limits_tests.rs`, those of followers in `followers_tests.rs`, those of the saved form in
//! `saved_tests.rs`.

use super::*;
use crate::saved::{Refusal, save};

/// Same term and position mean equal entries, as in document 01's list of facts.
fn entry(term: u16, position: usize) -> Entry {
    Entry { term, key: 5, value: 41, time: Time { p: term, l: position as u16 } }
}

fn log(terms: &[u16]) -> Log {
    let mut log = Log::EMPTY;
    for &term in terms {
        log.push(entry(term, log.length + 1));
    }
    log
}

/// A secondary of its last entry's term, at the greatest time.
fn holding(terms: &[u16]) -> Server {
    let log = log(terms);
    let cluster_time = Time { p: 65_535, l: 65_535 };
    Server { log, term: log.last_term(), cluster_time, ..Server::FRESH }
}

fn primary(term: u16, terms: &[u16]) -> Server {
    Server { term, role: Primary, ..holding(terms) }
}

fn note(term: u16, last_term: u16, length: usize) -> Note {
    Note { term, last_term, length }
}

/// The server with these notes, each of the server of that number.
fn noting(server: Server, notes: &[(usize, Note)]) -> Server {
    let mut server = server;
    for &(who, note) in notes {
        server.notes[who] = note;
    }
    server
}

/// The server with that source.
fn coming_after(source: usize, server: Server) -> Server {
    Server { source: Some(source), ..server }
}

fn cluster(servers: &[Server]) -> Cluster {
    let mut cluster = Cluster::fresh(servers.len());
    cluster.servers[..servers.len()].copy_from_slice(servers);
    cluster
}

/// Takes a step from a well-formed record, and sees that a refusal leaves it and all else keeps it
/// well formed.
fn take(cluster: &mut Cluster, taken: Step) -> Answer {
    assert!(cluster.well_formed());
    let before = *cluster;
    let answer = step(cluster, &taken);
    assert!(cluster.well_formed());
    assert!(answer.is_ok() || *cluster == before);
    answer
}

fn refused(servers: &[Server], taken: Step) -> Condition {
    take(&mut cluster(servers), taken).expect_err("the step is refused")
}

/// The cluster after a step that is done.
fn after(servers: &[Server], taken: Step) -> Cluster {
    let mut cluster = cluster(servers);
    take(&mut cluster, taken).expect("the step is done");
    cluster
}

/// The entry, and four that differ from it in one part alone.
fn others(entry: Entry) -> [Entry; 4] {
    let Entry { term, key, value, time } = entry;
    [
        Entry { term: term + 1, ..entry },
        Entry { key: key + 1, ..entry },
        Entry { value: value + 1, ..entry },
        Entry { time: Time { l: time.l + 1, ..time }, ..entry },
    ]
}

/// The server with another entry in place of one it holds.
fn with(server: &Server, position: usize, entry: Entry) -> Server {
    let mut server = *server;
    server.log.entries[position - 1] = entry;
    server.term = server.term.max(entry.term);
    server
}

/// The server with another key and value in an entry that it holds.
fn writing(server: &Server, position: usize, key: u8, value: u16) -> Server {
    with(server, position, Entry { key, value, ..server.log.entries[position - 1] })
}

/// The server with an entry that writes nothing in place of one it holds.
fn nothing_at(server: &Server, position: usize) -> Server {
    writing(server, position, 255, 0)
}

#[test]
fn majorities_and_times() {
    let of = |count: usize| Cluster::fresh(count);
    assert!(of(3).is_majority(2));
    assert!(!of(4).is_majority(2));
    assert!(!of(2).is_majority(1));
    let time = |p: u16, l: u16| Time { p, l };
    assert!(time(1, 9) < time(2, 0));
    assert_eq!(time(0, 0).tick(1), Some(time(1, 0)));
    assert_eq!(time(3, 4).tick(2), Some(time(3, 5)));
    assert_eq!(time(1, 65_535).tick(2), Some(time(2, 0)));
    assert_eq!(time(2, 65_535).tick(2), None);
}

#[test]
fn logs_side_by_side() {
    assert_eq!(log(&[1, 1, 2]).common_with(&log(&[1, 1, 3, 3])), 2);
    let (pulls, rolls_back) = (Step::Pulls { a: 0, b: 1 }, Step::RollsBack { a: 0, b: 1 });
    assert_eq!(after(&[holding(&[1]), holding(&[1, 2])], pulls).servers[0].log, log(&[1, 2]));
    assert_eq!(refused(&[holding(&[2]), holding(&[1, 3])], pulls), LastEntryDiffers);
    let rolled = after(&[holding(&[1, 2]), holding(&[1, 3])], rolls_back);
    assert_eq!(rolled.servers[0].log, log(&[1, 3]));
    assert_eq!(refused(&[holding(&[1]), holding(&[1, 3])], rolls_back), ABeginning);
}

#[test]
fn entries_of_earlier_terms_do_not_pass() {
    let older = note(4, 2, 2);
    let leader = noting(primary(4, &[1, 2, 4]), &[(1, older), (2, older)]);
    let servers = [leader, holding(&[]), holding(&[]), holding(&[]), holding(&[])];
    assert_eq!(refused(&servers, Step::Advances { a: 0 }), NothingPasses);
}

#[test]
fn a_rollback_below_the_commit_point_is_refusal_9() {
    let committed = Server { commit_point: 2, ..holding(&[1, 2]) };
    let condition = refused(&[committed, holding(&[1, 3])], Step::RollsBack { a: 0, b: 1 });
    assert_eq!((condition, condition.number()), (CommonBelowCommitPoint, 9));
    let kept = Server { commit_point: 1, ..holding(&[1, 2]) };
    let rolled = after(&[kept, holding(&[1, 3])], Step::RollsBack { a: 0, b: 1 });
    assert_eq!(rolled.servers[0].commit_point, 1);
}

#[test]
fn conditions_are_tested_in_order() {
    let top = Server { term: 65_535, ..holding(&[]) };
    let elect = Step::Elect { a: 0, set: 3 };
    assert_eq!(refused(&[holding(&[]), top], elect), MemberTermAbove);
    assert_eq!(refused(&[top, holding(&[1])], elect), BehindAMember);
    assert_eq!(refused(&[top, top], elect), TermAtLimit);
    assert_eq!(refused(&[top, top], Step::Elect { a: 0, set: 0x80 }), MemberOutside);
    let far = Step::Acknowledged { a: 0, count: 0, position: 129, term: 1 };
    assert_eq!(refused(&[top, top], far), PositionAboveHighest);
    let other_term = Step::Acknowledged { a: 0, count: 0, position: 1, term: 2 };
    assert_eq!(refused(&[holding(&[1]), top], other_term), OtherTerm);
}

#[test]
fn hearing_takes_a_commit_point_only_at_an_equal_entry() {
    let told = Server { commit_point: 1, ..holding(&[1]) };
    let hears = Step::Hears { a: 0, b: 1 };
    assert_eq!(after(&[holding(&[1]), told], hears).servers[0].commit_point, 1);
    assert_eq!(after(&[holding(&[]), told], hears).servers[0].commit_point, 0);
    for other in others(entry(1, 1)) {
        let heard = after(&[with(&holding(&[1]), 1, other), told], hears);
        assert_eq!(heard.servers[0].commit_point, 0);
    }
}

#[test]
fn hearing_compares_one_entry_and_raises_a_primary_too() {
    let told = Server { commit_point: 2, ..holding(&[1, 2]) };
    let odd = with(&primary(2, &[1, 2]), 1, Entry { value: 7, ..entry(1, 1) });
    let heard = after(&[odd, told], Step::Hears { a: 0, b: 1 });
    assert_eq!(heard.servers[0], Server { commit_point: 2, ..odd });
}

#[test]
fn a_higher_term_makes_a_primary_secondary() {
    let heard = after(&[primary(2, &[1]), holding(&[3])], Step::Hears { a: 0, b: 1 });
    assert_eq!(heard.servers[0], Server { term: 3, ..holding(&[1]) });
    let equal = after(&[primary(3, &[1]), holding(&[3])], Step::Hears { a: 0, b: 1 });
    assert_eq!(equal.servers[0], primary(3, &[1]));
}

#[test]
fn a_pull_joins_only_at_an_equal_entry() {
    for other in others(entry(1, 1)) {
        let servers = [with(&holding(&[1]), 1, other), holding(&[1, 2])];
        assert_eq!(refused(&servers, Step::Pulls { a: 0, b: 1 }), LastEntryDiffers);
    }
}

#[test]
fn a_pull_keeps_its_own_beginning() {
    let own = Entry { value: 7, ..entry(1, 1) };
    let puller = with(&holding(&[1, 2]), 1, own);
    let pulled = after(&[puller, holding(&[1, 2, 3])], Step::Pulls { a: 0, b: 1 });
    assert_eq!(pulled.servers[0], coming_after(1, with(&holding(&[1, 2, 3]), 1, own)));
}

#[test]
fn a_pull_and_a_rollback_take_the_greater_of_both() {
    let ahead =
        Server { term: 9, cluster_time: Time { p: 9, l: 9 }, commit_point: 1, ..holding(&[1]) };
    let behind = Server { commit_point: 0, cluster_time: Time { p: 9, l: 8 }, ..holding(&[1, 2]) };
    let pulled = after(&[ahead, behind], Step::Pulls { a: 0, b: 1 });
    assert_eq!(pulled.servers[0], coming_after(1, Server { log: log(&[1, 2]), ..ahead }));
    let split = Server { term: 3, log: log(&[1, 2]), commit_point: 0, ..ahead };
    let winner = Server { term: 4, commit_point: 2, ..holding(&[1, 3]) };
    let rolled = after(&[split, winner], Step::RollsBack { a: 0, b: 1 });
    assert_eq!(rolled.servers[0], coming_after(1, winner));
}

#[test]
fn a_rollback_sees_each_part_of_an_entry() {
    let rolls_back = Step::RollsBack { a: 0, b: 1 };
    let winner = holding(&[1, 3]);
    for other in others(entry(1, 1)) {
        let rolled = after(&[with(&holding(&[1]), 1, other), winner], rolls_back);
        assert_eq!(rolled.servers[0].log, winner.log);
    }
}

#[test]
fn an_equal_entry_above_the_first_difference_is_not_common() {
    let rolls_back = Step::RollsBack { a: 0, b: 1 };
    let loser = with(&holding(&[1, 2, 2]), 1, Entry { value: 7, ..entry(1, 1) });
    let winner = holding(&[1, 2, 3]);
    assert_eq!(after(&[loser, winner], rolls_back).servers[0], coming_after(1, winner));
    let committed = Server { commit_point: 1, ..loser };
    assert_eq!(refused(&[committed, winner], rolls_back), CommonBelowCommitPoint);
}

/// Every server holds the same two entries, of which the first is covered.
#[test]
fn only_count_0_is_acknowledged() {
    let holder = Server { commit_point: 1, ..holding(&[1, 1]) };
    let asked = |count: u8, (position, term)| Step::Acknowledged { a: 0, count, position, term };
    let places = [(1, 1), (2, 1), (3, 1), (1, 2), (0, 1), (129, 1), (65_535, 1), (1, 0)];
    for servers in [2, 3, 7] {
        let mut record = cluster(&[holder; SERVERS][..usize::from(servers)]);
        for count in 0..=255 {
            let answers = places.map(|place| take(&mut record, asked(count, place)));
            let refusals = match count {
                0 => [0, 8, 10, 10, 3, 3, 3, 3],
                _ if count <= servers => [12, 12, 12, 12, 3, 3, 3, 3],
                _ => [3; 8],
            };
            let given = answers.map(|answer| answer.map_or_else(Condition::number, |_| 0));
            assert_eq!(given, refusals, "count {count} of {servers}");
        }
    }
    let acknowledged = take(&mut cluster(&[holder; 2]), asked(0, places[0]));
    assert_eq!(acknowledged, Ok(Numbers::entry_at(1, &entry(1, 1))));
    let outside = Step::Acknowledged { a: 2, count: 1, position: 1, term: 1 };
    assert_eq!(refused(&[holder; 2], outside), ServerOutside);
    let mut broken = cluster(&[holder, Server { wall_clock: 0, ..holder }]);
    assert_eq!(step(&mut broken, &asked(1, places[0])), Err(NotWellFormed));
}

#[test]
fn the_highest_passing_position_is_taken() {
    let leader = noting(primary(2, &[1, 2, 2, 2]), &[(1, note(2, 2, 3)), (2, note(2, 2, 2))]);
    let advanced = after(&[leader, holding(&[]), holding(&[])], Step::Advances { a: 0 });
    assert_eq!(advanced.servers[0].commit_point, 3);
    assert_eq!(refused(advanced.counted(), Step::Advances { a: 0 }), NothingPasses);
}

#[test]
fn two_primaries_of_one_term_are_each_other_s_voters() {
    let elected = after(&[primary(2, &[1]), primary(2, &[])], Step::Elect { a: 0, set: 3 });
    assert_eq!(elected.servers[0], primary(3, &[1]));
    assert_eq!(elected.servers[1], Server { term: 3, ..holding(&[]) });
}

#[test]
fn a_first_entry_may_be_at_the_zero_time() {
    let mut server = with(&holding(&[1]), 1, Entry { time: Time::ZERO, ..entry(1, 1) });
    server.cluster_time = Time::ZERO;
    assert!(cluster(&[server, holding(&[])]).well_formed());
}

#[test]
fn a_refused_start_leaves_any_record() {
    let servers = [primary(0, &[3]); SERVERS];
    let mut odd = Cluster { count: usize::MAX, followers: 255, servers };
    odd.servers[2].log.length = usize::MAX;
    for servers in [0, 1, 8, 255] {
        let mut after = odd;
        let answer = step(&mut after, &Step::Start { servers, followers: 0 });
        assert_eq!((answer.map_err(Condition::number), after), (Err(3), odd));
    }
    assert_eq!(step(&mut odd, &Step::Start { servers: 7, followers: 0 }), Ok(Numbers::NONE));
    assert_eq!(odd, Cluster::fresh(7));
}

/// Every clause of document 01's sentence, each broken alone in the record of the test below.
const BROKEN: &[fn(&mut Cluster)] = &[
    |c| *c = Cluster::ZERO,
    |c| *c = cluster(&c.servers[..1]),
    |c| *c = Cluster { count: 8, ..cluster(&[c.servers[0]; SERVERS]) },
    |c| *c = Cluster { count: usize::MAX, ..cluster(&[c.servers[0]; SERVERS]) },
    |c| c.servers[0].log = Log { length: ENTRIES + 1, ..log(&[1; ENTRIES]) },
    |c| c.servers[0].log = Log { length: usize::MAX, ..log(&[1; ENTRIES]) },
    |c| c.servers[0].log.entries[0].term = 0,
    |c| c.servers[0] = with(&c.servers[0], 2, Entry { term: 3, ..entry(2, 2) }),
    |c| c.servers[0].term = 1,
    |c| c.servers[0].log.entries[1].key = 16,
    |c| c.servers[0].log.entries[1].key = 254,
    |c| c.servers[0].log.entries[1].key = 255,
    |c| c.servers[0].log.entries[1].value = 0,
    |c| c.servers[0] = writing(&c.servers[0], 2, 255, 1),
    |c| c.servers[0] = writing(&c.servers[0], 2, 0, 0),
    |c| c.servers[0] = writing(&c.servers[0], 2, 15, 0),
    |c| c.servers[0] = writing(&c.servers[0], 2, 16, 0),
    |c| c.servers[0] = writing(&c.servers[0], 2, 254, 0),
    |c| c.servers[0].log.entries[1].time = c.servers[0].log.entries[0].time,
    |c| c.servers[0].log.entries[0].time = c.servers[0].log.entries[2].time,
    |c| c.servers[0].cluster_time = Time { p: 2, l: 2 },
    |c| c.servers[0].commit_point = 4,
    |c| c.servers[1].role = Primary,
    |c| c.servers[1].wall_clock = 0,
    |c| c.servers[0].log.entries[3].term = 1,
    |c| c.servers[0].log.entries[ENTRIES - 1].key = 1,
    |c| c.servers[1].log.entries[0].value = 1,
    |c| c.servers[1].log.entries[0].key = 255,
    |c| c.servers[1].log.entries[1].time.p = 1,
    |c| c.servers[1].log.entries[2].time.l = 1,
    |c| c.servers[2].term = 1,
    |c| c.servers[2].role = Primary,
    |c| c.servers[2].commit_point = 1,
    |c| c.servers[2].wall_clock = 1,
    |c| c.servers[3].cluster_time = Time { p: 0, l: 1 },
    |c| c.servers[6].log.length = 1,
    |c| c.servers[6].log.entries[ENTRIES - 1].time.l = 1,
];

/// One step of each kind that looks at the record, and a write that carries a time.
const LOOKING: [Step; 17] = [
    Step::Elect { a: 0, set: 3 },
    Step::StepDown { a: 0 },
    Step::Hears { a: 0, b: 1 },
    Step::Pulls { a: 1, b: 0 },
    Step::RollsBack { a: 1, b: 0 },
    Step::Writes { a: 0, key: 0, value: 1, client: Time::ZERO },
    Step::Writes { a: 0, key: 0, value: 1, client: Time { p: 601, l: 65_534 } },
    Step::Advances { a: 0 },
    Step::WallClock { a: 0 },
    Step::Restarts { a: 0 },
    Step::LocalRead { a: 0, key: 0, time: Time::ZERO },
    Step::MajorityRead { a: 0, key: 0, time: Time::ZERO },
    Step::Acknowledged { a: 0, count: 0, position: 1, term: 1 },
    Step::ClocksAgree,
    Step::WritesNothing { a: 0 },
    Step::NewestRead { a: 0, key: 5, position: 2, term: 2 },
    Step::TakesReport { a: 0 },
];

#[test]
fn each_broken_clause_is_refusal_2() {
    let whole = cluster(&[primary(2, &[1, 2, 2]), Server { term: 0, ..holding(&[]) }]);
    is_refused_where_broken(&whole, BROKEN);
}

/// Every step that looks at the record refuses each of these with 2 and leaves it; none has a saved
/// form.
fn is_refused_where_broken(whole: &Cluster, broken: &[fn(&mut Cluster)]) {
    let whole = *whole;
    assert!(whole.well_formed());
    for (number, breaks) in broken.iter().enumerate() {
        let mut broken = whole;
        breaks(&mut broken);
        assert_eq!(save(&broken), Err(Refusal::Value), "broken clause {number}");
        for taken in &LOOKING {
            let mut after = broken;
            let answer = step(&mut after, taken).map_err(Condition::number);
            assert_eq!((answer, after), (Err(2), broken), "broken clause {number}, {taken:?}");
        }
    }
}

/// Servers that sessions never bring together.
fn odd_servers() -> Vec<Server> {
    let late = Server { term: 65_535, ..holding(&[1, 2]) };
    let early = Server { cluster_time: Time::ZERO, ..holding(&[]) };
    let first = with(&holding(&[1, 2, 3]), 1, Entry { time: Time::ZERO, ..entry(1, 1) });
    let mut odd = vec![late, early, first, holding(&[2, 2]), primary(2, &[1, 2]), primary(2, &[])];
    odd.extend(others(entry(1, 1)).map(|other| with(&holding(&[1]), 1, other)));
    odd.extend([1, 2].map(|commit_point| Server { commit_point, ..late }));
    odd.extend([ENTRIES - 1, ENTRIES].map(|length| primary(3, &[3; ENTRIES][..length])));
    odd.extend([1, 2].map(|position| nothing_at(&primary(2, &[1, 2]), position)));
    odd.push(Server { commit_point: 2, ..nothing_at(&primary(2, &[1, 2]), 2) });
    odd
}

/// `take` sees to what is promised of every well-formed record.
#[test]
fn every_step_from_an_odd_record_keeps_it_well_formed() {
    for a in odd_servers() {
        for b in odd_servers() {
            for taken in &LOOKING {
                let _ = take(&mut cluster(&[a, b]), *taken);
                let _ = take(&mut cluster(&[b, a, a]), *taken);
            }
        }
    }
}

#[path = "followers_tests.rs"]
mod followers;
#[path = "limits_tests.rs"]
mod limits;
#[path = "newest_tests.rs"]
mod newest;
#[path = "phones_tests.rs"]
mod phones;
#[path = "reports_tests.rs"]
mod reported;
#[path = "saved_tests.rs"]
mod saved;
