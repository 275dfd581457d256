//! Record-level tests of reports: what a pull and a rollback send, what kind 16 notes and passes
//! on, what kind 7 counts, and when all that is forgotten.

use super::super::reports::{REPORTS, Report};
use super::*;

const TAKES: Step = Step::TakesReport { a: 0 };
const ADVANCES: Step = Step::Advances { a: 0 };
const PULLS: Step = Step::Pulls { a: 0, b: 1 };
const ROLLS_BACK: Step = Step::RollsBack { a: 0, b: 1 };
/// The greatest length that a note and a report tell.
const LONGEST: usize = HIGHEST_POSITION;

pub(super) fn report(who: usize, note: Note) -> Report {
    Report { who, note }
}

/// The server with these reports in its queue.
pub(super) fn told(server: Server, reports: &[Report]) -> Server {
    let mut queue = Queue { length: reports.len(), ..Queue::EMPTY };
    queue.reports[..reports.len()].copy_from_slice(reports);
    Server { queue, ..server }
}

/// So many reports about server 0, no two alike.
fn many(count: usize) -> Vec<Report> {
    (1..=count).map(|length| report(0, note(9, 1, length))).collect()
}

/// Three servers, each with notes, reports and a source: the first two come after each other.
pub(super) fn busy() -> [Server; 3] {
    let notes = [(0, note(9, 1, LONGEST)), (1, note(2, 2, 2)), (2, note(3, 3, 1))];
    let reports = [report(1, note(2, 1, 7)), report(0, note(9, 9, 9)), report(2, note(1, 1, 1))];
    let noted = |server: Server| noting(told(server, &reports), &notes);
    let [first, second] = [primary(2, &[1, 2, 2]), holding(&[1, 2])].map(noted);
    [coming_after(1, first), coming_after(0, second), coming_after(0, noted(holding(&[1])))]
}

/// Every new clause of "well formed", each broken alone in the busy record.
const BROKEN_REPORTS: &[fn(&mut Cluster)] = &[
    |c| c.servers[0].notes[3] = note(1, 1, 1),
    |c| c.servers[1].notes[6] = note(1, 1, 1),
    |c| c.servers[1].notes[6].term = 1,
    |c| c.servers[0].notes[1] = note(2, 2, 0),
    |c| c.servers[0].notes[1] = note(2, 2, LONGEST + 1),
    |c| c.servers[0].notes[1] = note(2, 2, usize::MAX),
    |c| c.servers[0].notes[1] = note(2, 0, 2),
    |c| c.servers[0].notes[1] = note(2, 3, 2),
    |c| c.servers[0].notes[1] = note(0, 1, 2),
    |c| c.servers[0].notes[1] = note(0, 0, 2),
    |c| c.servers[0].notes[1] = note(2, 0, 0),
    |c| c.servers[0].notes[1] = note(0, 2, 0),
    |c| c.servers[2].notes[2] = note(2, 3, 2),
    |c| c.servers[0].queue = Queue { length: 9, ..told(holding(&[]), &many(8)).queue },
    |c| c.servers[0].queue = Queue { length: usize::MAX, ..told(holding(&[]), &many(8)).queue },
    |c| c.servers[0].queue.length = 2,
    |c| c.servers[0].queue.length = 4,
    |c| c.servers[0].queue.length = 0,
    |c| c.servers[0].queue.reports[0].who = 3,
    |c| c.servers[1].queue.reports[2].who = 6,
    |c| c.servers[1].queue.reports[2].who = usize::MAX,
    |c| c.servers[0].queue.reports[1].note = note(9, 9, 0),
    |c| c.servers[0].queue.reports[1].note = note(9, 9, LONGEST + 1),
    |c| c.servers[0].queue.reports[1].note = note(9, 0, 9),
    |c| c.servers[0].queue.reports[1].note = note(9, 10, 9),
    |c| c.servers[0].queue.reports[1].note = note(0, 0, 9),
    |c| c.servers[0].queue.reports[1].note = Note::UNUSED,
    |c| c.servers[2].queue.reports[2].note = note(1, 2, 1),
    |c| c.servers[0].queue.reports[3].who = 1,
    |c| c.servers[0].queue.reports[7].note.term = 1,
    |c| c.servers[1].queue.reports[3].note.last_term = 1,
    |c| c.servers[1].queue.reports[7].note.length = 1,
    |c| c.servers[2].queue.reports[3] = report(1, note(1, 1, 1)),
    |c| c.servers[0].source = Some(0),
    |c| c.servers[2].source = Some(2),
    |c| c.servers[0].source = Some(3),
    |c| c.servers[1].source = Some(6),
    |c| c.servers[1].source = Some(usize::MAX),
    |c| c.servers[3].notes[0] = note(1, 1, 1),
    |c| c.servers[6].notes[6].length = 1,
    |c| c.servers[3] = told(c.servers[3], &many(1)),
    |c| c.servers[4].queue.length = 1,
    |c| c.servers[6].queue.reports[7].who = 1,
    |c| c.servers[3].source = Some(0),
    |c| c.servers[6].source = Some(2),
];

#[test]
fn each_broken_clause_about_reports_is_refusal_2() {
    is_refused_where_broken(&cluster(&busy()), BROKEN_REPORTS);
}

#[test]
fn notes_and_reports_at_their_edges_are_well_formed() {
    let edges =
        [note(1, 1, 1), note(65_535, 1, LONGEST), note(65_535, 65_535, 1), note(2, 2, LONGEST)];
    for edge in edges {
        let notes = [(0, edge), (1, edge), (2, edge)];
        let server = told(noting(holding(&[]), &notes), &[report(2, edge); REPORTS]);
        assert!(cluster(&[server, coming_after(2, server), coming_after(0, server)]).well_formed());
    }
    let last = coming_after(5, noting(holding(&[]), &[(6, note(1, 1, 1))]));
    assert!(cluster(&[last, last, last, last, last, holding(&[]), last]).well_formed());
}

#[test]
fn the_zero_server_and_the_fresh_cluster_have_none() {
    for server in [Server::ZERO, Cluster::fresh(7).servers[6]] {
        assert!(!server.notes.iter().any(Note::is_used));
        assert_eq!((server.queue, server.source), (Queue::EMPTY, None));
    }
    let mut started = cluster(&busy());
    assert_eq!(step(&mut started, &Step::Start { servers: 3, followers: 0 }), Ok(Numbers::NONE));
    assert_eq!(started, Cluster::fresh(3));
}

/// The two kinds that copy: what a was before, and what it then reports.
fn copies() -> [(Step, Server, Note); 4] {
    let ahead = |term: u16, server: Server| Server { term, ..server };
    [
        (PULLS, ahead(3, holding(&[1])), note(4, 2, 3)),
        (PULLS, ahead(7, holding(&[])), note(7, 2, 3)),
        (ROLLS_BACK, ahead(3, holding(&[1, 1, 1, 1])), note(4, 2, 3)),
        (ROLLS_BACK, ahead(7, holding(&[1, 1])), note(7, 2, 3)),
    ]
}

#[test]
fn a_copy_reports_what_holds_after_it() {
    let [b, _, c] = busy();
    let b = Server { term: 4, source: Some(2), ..b };
    for (taken, a, sent) in copies() {
        let a = Server { notes: b.notes, queue: b.queue, source: Some(2), ..a };
        let mut record = cluster(&[a, b, c]);
        assert_eq!(take(&mut record, taken), Ok(Numbers::place(3)));
        let copied = Server { log: b.log, term: sent.term, source: Some(1), ..a };
        let mut received = b;
        received.queue.reports[3] = report(0, sent);
        received.queue.length = 4;
        assert_eq!(record, cluster(&[copied, received, c]), "{taken:?}");
    }
}

#[test]
fn a_full_queue_loses_the_report_and_the_copy_is_done() {
    let b = told(Server { term: 4, ..holding(&[1, 2, 2]) }, &many(REPORTS));
    for (taken, a, sent) in copies() {
        let mut record = cluster(&[a, b]);
        assert_eq!(take(&mut record, taken), Ok(Numbers::place(3)));
        let copied = Server { log: b.log, term: sent.term, source: Some(1), ..a };
        assert_eq!(record, cluster(&[copied, b]), "{taken:?}");
    }
}

#[test]
fn the_eighth_report_is_the_last_that_a_queue_takes() {
    let b = told(holding(&[1, 2]), &many(REPORTS - 1));
    let mut record = cluster(&[holding(&[]), b, holding(&[]), holding(&[])]);
    for a in [2, 3, 0] {
        assert_eq!(take(&mut record, Step::Pulls { a, b: 1 }), Ok(Numbers::place(2)));
        let mut waiting = many(REPORTS - 1);
        waiting.push(report(2, note(2, 2, 2)));
        assert_eq!(record.servers[1], told(b, &waiting));
    }
}

#[test]
fn a_copy_that_is_refused_sends_nothing() {
    let servers = [primary(2, &[1]), told(holding(&[1, 2]), &many(3)), holding(&[1, 2])];
    let refusals =
        [(0, 1, NotSecondary), (1, 0, NotShorter), (1, 1, SameServer), (2, 1, NotShorter)];
    for (a, b, condition) in refusals {
        assert_eq!(refused(&servers, Step::Pulls { a, b }), condition);
    }
    assert_eq!(refused(&servers, Step::RollsBack { a: 2, b: 1 }), LastTermNotBelow);
}

#[test]
fn refusals_of_kind_16_come_in_order() {
    let servers = [holding(&[]), told(holding(&[]), &many(1))];
    let at = |a: u8| refused(&servers, Step::TakesReport { a });
    assert_eq!([2, 255, 0].map(at), [ServerOutside, ServerOutside, QueueEmpty]);
    assert_eq!([ServerOutside, QueueEmpty].map(Condition::number), [3, 5]);
    assert_eq!(refused(&[primary(1, &[]), servers[1]], TAKES), QueueEmpty);
    let mut broken = cluster(&[coming_after(0, holding(&[])), holding(&[])]);
    assert_eq!(step(&mut broken, &Step::TakesReport { a: 255 }), Err(NotWellFormed));
}

#[test]
fn kind_16_takes_the_oldest_and_the_others_move_up() {
    let all = many(REPORTS);
    let mut record = cluster(&[told(holding(&[]), &all), holding(&[])]);
    for (taken, oldest) in all.iter().enumerate() {
        assert_eq!(take(&mut record, TAKES), Ok(Numbers::NONE));
        let noted = noting(holding(&[]), &[(0, oldest.note)]);
        let left = told(noted, &all[taken + 1..]);
        assert_eq!(record, cluster(&[left, holding(&[])]));
    }
    assert_eq!(take(&mut record, TAKES), Err(QueueEmpty));
}

/// What a secondary and a primary have noted of server 1 after a report, with a note before it.
fn noted(before: Note, came: Note) -> Note {
    let taken = |server: Server| {
        let noted = noting(told(server, &[report(1, came)]), &[(1, before), (2, note(9, 9, 9))]);
        let after = after(&[noted, holding(&[]), holding(&[])], TAKES).servers[0];
        assert_eq!(after, noting(server, &[(1, after.notes[1]), (2, note(9, 9, 9))]));
        after.notes[1]
    };
    assert_eq!(taken(holding(&[1])), taken(primary(1, &[1])));
    taken(holding(&[1]))
}

#[test]
fn a_note_gives_way_by_term_then_last_term_then_length() {
    let rising = [
        note(3, 3, 9),
        note(4, 1, 1),
        note(4, 1, 2),
        note(4, 2, 1),
        note(4, 4, 1),
        note(4, 4, LONGEST),
        note(5, 1, 1),
        note(256, 2, 3),
    ];
    for (i, &lesser) in rising.iter().enumerate() {
        assert_eq!(noted(Note::UNUSED, lesser), lesser);
        assert_eq!(noted(lesser, lesser), lesser);
        for &greater in &rising[i + 1..] {
            assert_eq!(noted(lesser, greater), greater);
            assert_eq!(noted(greater, lesser), greater);
        }
    }
}

/// In both orders of the terms the one note is the greater; only the one with the terms as 02 names
/// them is right.
#[test]
fn a_note_s_term_comes_before_its_last_term() {
    let (late, advanced) = (note(5, 2, 3), note(4, 4, 3));
    assert_eq!(noted(late, advanced), late);
    assert_eq!(noted(advanced, late), late);
}

#[test]
fn a_secondary_notes_and_passes_on_what_came() {
    let (came, newer) = (report(1, note(3, 2, 5)), report(2, note(4, 4, 4)));
    let after_2 = |server: Server| coming_after(2, server);
    let to = told(after_2(noting(holding(&[1]), &[(1, note(2, 2, 2))])), &[newer]);
    let next = |reports: &[Report]| coming_after(0, told(holding(&[]), reports));
    for before in [Note::UNUSED, note(3, 2, 4), note(3, 2, 5), note(3, 2, 6), note(7, 7, 7)] {
        let from = after_2(noting(holding(&[1]), &[(1, before)]));
        let record = after(&[told(from, &[came, newer]), to, next(&many(2))], TAKES);
        let greater = noting(from, &[(1, before.max(came.note))]);
        let passed = next(&[&many(2)[..], &[came]].concat());
        assert_eq!(record, cluster(&[told(greater, &[newer]), to, passed]));
    }
}

#[test]
fn a_report_passed_on_to_a_full_queue_is_lost() {
    let came = report(1, note(3, 2, 5));
    let next = told(primary(1, &[]), &many(REPORTS));
    let record = after(&[coming_after(1, told(holding(&[]), &[came])), next], TAKES);
    assert_eq!(record, cluster(&[coming_after(1, noting(holding(&[]), &[(1, came.note)])), next]));
}

#[test]
fn a_report_with_nowhere_to_go_is_dropped() {
    let came = report(1, note(3, 2, 5));
    let others = [told(primary(3, &[]), &many(2)), coming_after(0, holding(&[]))];
    let record = after(&[told(holding(&[]), &[came]), others[0], others[1]], TAKES);
    let noted = noting(holding(&[]), &[(1, came.note)]);
    assert_eq!(record, cluster(&[noted, others[0], others[1]]));
}

#[test]
fn a_primary_passes_nothing_on() {
    let came = report(2, note(3, 2, 5));
    let leader = coming_after(1, primary(3, &[]));
    let record = after(&[told(leader, &[came]), holding(&[]), holding(&[])], TAKES);
    let noted = noting(leader, &[(2, came.note)]);
    assert_eq!(record, cluster(&[noted, holding(&[]), holding(&[])]));
}

#[test]
fn a_report_about_the_forwarder_or_its_source_is_like_any_other() {
    for who in 0..3 {
        for (from, to) in [(0, 1), (0, 2), (2, 0), (1, 0)] {
            let came = report(who, note(3, 2, 5));
            let mut servers = [holding(&[]); 3];
            servers[from] = coming_after(to, holding(&[]));
            let mut expected = servers;
            servers[from] = told(servers[from], &[came]);
            expected[from] = noting(expected[from], &[(who, came.note)]);
            expected[to] = told(expected[to], &[came]);
            assert_eq!(after(&servers, Step::TakesReport { a: from as u8 }), cluster(&expected));
        }
    }
}

#[test]
fn two_that_came_after_each_other_send_a_report_round() {
    let came = report(0, note(3, 2, 5));
    let noted = |at: usize| coming_after(1 - at, noting(holding(&[]), &[(0, came.note)]));
    let mut record = cluster(&[told(noted(0), &[came]), coming_after(0, holding(&[]))]);
    for _ in 0..3 {
        assert_eq!(take(&mut record, TAKES), Ok(Numbers::NONE));
        assert_eq!(record.servers[0], noted(0));
        assert_eq!(take(&mut record, Step::TakesReport { a: 1 }), Ok(Numbers::NONE));
        assert_eq!(record, cluster(&[told(noted(0), &[came]), noted(1)]));
    }
}

#[test]
fn a_report_of_a_later_term_changes_no_term_and_no_role() {
    let came = report(1, note(65_535, 65_535, LONGEST));
    for server in [primary(2, &[1]), holding(&[1]), holding(&[])] {
        let record = after(&[told(server, &[came]), holding(&[])], TAKES);
        assert_eq!(record, cluster(&[noting(server, &[(1, came.note)]), holding(&[])]));
    }
}

/// Whether the one entry of a primary of term 4 passes with these notes, in a cluster of so many.
fn passes(servers: usize, notes: &[(usize, Note)]) -> bool {
    let mut record = cluster(&[holding(&[])].repeat(servers));
    record.servers[0] = noting(primary(4, &[4]), notes);
    let answer = take(&mut record, ADVANCES);
    assert!([Ok(Numbers::place(1)), Err(NothingPasses)].contains(&answer));
    answer.is_ok()
}

#[test]
fn kind_7_counts_itself_and_others_by_their_notes() {
    for servers in 2..=SERVERS {
        for others in 0..servers {
            let notes: Vec<_> = (servers - others..servers).map(|b| (b, note(4, 4, 1))).collect();
            assert_eq!(passes(servers, &notes), 2 * (others + 1) > servers);
        }
    }
}

#[test]
fn kind_7_asks_for_both_terms_and_the_length() {
    let passing = [note(4, 4, 1), note(4, 4, LONGEST)];
    let others = [
        note(4, 3, 1),
        note(4, 1, LONGEST),
        note(3, 3, LONGEST),
        note(5, 4, LONGEST),
        note(5, 5, LONGEST),
    ];
    assert!(passing.iter().all(|&noted| passes(2, &[(1, noted)])));
    assert!(!others.iter().any(|&noted| passes(2, &[(1, noted)])));
    let at_2 = |noted: Note| noting(primary(4, &[4, 4]), &[(1, noted)]);
    assert_eq!(after(&[at_2(note(4, 4, 2)), holding(&[])], ADVANCES).servers[0].commit_point, 2);
    assert_eq!(after(&[at_2(note(4, 4, 1)), holding(&[])], ADVANCES).servers[0].commit_point, 1);
}

#[test]
fn a_note_about_oneself_is_not_counted() {
    for own in [note(4, 4, 1), note(3, 3, 1), note(9, 9, 9)] {
        assert!(!passes(2, &[(0, own)]));
        assert!(passes(2, &[(0, own), (1, note(4, 4, 1))]));
        assert!(!passes(4, &[(0, own), (1, note(4, 4, 1))]));
        assert!(passes(4, &[(0, own), (1, note(4, 4, 1)), (3, note(4, 4, 1))]));
    }
}

#[test]
fn a_primary_that_is_not_server_0_counts_itself_too() {
    let leader = |who: usize| noting(primary(4, &[4]), &[(who, note(4, 4, 1))]);
    let at = |who: usize| [holding(&[]), holding(&[]), leader(who)];
    let advances = Step::Advances { a: 2 };
    assert_eq!([0, 1].map(|who| after(&at(who), advances).servers[2].commit_point), [1, 1]);
    assert_eq!(refused(&at(2), advances), NothingPasses);
}

#[test]
fn notes_reach_no_entry_of_an_older_term() {
    let leader = noting(primary(4, &[1, 2, 4, 4]), &[(1, note(4, 4, 2)), (2, note(4, 4, 2))]);
    let servers = [leader, holding(&[]), holding(&[])];
    assert_eq!(refused(&servers, ADVANCES), NothingPasses);
    let reaching = [noting(leader, &[(2, note(4, 4, 3))]), holding(&[]), holding(&[])];
    let advanced = after(&reaching, ADVANCES);
    let committed = Server { commit_point: 3, ..reaching[0] };
    assert_eq!(advanced, cluster(&[committed, holding(&[]), holding(&[])]));
}

#[test]
fn kind_7_looks_into_no_other_log() {
    let leader = primary(4, &[1, 4, 4]);
    let same = Server { role: Secondary, ..leader };
    assert_eq!(refused(&[leader, same, same], ADVANCES), NothingPasses);
    let others = [holding(&[]), Server { term: 9, ..holding(&[]) }, holding(&[1, 5, 5, 5])];
    for other in others {
        let noted = noting(leader, &[(1, note(4, 4, 2)), (2, note(4, 4, LONGEST))]);
        let advanced = after(&[noted, other, other], ADVANCES);
        assert_eq!(advanced, cluster(&[Server { commit_point: 3, ..noted }, other, other]));
    }
}

#[test]
fn winning_empties_the_winner_s_notes_and_queue_alone() {
    for (elected, set) in [(0, 0b111), (0, 0b011), (0, 0b101), (1, 0b110)] {
        let taken = Step::Elect { a: elected as u8, set };
        let servers = busy().map(|server| Server { term: 2, ..server });
        let record = after(&servers, taken);
        for (i, (before, after)) in servers.iter().zip(record.counted()).enumerate() {
            let (notes, queue) = ([Note::UNUSED; SERVERS], Queue::EMPTY);
            let forgetful = if i == elected { Server { notes, queue, ..*before } } else { *before };
            let role = match set >> i & 1 {
                1 if i == elected => Primary,
                1 => Secondary,
                _ => before.role,
            };
            let term = 2 + u16::from(set >> i & 1 == 1);
            assert_eq!(*after, Server { role, term, ..forgetful }, "server {i}, {taken:?}");
        }
    }
    assert_eq!(refused(&busy(), Step::Elect { a: 2, set: 7 }), MemberTermAbove);
}

#[test]
fn a_restart_empties_both_and_forgets_the_source() {
    for a in 0..3 {
        let record = after(&busy(), Step::Restarts { a: a as u8 });
        let mut expected = busy();
        let Server { log, term, wall_clock, .. } = expected[a];
        let cluster_time = expected[a].applied_time();
        expected[a] = Server { log, term, wall_clock, cluster_time, ..Server::ZERO };
        assert_eq!(record, cluster(&expected));
    }
}

#[test]
fn stepping_down_and_a_higher_term_empty_nothing() {
    let [first, second, third] = busy();
    let down = Server { role: Secondary, ..first };
    assert_eq!(after(&busy(), Step::StepDown { a: 0 }), cluster(&[down, second, third]));
    let second = Server { term: 8, ..second };
    let heard = after(&[first, second, third], Step::Hears { a: 0, b: 1 });
    assert_eq!(heard, cluster(&[Server { term: 8, ..down }, second, third]));
    let passed = after(heard.counted(), TAKES);
    assert_eq!([0, 1].map(|a| passed.servers[a].queue.length), [2, 4]);
}

/// What each server was told, and whom it tells.
fn all_told(record: &Cluster) -> Vec<(Notes, Queue, Option<usize>)> {
    record.counted().iter().map(|server| (server.notes, server.queue, server.source)).collect()
}

#[test]
fn no_other_kind_touches_notes_queues_or_sources() {
    let early = busy().map(|server| Server { cluster_time: Time { p: 9, l: 9 }, ..server });
    let mut steps = 0;
    for taken in LOOKING.iter().filter(|step| ![1, 4, 5, 9, 16].contains(&step.kind())) {
        let mut record = cluster(&early);
        record.servers[0].commit_point = if *taken == ADVANCES { 0 } else { 2 };
        assert_eq!(take(&mut record, *taken).err(), None, "{taken:?}");
        assert_eq!(all_told(&record), all_told(&cluster(&early)), "{taken:?}");
        steps += 1;
    }
    assert_eq!(steps, 12);
}

/// `take` sees to what is promised of every well-formed record.
#[test]
fn every_step_from_an_odd_record_with_reports_keeps_it_well_formed() {
    let [first, second, _] = busy();
    let odd = [
        told(first, &many(REPORTS)),
        told(Server { role: Secondary, ..first }, &many(REPORTS)),
        told(second, &[report(1, note(65_535, 1, LONGEST))]),
        noting(primary(2, &[1, 2, 2]), &[(1, note(2, 2, LONGEST)), (2, note(2, 2, LONGEST))]),
        second,
        holding(&[]),
    ];
    let sources = [[Some(1), Some(0), Some(0)], [Some(2), Some(2), None], [None, None, Some(1)]];
    for (a, b) in odd.iter().flat_map(|a| odd.iter().map(move |b| (*a, *b))) {
        for (taken, sources) in LOOKING.iter().flat_map(|taken| sources.map(|s| (*taken, s))) {
            let mut record = cluster(&[a, b, a]);
            for (server, source) in record.servers.iter_mut().zip(sources) {
                server.source = source;
            }
            let _ = take(&mut record, taken);
        }
    }
}
