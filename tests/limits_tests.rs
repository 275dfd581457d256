//! Record-level tests at the limits: a log keeps 128 entries, and positions and lengths go to 128.

use super::reported::{report, told};
use super::*;

/// A primary of term 3 with so many entries, whose clock leaves room for more.
fn leader(length: usize) -> Server {
    Server { cluster_time: Time { p: 3, l: 500 }, ..primary(3, &[3; ENTRIES][..length]) }
}

fn follower(length: usize) -> Server {
    Server { role: Secondary, ..leader(length) }
}

/// What server 0 of a cluster of two answers: 0, or the refusal.
fn refusal(server: Server, taken: Step) -> u8 {
    take(&mut cluster(&[server, follower(0)]), taken).map_or_else(Condition::number, |_| 0)
}

#[test]
fn the_last_entry_of_a_log_is_the_128th() {
    let write = Step::Writes { a: 0, key: 5, value: 41, client: Time::ZERO };
    for taken in [write, Step::WritesNothing { a: 0 }] {
        let mut record = cluster(&[leader(126), follower(0)]);
        let answers = [0; 4].map(|_| take(&mut record, taken).map(|numbers| numbers.number));
        assert_eq!(answers, [Ok(127), Ok(128), Err(LogFull), Err(LogFull)]);
        assert_eq!(record.servers[0].log.length, 128);
    }
    assert_eq!(LogFull.number(), 6);
}

/// The first server with the second's log, which it then reports.
fn is_copied(servers: [Server; 2], taken: Step) {
    let mut record = cluster(&servers);
    let copied = servers[1].log;
    assert_eq!(take(&mut record, taken), Ok(Numbers::place(copied.length)));
    assert_eq!(record.servers[0].log, copied);
    let came = report(0, note(3, 3, copied.length));
    assert_eq!(record.servers[1].queue.oldest(), Some(came));
}

#[test]
fn a_pull_fills_a_log() {
    for (length, longer) in [(0, 127), (0, 128), (1, 128), (126, 128), (127, 128)] {
        is_copied([follower(length), leader(longer)], Step::Pulls { a: 0, b: 1 });
    }
    let both_full = [follower(128), leader(128)];
    assert_eq!(refused(&both_full, Step::Pulls { a: 0, b: 1 }), NotShorter);
}

#[test]
fn a_rollback_to_a_full_log_and_of_one() {
    let rolls_back = Step::RollsBack { a: 0, b: 1 };
    for (length, other) in [(1, 128), (127, 128), (128, 128), (128, 127), (128, 1)] {
        is_copied([holding(&[2; ENTRIES][..length]), leader(other)], rolls_back);
    }
    let [mut loser, mut winner] = [[1; ENTRIES]; 2];
    (loser[127], winner[127]) = (2, 3);
    let covering = |commit_point: usize| Server { commit_point, ..holding(&loser) };
    is_copied([covering(127), primary(3, &winner)], rolls_back);
    let below = [covering(128), primary(3, &winner)];
    assert_eq!(refused(&below, rolls_back), CommonBelowCommitPoint);
}

#[test]
fn positions_go_to_128() {
    let refusals = |server: Server, position: u16| {
        let asked = Step::Acknowledged { a: 0, count: 0, position, term: 3 };
        [asked, Step::NewestRead { a: 0, key: 5, position, term: 3 }]
            .map(|taken| refusal(server, taken))
    };
    let covering = |commit_point: usize, length: usize| Server { commit_point, ..leader(length) };
    for (server, at_127, at_128) in
        [(covering(128, 128), 0, 0), (covering(127, 128), 0, 8), (covering(126, 127), 8, 10)]
    {
        let places = [(127, at_127), (128, at_128), (129, 3), (256 + 128, 3), (65_535, 3)];
        for (position, refusal) in places {
            assert_eq!(refusals(server, position), [refusal; 2], "position {position}");
        }
    }
}

#[test]
fn a_commit_point_goes_to_128() {
    for (length, noted, covered) in [(128, 127, 127), (128, 128, 128), (127, 128, 127)] {
        let noting = noting(leader(length), &[(1, note(3, 3, noted))]);
        let mut record = cluster(&[noting, follower(0)]);
        assert_eq!(take(&mut record, Step::Advances { a: 0 }), Ok(Numbers::place(covered)));
        assert_eq!(refusal(record.servers[0], Step::Advances { a: 0 }), 5);
    }
    let covering = Server { commit_point: 128, ..leader(128) };
    for (length, covered) in [(127, 0), (128, 128)] {
        let heard = after(&[follower(length), covering], Step::Hears { a: 0, b: 1 });
        assert_eq!(heard.servers[0].commit_point, covered);
    }
}

#[test]
fn reads_see_the_128th_entry() {
    let server = writing(&Server { commit_point: 128, ..leader(128) }, 128, 9, 77);
    let time = server.applied_time();
    let reads = [
        Step::LocalRead { a: 0, key: 9, time },
        Step::MajorityRead { a: 0, key: 9, time },
        Step::NewestRead { a: 0, key: 9, position: 128, term: 3 },
    ];
    for taken in reads {
        let shown = take(&mut cluster(&[server, follower(0)]), taken);
        assert_eq!(shown, Ok(Numbers::value(77, time)));
    }
}

#[test]
fn notes_and_reports_tell_lengths_up_to_128() {
    let noted = |length: usize| noting(follower(0), &[(1, note(3, 3, length))]);
    let reported = |length: usize| told(follower(0), &[report(1, note(3, 3, length))]);
    for length in [127, 128] {
        let servers = [coming_after(1, reported(length)), follower(0)];
        let passed = after(&servers, Step::TakesReport { a: 0 });
        assert_eq!(passed, cluster(&[coming_after(1, noted(length)), reported(length)]));
    }
    for server in [noted(129), reported(129)] {
        let mut broken = cluster(&[server, follower(0)]);
        assert_eq!(step(&mut broken, &Step::ClocksAgree), Err(NotWellFormed));
    }
}
