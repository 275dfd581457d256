//! Tests of the plan: records worked by hand, all ties, every refusal and their order, and how many
//! steps there are.

use super::*;
use crate::model::{Entry, Role, SERVERS};

/// A secondary of that term which covers so many of its entries; these have the terms that are
/// given, and the same term and position mean equal entries.
fn server(term: u16, terms: &[u16], commit_point: usize) -> Server {
    let mut server = Server { term, commit_point, wall_clock: 1, ..Cluster::ZERO.servers[0] };
    for (slot, &term) in terms.iter().enumerate() {
        let time = Time { p: term, l: slot as u16 };
        server.log.entries[slot] = Entry { term, key: 5, value: 41, time };
    }
    server.log.length = terms.len();
    server.cluster_time = server.applied_time();
    server
}

fn primary(term: u16, terms: &[u16], commit_point: usize) -> Server {
    Server { role: Role::Primary, ..server(term, terms, commit_point) }
}

/// The cluster of these servers in which those of the set follow.
fn cluster(followers: u8, servers: &[Server]) -> Cluster {
    let mut cluster = Cluster { count: servers.len(), followers, ..Cluster::ZERO };
    cluster.servers[..servers.len()].copy_from_slice(servers);
    assert!(cluster.well_formed());
    cluster
}

/// The plan for key 5 and value 50, after which all is as promised.
fn planned(record: &Cluster) -> Vec<Step> {
    let steps = plan(record, 5, 50).expect("there is a plan");
    assert!(steps.len() <= 4 * record.count);
    let mut after = *record;
    assert!(steps.iter().all(|taken| step(&mut after, taken).is_ok()));
    let is_primary = |server: &&Server| server.role == Role::Primary;
    let primaries: Vec<&Server> = after.counted().iter().filter(is_primary).collect();
    assert_eq!(primaries.len(), 1);
    let Server { term, log, .. } = *primaries[0];
    let Entry { term: last, key, value, .. } = log.entries[log.length - 1];
    assert_eq!((last, key, value), (term, 5, 50));
    for server in after.counted() {
        assert!(server.term <= term && server.log == log && server.commit_point == log.length);
    }
    steps
}

/// These lines are the plan; each is given without the zeros that it ends in.
fn is_planned(record: &Cluster, lines: &[&str]) {
    let text: String = lines.iter().map(|line| format!("{line:0<26}\n")).collect();
    assert_eq!(String::from_utf8(text_of(&planned(record))).unwrap(), text);
}

/// Server 0 is still primary in term 1, with an entry that server 1, primary in term 2, doesn't
/// have.
#[test]
fn two_primaries() {
    let servers = [primary(1, &[1, 1], 1), primary(2, &[1, 2], 1), server(2, &[1], 0)];
    is_planned(
        &cluster(0, &servers),
        &[
            "01010007",
            "06010000050032",
            "050001",
            "040201",
            "1001",
            "1001",
            "0701",
            "030001",
            "030201",
        ],
    );
}

/// Server 1 has most, though two have elected server 3 without it; server 0 follows and has
/// nothing.
#[test]
fn a_follower_far_behind_and_a_later_term() {
    let servers =
        [server(0, &[], 0), primary(1, &[1, 1, 1], 1), server(3, &[1], 0), primary(3, &[1], 1)];
    is_planned(
        &cluster(1, &servers),
        &[
            "030102",
            "0101000e",
            "06010000050032",
            "040001",
            "040201",
            "040301",
            "1001",
            "1001",
            "1001",
            "0701",
            "030001",
            "030201",
            "030301",
        ],
    );
}

/// A follower with a longer log than any voter's rolls back as a voter would.
#[test]
fn a_follower_that_is_ahead() {
    let servers = [server(2, &[1, 2], 1), server(2, &[1], 1), server(1, &[1, 1, 1, 1], 1)];
    is_planned(
        &cluster(4, &servers),
        &[
            "01000003",
            "06000000050032",
            "040100",
            "050200",
            "1000",
            "1000",
            "0700",
            "030100",
            "030200",
        ],
    );
}

/// The first steps of a plan.
fn begins(record: &Cluster, steps: &[Step]) {
    assert_eq!(planned(record)[..steps.len()], *steps);
}

#[test]
fn a_follower_s_term_counts_in_the_first_line() {
    let elect = Step::Elect { a: 0, set: 3 };
    let alone = [server(1, &[1], 0), server(1, &[], 0), server(9, &[], 0)];
    begins(&cluster(4, &alone), &[Step::Hears { a: 0, b: 2 }, elect]);
    let as_high = [server(9, &[1], 0), server(1, &[], 0), server(9, &[], 0)];
    begins(&cluster(4, &as_high), &[elect]);
    let first = [server(2, &[], 0), primary(1, &[1], 0), primary(2, &[], 0), server(2, &[], 0)];
    begins(&cluster(1, &first), &[Step::Hears { a: 1, b: 0 }, Step::Elect { a: 1, set: 14 }]);
    begins(&cluster(0, &first), &[Step::Hears { a: 1, b: 0 }, Step::Elect { a: 1, set: 15 }]);
}

/// Whom the voters elect.
fn elected(followers: u8, servers: &[Server]) -> u8 {
    let steps = planned(&cluster(followers, servers));
    let of = |step: &Step| if let Step::Elect { a, .. } = step { Some(*a) } else { None };
    steps.iter().find_map(of).expect("somebody is elected")
}

#[test]
fn the_last_term_goes_before_the_length() {
    let [long, late] = [server(1, &[1, 1, 1], 0), server(2, &[2], 0)];
    assert_eq!(elected(0, &[long, late]), 1);
    assert_eq!(elected(0, &[late, long]), 0);
    let [short, longer] = [server(2, &[2], 0), server(2, &[1, 2], 0)];
    assert_eq!(elected(0, &[short, short, longer]), 2);
    assert_eq!(elected(0, &[long, longer, short]), 1);
    assert_eq!(elected(0, &[server(9, &[], 0), server(1, &[1], 0)]), 1);
}

#[test]
fn ties_go_to_the_lowest_number_that_votes() {
    let [most, less] = [server(2, &[1, 2], 0), server(2, &[1], 0)];
    let servers = [less, most, most, most];
    assert_eq!([0, 1, 2, 8].map(|followers| elected(followers, &servers)), [1, 1, 2, 1]);
    assert_eq!([0, 1, 2, 4].map(|followers| elected(followers, &[most; 4])), [0, 1, 0, 0]);
    let fresh = [server(0, &[], 0); SERVERS];
    assert_eq!([0, 0x1f, 0x03, 0x41].map(|followers| elected(followers, &fresh)), [0, 5, 2, 1]);
}

#[test]
fn of_equal_terms_the_lowest_number_is_heard() {
    let heard = |followers: u8, terms: [u16; 4]| {
        let [a, b, c, d] = terms.map(|term| server(term, &[], 0));
        let longest = server(1, &[1], 0);
        planned(&cluster(followers, &[a, b, longest, c, d]))[0]
    };
    for followers in [0, 1, 2, 8, 3, 16] {
        assert_eq!(heard(followers, [4, 5, 5, 5]), Step::Hears { a: 2, b: 1 });
        assert_eq!(heard(followers, [5, 5, 4, 5]), Step::Hears { a: 2, b: 0 });
        assert_eq!(heard(followers, [1, 0, 2, 3]), Step::Hears { a: 2, b: 4 });
        assert_eq!(heard(followers, [1, 0, 3, 3]), Step::Hears { a: 2, b: 3 });
        let set = 0x1f & !followers;
        assert_eq!(heard(followers, [1, 0, 1, 1]), Step::Elect { a: 2, set });
    }
}

/// Below an equal last entry the first one differs, as in no record that is reached: a pull is
/// allowed, and so would a rollback be.
#[test]
fn a_pull_goes_before_a_rollback() {
    let mut odd = server(2, &[1, 2], 0);
    odd.log.entries[0].value = 7;
    let record = cluster(0, &[server(2, &[1, 2, 2], 0), odd]);
    let steps = plan(&record, 5, 50).unwrap();
    assert_eq!(steps[2], Step::Pulls { a: 1, b: 0 });
    let mut rolls_back = record;
    assert!(steps[..2].iter().all(|taken| step(&mut rolls_back, taken).is_ok()));
    assert!(step(&mut rolls_back, &Step::RollsBack { a: 1, b: 0 }).is_ok());
}

/// What waits in queues and was noted before the plan is in nobody's way.
#[test]
fn old_reports_and_notes() {
    let mut record = cluster(0, &[server(1, &[1], 0), primary(1, &[1, 1], 0), server(1, &[1], 0)]);
    let fills = [Step::WritesNothing { a: 1 }, Step::Pulls { a: 0, b: 1 }];
    for taken in fills.repeat(9).iter().chain(&[Step::TakesReport { a: 1 }]) {
        assert!(step(&mut record, taken).is_ok());
    }
    assert!(step(&mut record, &Step::Pulls { a: 2, b: 0 }).is_ok());
    let queues = [0, 1].map(|a| record.servers[a].queue.length);
    assert_eq!((queues, record.servers[1].notes[0].is_used()), ([1, 7], true));
    let taken = planned(&record).iter().filter(|step| step.kind() == 16).count();
    assert_eq!(taken, 2);
}

/// Every count with every set of followers that leaves two voters: without the first line there are
/// three times as many steps as servers, with it one more.
#[test]
fn there_are_at_most_four_times_as_many_steps_as_servers() {
    let mut clusters = 0;
    for count in 2..=SERVERS {
        for followers in 0u8..1 << count {
            if count - (followers.count_ones() as usize) < 2 {
                continue;
            }
            let mut servers = [server(0, &[], 0); SERVERS];
            assert_eq!(planned(&cluster(followers, &servers[..count])).len(), 3 * count);
            let voter = followers.trailing_ones() as usize;
            servers[voter] = server(1, &[1], 0);
            servers[(voter + 1) % count].term = 2;
            assert_eq!(planned(&cluster(followers, &servers[..count])).len(), 3 * count + 1);
            clusters += 1;
        }
    }
    assert_eq!(clusters, 1 + 4 + 11 + 26 + 57 + 120);
}

/// So many entries, of the server's last term or else of its own.
fn fill(server: &mut Server, length: usize) {
    let term = server.log.last_term().max(1);
    let commit_point = server.commit_point;
    *server = Server { role: server.role, ..self::server(term, &vec![term; length], commit_point) };
}

/// What refuses a plan at some server of the record below; the number, and what makes it so.
const CAUSES: &[(u8, fn(&mut Cluster, usize))] = &[
    (2, |c, a| c.servers[a].wall_clock = 0),
    (2, |c, a| c.servers[a].commit_point = 200),
    (6, |c, a| fill(&mut c.servers[a], ENTRIES)),
    (7, |c, a| c.servers[a].term = LAST),
    (7, |c, a| c.servers[a].wall_clock = LAST),
    (7, |c, a| c.servers[a].cluster_time.p = LAST),
    (7, |c, a| c.servers[a].cluster_time.l = LAST),
];

/// Server 1 would be elected, and server 0 would roll back; server 2 follows.
fn split() -> Cluster {
    cluster(4, &[primary(1, &[1, 1], 1), primary(2, &[1, 2], 1), server(2, &[1], 0)])
}

#[test]
fn a_cause_at_one_server_refuses() {
    planned(&split());
    for &(number, makes) in CAUSES {
        for a in 0..3 {
            let mut record = split();
            makes(&mut record, a);
            assert_eq!(plan(&record, 5, 50), Err(number), "server {a}");
        }
    }
}

#[test]
fn keys_and_values_out_of_range_are_3() {
    for (key, value) in
        [(16, 50), (17, 1), (128, 50), (255, 50), (255, 0), (16, 0), (0, 0), (15, 0)]
    {
        assert_eq!(plan(&split(), key, value), Err(3));
    }
    for (key, value) in [(0, 1), (15, 1), (0, 65_535), (15, 256)] {
        let write = plan(&split(), key, value).unwrap()[1];
        assert_eq!(write, Step::Writes { a: 1, key, value, client: Time::ZERO });
    }
}

/// Server 0 covers an entry that server 1 doesn't have: as long as nothing else refuses, its
/// rollback does.
fn lying() -> Cluster {
    let mut record = split();
    record.servers[0].commit_point = 2;
    assert!(record.well_formed());
    record
}

#[test]
fn a_covered_entry_that_the_candidate_has_not_is_9() {
    assert_eq!(plan(&lying(), 5, 50), Err(9));
    let mut follower = split();
    follower.servers[2] = server(1, &[1, 1], 2);
    assert_eq!(plan(&follower, 5, 50), Err(9));
    let short = [server(2, &[2], 0), server(1, &[1], 1)];
    assert_eq!(plan(&cluster(0, &short), 5, 50), Err(9));
    let late = [server(1, &[1, 1], 2), server(9, &[1, 2], 0), server(2, &[1], 1)];
    assert_eq!(plan(&cluster(0, &late), 5, 50), Err(9));
}

/// The numbers rise in the order in which they are looked for, so the lower of two is given.
#[test]
fn of_two_refusals_the_first_is_given() {
    for &(one, makes_one) in CAUSES {
        for &(other, makes_other) in CAUSES {
            for (a, b) in [(0, 1), (1, 0), (2, 1), (1, 2)] {
                let mut record = lying();
                makes_one(&mut record, a);
                makes_other(&mut record, b);
                let first = one.min(other);
                assert_eq!(plan(&record, 5, 50), Err(first), "servers {a} and {b}");
                for (key, value) in [(16, 50), (5, 0)] {
                    assert_eq!(plan(&record, key, value), Err(first.min(3)));
                }
            }
        }
    }
    assert_eq!(plan(&lying(), 16, 50), Err(3));
}

#[test]
fn without_a_start_or_with_a_broken_record_it_is_2() {
    for (key, value) in [(5, 50), (16, 50), (5, 0)] {
        assert_eq!(plan(&Cluster::ZERO, key, value), Err(2));
        let many = Cluster { count: usize::MAX, ..split() };
        assert_eq!(plan(&many, key, value), Err(2));
        let one_voter = Cluster { followers: 6, ..split() };
        assert_eq!(plan(&one_voter, key, value), Err(2));
        let mut long = split();
        long.servers[0].log.length = ENTRIES + 1;
        assert_eq!(plan(&long, key, value), Err(2));
    }
}

/// One below every limit at every server; the plan's own steps reach them.
#[test]
fn just_below_the_limits_there_is_a_plan() {
    let mut server = server(LAST - 1, &[1; ENTRIES - 1], 3);
    server.wall_clock = LAST - 1;
    server.cluster_time = Time { p: LAST - 1, l: LAST - 1 };
    let record = cluster(4, &[server; 3]);
    let mut after = record;
    for taken in planned(&record) {
        step(&mut after, &taken).unwrap();
    }
    let Server { term, log, cluster_time, .. } = after.servers[0];
    assert_eq!((term, log.length, cluster_time.l), (LAST, ENTRIES, LAST));
}

/// Only a server's own numbers count: an entry's time may have been at its last l, and so may a
/// note's and a report's term.
#[test]
fn an_entry_at_the_last_l_is_no_cause() {
    let mut record = split();
    for server in &mut record.servers[..3] {
        server.log.entries[0].time = Time { p: 0, l: LAST };
    }
    record.servers[1].notes[0].term = LAST;
    record.servers[1].notes[0].last_term = LAST;
    record.servers[1].notes[0].length = ENTRIES;
    assert!(record.well_formed());
    planned(&record);
}
