//! Record-level tests of followers: which a start names, that a majority is one of the voters, what
//! followers have no part in, and that they do all else as any server does.

use super::reported::{busy, report, told};
use super::*;

/// The cluster of these servers in which those of the set follow.
pub(super) fn following(followers: u8, servers: &[Server]) -> Cluster {
    Cluster { followers, ..cluster(servers) }
}

fn has(set: u8, number: usize) -> bool {
    set >> number & 1 == 1
}

/// How many of the first so many are not in the set.
fn voters_of(count: usize, followers: u8) -> usize {
    (0..count).filter(|&number| !has(followers, number)).count()
}

/// Whether a cluster of 2 to 7 may have these followers.
pub(super) fn may_follow(count: usize, followers: u8) -> bool {
    !(count..8).any(|number| has(followers, number)) && voters_of(count, followers) > 1
}

/// Every count with every set of followers that it may have.
fn clusters() -> impl Iterator<Item = (usize, u8)> {
    let sets = |count: usize| (0..=255).map(move |followers| (count, followers));
    (2..=SERVERS).flat_map(sets).filter(|&(count, followers)| may_follow(count, followers))
}

#[test]
fn a_start_names_any_followers_below_its_count_but_for_two() {
    let odd = Cluster { count: 9, followers: 9, servers: [primary(0, &[3]); SERVERS] };
    for servers in [0, 1, 2, 3, 4, 5, 6, 7, 8, 9, 128, 255] {
        for followers in 0..=255 {
            let count = usize::from(servers);
            let is_done = (2..=SERVERS).contains(&count) && may_follow(count, followers);
            let mut started = odd;
            let answer = step(&mut started, &Step::Start { servers, followers });
            if is_done {
                assert_eq!(answer, Ok(Numbers::NONE));
                assert_eq!(started, following(followers, &[Server::FRESH; SERVERS][..count]));
            } else {
                assert_eq!(answer.map_err(Condition::number), Err(3));
                assert!(started == odd);
            }
        }
    }
}

#[test]
fn each_reason_of_a_refused_start() {
    let reasons = [
        (1, 0, StartBelow2),
        (0, 255, StartBelow2),
        (8, 0, StartAbove7),
        (8, 0x80, StartAbove7),
        (255, 255, StartAbove7),
        (3, 0x08, FollowerOutside),
        (3, 0x80, FollowerOutside),
        (7, 0x80, FollowerOutside),
        (2, 0x04, FollowerOutside),
        (2, 0x07, FollowerOutside),
        (2, 0x01, FewVoters),
        (2, 0x03, FewVoters),
        (3, 0x05, FewVoters),
        (7, 0x7d, FewVoters),
        (7, 0x7f, FewVoters),
    ];
    for (servers, followers, reason) in reasons {
        let answer = step(&mut Cluster::fresh(2), &Step::Start { servers, followers });
        assert_eq!(answer, Err(reason), "{servers} {followers}");
        assert_eq!(reason.number(), 3);
    }
}

#[test]
fn a_start_names_its_followers_anew() {
    let mut record = Cluster::ZERO;
    assert_eq!(record.followers, 0);
    for followers in [0x15, 0x0a, 0, 0x1c] {
        take_start(&mut record, followers);
        assert_eq!(record, following(followers, &[Server::FRESH; 5]));
    }
}

fn take_start(record: &mut Cluster, followers: u8) {
    assert_eq!(step(record, &Step::Start { servers: 5, followers }), Ok(Numbers::NONE));
}

/// Every clause about followers, each broken alone in the record of the test below: a set past the
/// count, a primary that follows, one voter, none.
const BROKEN_FOLLOWERS: &[fn(&mut Cluster)] = &[
    |c| c.followers = 0x08,
    |c| c.followers = 0x0a,
    |c| c.followers = 0x40,
    |c| c.followers = 0x80,
    |c| c.followers = 0x01,
    |c| c.servers[1].role = Primary,
    |c| c.followers = 0x06,
    |c| (c.followers, c.servers[0].role) = (0x03, Secondary),
    |c| (c.followers, c.servers[0].role) = (0x05, Secondary),
    |c| (c.followers, c.servers[0].role) = (0x07, Secondary),
    |c| *c = following(0x7e, &[c.servers[0]; SERVERS].map(|s| Server { role: Secondary, ..s })),
];

#[test]
fn each_broken_clause_about_followers_is_refusal_2() {
    let servers = [primary(2, &[1, 2, 2]), holding(&[1]), holding(&[2])];
    is_refused_where_broken(&following(2, &servers), BROKEN_FOLLOWERS);
}

#[test]
fn a_record_has_the_followers_that_a_start_may_name() {
    for count in 2..=SERVERS {
        for followers in 0..=255 {
            let servers = &[holding(&[1]); SERVERS][..count];
            let record = following(followers, servers);
            assert_eq!(record.well_formed(), may_follow(count, followers));
        }
    }
    for number in 0..3 {
        let mut servers = [holding(&[1]); 3];
        servers[number] = primary(2, &[1]);
        for follower in 0..3 {
            assert_eq!(following(1 << follower, &servers).well_formed(), follower != number);
        }
    }
}

/// What an election in a fresh cluster with these followers comes to: 0, or the refusal.
fn elects((count, followers): (usize, u8), a: usize, set: u8) -> u8 {
    let mut record = following(followers, &[Server::FRESH; SERVERS][..count]);
    let answer = take(&mut record, Step::Elect { a: a as u8, set });
    for (number, server) in record.counted().iter().enumerate() {
        let is_member = answer.is_ok() && has(set, number);
        let role = if is_member && number == a { Primary } else { Secondary };
        assert_eq!(*server, Server { term: is_member.into(), role, ..Server::FRESH });
    }
    answer.map_or_else(Condition::number, |_| 0)
}

#[test]
fn an_election_is_by_a_majority_of_the_voters() {
    for (count, followers) in clusters() {
        for a in [0, count - 1] {
            for set in (0..1 << count).chain([0x80]) {
                let outside = set >> count != 0 || set & followers != 0 || has(followers, a);
                let most = 2 * set.count_ones() as usize > voters_of(count, followers);
                let expected = match (outside, most && has(set, a)) {
                    (true, _) => 3,
                    (false, false) => 5,
                    (false, true) => 0,
                };
                assert_eq!(elects((count, followers), a, set), expected, "{followers} {set}");
            }
        }
    }
}

#[test]
fn of_two_voters_of_seven_both_are_needed() {
    for [one, other] in [[0, 1], [0, 6], [2, 5], [5, 6]] {
        let followers = 0x7f & !(1 << one | 1 << other);
        let of_seven = (SERVERS, followers);
        assert_eq!([1 << one, 1 << one | 1 << other].map(|set| elects(of_seven, one, set)), [5, 0]);
        assert_eq!(elects(of_seven, one, 1 << one | followers), 3);
        assert_eq!(elects(of_seven, one, 0x7f), 3);
        let noted = |who: &[usize]| -> Vec<_> { who.iter().map(|&b| (b, note(2, 2, 1))).collect() };
        let all_but_other: Vec<usize> = (0..SERVERS).filter(|&b| b != other).collect();
        for (who, expected) in [(&all_but_other[..], Err(NothingPasses)), (&[other], Ok(1))] {
            let mut servers = [holding(&[2]); SERVERS];
            servers[one] = noting(primary(2, &[2]), &noted(who));
            let mut record = following(followers, &servers);
            let answer = take(&mut record, Step::Advances { a: one as u8 });
            assert_eq!(answer.map(|numbers| numbers.number), expected);
        }
    }
}

#[test]
fn a_follower_in_an_election_is_refused_before_all_but_numbers_past_the_count() {
    let record = following(0x0c, &[holding(&[1]), holding(&[1]), holding(&[1, 1]), holding(&[1])]);
    let asked = [
        (2, 0x07, FollowerElected),
        (2, 0x03, FollowerElected),
        (2, 0x04, FollowerElected),
        (2, 0x00, FollowerElected),
        (0, 0x0b, FollowerInSet),
        (0, 0x05, FollowerInSet),
        (0, 0x06, FollowerInSet),
        (0, 0x0c, FollowerInSet),
        (2, 0x14, MemberOutside),
        (0, 0x8f, MemberOutside),
        (4, 0x04, ServerOutside),
        (0, 0x01, NotAMajority),
        (0, 0x02, NotAMajority),
    ];
    for (a, set, reason) in asked {
        let answer = take(&mut record.clone(), Step::Elect { a, set });
        assert_eq!(answer, Err(reason), "{a} {set}");
    }
    assert_eq!([FollowerElected, FollowerInSet].map(Condition::number), [3; 2]);
}

/// The follower has the longest log and the highest term, and stays as it is.
#[test]
fn who_is_elected_may_be_behind_a_follower() {
    let ahead = Server { term: 9, commit_point: 3, ..holding(&[1, 2, 2]) };
    let servers = [holding(&[1]), holding(&[]), ahead];
    for a in [2, 0] {
        let mut record = following(4, &servers);
        let answer = take(&mut record, Step::Elect { a, set: 3 | 1 << a });
        if a == 2 {
            assert_eq!(answer, Err(FollowerElected));
        } else {
            assert_eq!(answer, Ok(Numbers { term: 2, ..Numbers::NONE }));
            let voter = Server { term: 2, ..holding(&[]) };
            assert_eq!(record, following(4, &[primary(2, &[1]), voter, ahead]));
        }
    }
    assert_eq!(take(&mut cluster(&servers), Step::Elect { a: 2, set: 7 }).map(|n| n.term), Ok(10));
}

/// The first voter is primary; notes are of every set of servers, itself among them.
#[test]
fn a_position_passes_by_a_majority_of_the_voters() {
    for (count, followers) in clusters().filter(|&(count, _)| count > 3) {
        let a = followers.trailing_ones() as usize;
        for noted in 0..1u8 << count {
            let who = (0..count).filter(|&b| has(noted, b)).map(|b| (b, note(2, 2, 1)));
            let mut servers = [holding(&[]); SERVERS];
            servers[a] = noting(primary(2, &[2]), &who.collect::<Vec<_>>());
            let mut record = following(followers, &servers[..count]);
            let backers = (noted | 1 << a) & !followers;
            let most = 2 * backers.count_ones() as usize > voters_of(count, followers);
            let answer = take(&mut record, Step::Advances { a: a as u8 });
            assert_eq!(answer.is_ok(), most, "{count} {followers} {noted}");
        }
    }
}

#[test]
fn what_followers_have_is_not_covered_by_that() {
    let notes = [(1, note(2, 2, 1)), (3, note(2, 2, 3)), (4, note(2, 2, 3))];
    let leader = noting(primary(2, &[2, 2, 2]), &notes);
    let others = [holding(&[2]), holding(&[]), holding(&[2, 2, 2]), holding(&[2, 2, 2])];
    let servers = [&[leader][..], &others].concat();
    let covered = |followers: u8| {
        let mut record = following(followers, &servers);
        take(&mut record, Step::Advances { a: 0 }).map_or(0, |numbers| numbers.number)
    };
    assert_eq!([0x00, 0x18, 0x08, 0x1a, 0x04].map(covered), [3, 1, 1, 0, 3]);
}

/// Servers of all sorts, of which the first is primary and no other.
fn mixed() -> [Server; 5] {
    let [first, second, third] = busy();
    let behind = Server { term: 1, cluster_time: Time { p: 1, l: 1 }, ..holding(&[1]) };
    let split = Server { wall_clock: 9, commit_point: 1, ..holding(&[1, 1, 1, 1]) };
    let reports = [report(4, note(2, 2, 2)), report(1, note(2, 2, 3))];
    [first, coming_after(4, second), third, coming_after(1, told(behind, &reports)), split]
}

/// Every step of the kinds in which followers take part, at each server and with each other.
fn shared_steps() -> Vec<Step> {
    let time = Time { p: 1, l: 1 };
    let mut steps = vec![Step::ClocksAgree];
    for a in 0..6 {
        let copies = (0..6)
            .flat_map(|b| [Step::Hears { a, b }, Step::Pulls { a, b }, Step::RollsBack { a, b }]);
        steps.extend(copies);
        steps.extend([
            Step::StepDown { a },
            Step::Writes { a, key: 5, value: 1, client: time },
            Step::WallClock { a },
            Step::Restarts { a },
            Step::LocalRead { a, key: 5, time },
            Step::MajorityRead { a, key: 5, time },
            Step::Acknowledged { a, count: 0, position: 1, term: 1 },
            Step::WritesNothing { a },
            Step::NewestRead { a, key: 5, position: 2, term: 2 },
            Step::TakesReport { a },
        ]);
    }
    steps
}

/// Twice each, so that what a first left is seen, too.
#[test]
fn followers_do_all_else_as_any_server_does() {
    let without = cluster(&mixed());
    for followers in (0..0x20).filter(|&set| set & 1 == 0 && may_follow(5, set)) {
        for taken in shared_steps() {
            let mut records = [without, Cluster { followers, ..without }];
            for _ in 0..2 {
                let [answer, other] = records.each_mut().map(|record| take(record, taken));
                assert_eq!(answer, other, "{taken:?}, followers {followers}");
            }
            let [record, other] = records;
            assert!(
                other == Cluster { followers, ..record },
                "{:?}, followers {}",
                taken,
                followers
            );
        }
    }
}

#[test]
fn a_follower_passes_on_what_it_is_told() {
    let came = report(2, note(2, 2, 2));
    let follower = coming_after(0, told(holding(&[1]), &[came]));
    let mut record = following(2, &[primary(2, &[2, 2]), follower, holding(&[])]);
    assert_eq!(take(&mut record, Step::TakesReport { a: 1 }), Ok(Numbers::NONE));
    assert_eq!(record.servers[0].queue.oldest(), Some(came));
    assert_eq!(record.servers[1].notes[2], came.note);
    assert_eq!(take(&mut record, Step::TakesReport { a: 0 }), Ok(Numbers::NONE));
    assert_eq!(take(&mut record, Step::Advances { a: 0 }), Ok(Numbers::place(2)));
}

#[test]
fn what_only_a_primary_does_is_4_at_a_follower() {
    let follower = Server { commit_point: 2, ..holding(&[2, 2]) };
    let write = |key: u8| Step::Writes { a: 1, key, value: 1, client: Time::ZERO };
    let newest = |position: u16| Step::NewestRead { a: 1, key: 5, position, term: 2 };
    let asked = [
        (Step::StepDown { a: 1 }, 4),
        (write(5), 4),
        (write(16), 3),
        (Step::Advances { a: 1 }, 4),
        (Step::WritesNothing { a: 1 }, 4),
        (newest(2), 4),
        (newest(0), 3),
    ];
    for (taken, refusal) in asked {
        let mut record = following(2, &[holding(&[2, 2]), follower, holding(&[2])]);
        assert_eq!(take(&mut record, taken).map_err(Condition::number), Err(refusal), "{taken:?}");
    }
}
