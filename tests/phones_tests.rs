//! Record-level tests of writes that carry a client's time.

use super::*;

const NOTHING: Step = Step::WritesNothing { a: 0 };

fn time(p: u16, l: u16) -> Time {
    Time { p, l }
}

fn write_at(client: Time) -> Step {
    Step::Writes { a: 0, key: 5, value: 41, client }
}

/// A primary of term 1 with one entry at (0,0), at these times.
fn leader(wall_clock: u16, cluster_time: Time) -> Server {
    let leader = with(&primary(1, &[1]), 1, Entry { time: Time::ZERO, ..entry(1, 1) });
    Server { wall_clock, cluster_time, ..leader }
}

/// What server 0 of a cluster of two answers, and itself afterwards; the other stays as it is.
fn taken_by(server: Server, taken: Step) -> (Answer, Server) {
    let mut both = cluster(&[server, holding(&[])]);
    let answer = take(&mut both, taken);
    assert_eq!(both.servers[1], holding(&[]));
    (answer, both.servers[0])
}

/// The time that a write is stamped with, or what refuses it.
fn stamp(server: Server, client: Time) -> Result<Time, Condition> {
    taken_by(server, write_at(client)).0.map(|numbers| numbers.time)
}

#[test]
fn the_tick_starts_from_the_later_of_both() {
    let stamps = [
        // The cluster time is at the wall clock or past it.
        (4, time(6, 7), Time::ZERO, time(6, 8)),
        (6, time(6, 7), Time::ZERO, time(6, 8)),
        (4, time(6, 7), time(5, 65_535), time(6, 8)),
        (4, time(6, 7), time(6, 6), time(6, 8)),
        (4, time(6, 7), time(6, 7), time(6, 8)),
        (4, time(6, 7), time(6, 9), time(6, 10)),
        (4, time(6, 7), time(9, 0), time(9, 1)),
        // The wall clock is past it, and the client's time before, at or past the wall clock.
        (8, time(6, 7), Time::ZERO, time(8, 0)),
        (8, time(6, 7), time(6, 7), time(8, 0)),
        (8, time(6, 7), time(7, 65_535), time(8, 0)),
        (8, time(6, 7), time(8, 0), time(8, 1)),
        (8, time(6, 7), time(8, 3), time(8, 4)),
        (8, time(6, 7), time(9, 0), time(9, 1)),
    ];
    for (wall_clock, cluster_time, client, stamped) in stamps {
        let server = leader(wall_clock, cluster_time);
        assert_eq!(stamp(server, client), Ok(stamped), "{wall_clock}, {client:?}");
    }
}

#[test]
fn a_write_leaves_nothing_of_the_client_s_time_but_the_stamp() {
    let before = leader(4, time(6, 7));
    let (answer, written) = taken_by(before, write_at(time(9, 0)));
    let mut stamped = Server { cluster_time: time(9, 1), ..before };
    stamped.log.push(Entry { term: 1, key: 5, value: 41, time: time(9, 1) });
    assert_eq!((answer, written), (Ok(Numbers { number: 2, term: 1, time: time(9, 1) }), stamped));
}

/// Every order of three clocks: the stamp is after both times, and its p is one of the three.
#[test]
fn a_stamp_is_after_both_times_and_invents_no_p() {
    let times: Vec<Time> = (0..5).flat_map(|p| [0, 1, 2].map(|l| time(p, l))).collect();
    for wall_clock in 1..5 {
        for &cluster_time in &times {
            for &client in &times {
                let stamped = stamp(leader(wall_clock, cluster_time), client).unwrap();
                assert!(stamped > cluster_time && stamped > client);
                assert!([wall_clock, cluster_time.p, client.p].contains(&stamped.p));
            }
        }
    }
}

#[test]
fn a_client_may_be_600_ahead_of_the_wall_clock_and_no_more() {
    for (wall_clock, p) in [(1, 601), (7, 607), (64_934, 65_534)] {
        assert_eq!(stamp(leader(wall_clock, time(1, 1)), time(p, 3)), Ok(time(p, 4)));
    }
    for wall_clock in [64_935, 64_936, 65_000, 65_534, 65_535] {
        let stamped = stamp(leader(wall_clock, time(1, 1)), time(65_535, 3));
        assert_eq!(stamped, Ok(time(65_535, 4)));
    }
    for (wall_clock, p) in [(1, 602), (1, 65_535), (7, 608), (64_000, 64_601), (64_934, 65_535)] {
        let refused = stamp(leader(wall_clock, time(1, 1)), time(p, 3)).unwrap_err();
        assert_eq!((refused, refused.number()), (ClockAhead, 11));
    }
}

/// The wall clock alone decides, wherever the cluster time is.
#[test]
fn a_cluster_time_ahead_lets_no_client_be_further_ahead() {
    let ahead = leader(1, time(601, 5));
    assert_eq!(stamp(ahead, time(601, 9)), Ok(time(601, 10)));
    assert_eq!(stamp(ahead, time(602, 0)), Err(ClockAhead));
    assert_eq!(stamp(leader(1, time(9_000, 0)), time(9_000, 0)), Err(ClockAhead));
}

#[test]
fn a_client_s_l_at_its_limit_is_refusal_7_only_where_it_must_grow() {
    let limit = |p: u16| time(p, 65_535);
    assert_eq!(stamp(leader(4, time(6, 7)), limit(6)), Err(TickAtLimit));
    assert_eq!(stamp(leader(8, time(6, 7)), limit(8)), Err(TickAtLimit));
    assert_eq!(TickAtLimit.number(), 7);
    assert_eq!(stamp(leader(8, time(6, 7)), limit(7)), Ok(time(8, 0)));
    assert_eq!(stamp(leader(4, time(6, 7)), limit(5)), Ok(time(6, 8)));
    assert_eq!(stamp(leader(4, limit(6)), time(6, 65_534)), Err(TickAtLimit));
    assert_eq!(stamp(leader(4, limit(6)), time(7, 0)), Ok(time(7, 1)));
    assert_eq!(stamp(leader(7, limit(6)), Time::ZERO), Ok(time(7, 0)));
}

/// Where a client has brought the cluster time to the last l, only another p helps either kind on.
#[test]
fn a_client_s_l_below_its_limit_brings_the_cluster_time_there() {
    let (answer, stuck) = taken_by(leader(4, time(6, 7)), write_at(time(6, 65_534)));
    assert_eq!(answer.map(|numbers| numbers.time), Ok(time(6, 65_535)));
    for taken in [write_at(Time::ZERO), write_at(time(6, 65_535)), NOTHING] {
        assert_eq!(taken_by(stuck, taken), (Err(TickAtLimit), stuck));
    }
    assert_eq!(stamp(stuck, time(7, 0)), Ok(time(7, 1)));
    let later = Server { wall_clock: 7, ..stuck };
    for taken in [write_at(Time::ZERO), NOTHING] {
        assert_eq!(taken_by(later, taken).0.map(|numbers| numbers.time), Ok(time(7, 0)));
    }
}

/// From a write that breaks every rule, mended one by one: always the first broken rule is given.
#[test]
fn refusals_of_a_write_come_in_order() {
    let full = Server { wall_clock: 1, cluster_time: time(601, 0), ..primary(3, &[3; ENTRIES]) };
    let down = Server { role: Secondary, ..full };
    let one = leader(1, time(601, 0));
    let write = |a: u8, key: u8, value: u16, p: u16| {
        let client = time(p, 65_535);
        Step::Writes { a, key, value, client }
    };
    let by_order = [
        (down, write(2, 16, 0, 602), ServerOutside, 3),
        (down, write(0, 255, 0, 602), KeyOfNothing, 3),
        (down, write(0, 16, 0, 602), KeyAbove15, 3),
        (down, write(0, 15, 0, 602), ValueZero, 3),
        (down, write(0, 15, 1, 602), ClockAhead, 11),
        (full, write(0, 15, 1, 602), ClockAhead, 11),
        (one, write(0, 15, 1, 602), ClockAhead, 11),
        (down, write(0, 15, 1, 601), NotPrimary, 4),
        (full, write(0, 15, 1, 601), LogFull, 6),
        (one, write(0, 15, 1, 601), TickAtLimit, 7),
    ];
    for (server, taken, condition, number) in by_order {
        let refused = refused(&[server, holding(&[])], taken);
        assert_eq!((refused, refused.number()), (condition, number), "{taken:?}");
    }
    let mut broken = cluster(&[down, writing(&leader(1, time(1, 1)), 1, 255, 1)]);
    assert_eq!(step(&mut broken, &write(0, 15, 1, 602)), Err(NotWellFormed));
}

/// `take` sees that a refusal leaves the record; here its time would show in the next entry.
#[test]
fn a_refused_write_leaves_nothing_behind_for_the_next_entry() {
    let server = leader(4, time(6, 7));
    for client in [time(605, 0), time(65_535, 65_535), time(604, 65_535)] {
        let (answer, after) = taken_by(server, write_at(client));
        assert!(answer.is_err());
        assert_eq!(stamp(after, Time::ZERO), Ok(time(6, 8)));
        assert_eq!(taken_by(after, NOTHING).0.map(|numbers| numbers.time), Ok(time(6, 8)));
    }
}

/// What a client brought to one server, another knows nothing of until it hears.
#[test]
fn kind_14_ticks_from_the_cluster_time_alone() {
    let mut both = cluster(&[leader(4, time(6, 7)), leader(4, time(5, 3))]);
    let nothing = Step::WritesNothing { a: 1 };
    let stamped = |answer: Answer| answer.map(|numbers| numbers.time);
    assert_eq!(stamped(take(&mut both, write_at(time(9, 0)))), Ok(time(9, 1)));
    assert_eq!(stamped(take(&mut both, nothing)), Ok(time(5, 4)));
    take(&mut both, Step::Hears { a: 1, b: 0 }).unwrap();
    assert_eq!(stamped(take(&mut both, nothing)), Ok(time(9, 2)));
}

#[test]
fn without_a_client_s_time_the_old_rule_is_left() {
    let condition = stamp(primary(1, &[1]), Time::ZERO).unwrap_err();
    assert_eq!((condition, condition.number()), (TickAtLimit, 7));
    assert_eq!(stamp(primary(1, &[1; ENTRIES]), Time::ZERO), Err(LogFull));
    assert_eq!(stamp(leader(2, time(1, 65_535)), Time::ZERO), Ok(time(2, 0)));
}
