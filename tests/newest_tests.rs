//! Record-level tests of the newest read: entries that write nothing, kind 14 that appends them and
//! kind 15 that reads up to a position.

use super::*;

const NOTHING: Step = Step::WritesNothing { a: 0 };

fn newest(key: u8, position: u16, term: u16) -> Step {
    Step::NewestRead { a: 0, key, position, term }
}

/// What server 0 of a cluster of two answers.
fn answered(server: Server, taken: Step) -> Answer {
    take(&mut cluster(&[server, holding(&[])]), taken)
}

/// The refusal that server 0 of a cluster of two answers with.
fn refused_by(server: Server, taken: Step) -> (Condition, u8) {
    let condition = refused(&[server, holding(&[])], taken);
    (condition, condition.number())
}

/// A primary of term 2 with four writes of key 5, each of another value, of which the first is of
/// term 1 and the first three are committed.
fn leader() -> Server {
    let cluster_time = Time { p: 9, l: 9 };
    let mut leader = Server { commit_point: 3, cluster_time, ..primary(2, &[1, 2, 2, 2]) };
    for (value, entry) in (41..).zip(&mut leader.log.entries[..4]) {
        entry.value = value;
    }
    leader
}

#[test]
fn an_entry_that_writes_nothing_is_well_formed_anywhere_in_a_log() {
    for position in 1..=4 {
        assert!(cluster(&[nothing_at(&leader(), position), leader()]).well_formed());
    }
    let all = (1..=ENTRIES).fold(holding(&[1; ENTRIES]), |server, n| nothing_at(&server, n));
    assert!(cluster(&[all, all]).well_formed());
}

#[test]
fn kind_14_appends_one_stamped_entry_and_changes_nothing_else() {
    let cluster_time = Time { p: 7, l: 8 };
    let clocks = [(6, Time { p: 7, l: 9 }), (7, Time { p: 7, l: 9 }), (8, Time { p: 8, l: 0 })];
    for (wall_clock, time) in clocks {
        let before = Server { term: 3, cluster_time, wall_clock, ..leader() };
        let mut taken = cluster(&[before, leader()]);
        assert_eq!(take(&mut taken, NOTHING), Ok(Numbers { number: 5, term: 3, time }));
        let mut appended = Server { cluster_time: time, ..before };
        appended.log.push(Entry { term: 3, key: 255, value: 0, time });
        assert_eq!(taken, cluster(&[appended, leader()]));
    }
}

#[test]
fn kind_14_and_a_write_differ_in_key_and_value_alone() {
    let write = Step::Writes { a: 0, key: 15, value: 65_535, client: Time::ZERO };
    assert_eq!(answered(leader(), NOTHING), answered(leader(), write));
    let [nothing, written] = [NOTHING, write].map(|taken| after(&[leader(), leader()], taken));
    assert_eq!(nothing.servers[0], nothing_at(&written.servers[0], 5));
}

#[test]
fn kind_14_at_127_and_at_128_entries() {
    let early = |length: usize| {
        let cluster_time = Time { p: 3, l: 128 };
        Server { cluster_time, ..primary(3, &[3; ENTRIES][..length]) }
    };
    let time = Time { p: 3, l: 129 };
    assert_eq!(answered(early(127), NOTHING), Ok(Numbers { number: 128, term: 3, time }));
    assert_eq!(refused_by(early(128), NOTHING), (LogFull, 6));
}

#[test]
fn kind_14_that_must_raise_l_past_its_limit_is_refusal_7() {
    let late = |wall_clock: u16| Server {
        cluster_time: Time { p: 2, l: 65_535 },
        wall_clock,
        ..primary(1, &[1])
    };
    assert_eq!(refused_by(late(1), NOTHING), (TickAtLimit, 7));
    assert_eq!(refused_by(late(2), NOTHING), (TickAtLimit, 7));
    let time = Time { p: 3, l: 0 };
    assert_eq!(answered(late(3), NOTHING), Ok(Numbers { number: 2, term: 1, time }));
}

#[test]
fn refusals_of_kind_14_come_in_order() {
    let full = primary(3, &[3; ENTRIES]);
    let servers = [Server { role: Secondary, ..full }, full, primary(3, &[3])];
    let at = |a: u8| refused(&servers, Step::WritesNothing { a });
    assert_eq!([3, 255, 0, 1, 2].map(at).map(Condition::number), [3, 3, 4, 6, 7]);
}

#[test]
fn elections_pulls_and_rollbacks_take_it_for_any_entry() {
    let ahead = nothing_at(&primary(2, &[1, 2]), 2);
    let voter = Server { term: 2, ..holding(&[1]) };
    assert_eq!(refused(&[voter, ahead], Step::Elect { a: 0, set: 3 }), BehindAMember);
    let pulled = after(&[voter, ahead], Step::Pulls { a: 0, b: 1 });
    assert_eq!(pulled.servers[0].log, ahead.log);
    let rolled = after(&[holding(&[1, 1]), ahead], Step::RollsBack { a: 0, b: 1 });
    assert_eq!(rolled.servers[0].log, ahead.log);
}

#[test]
fn commit_points_and_acknowledgements_take_it_for_any_entry() {
    let ahead = nothing_at(&primary(2, &[1, 2]), 2);
    let follower = Server { role: Secondary, ..ahead };
    let told = noting(ahead, &[(1, note(2, 2, 2))]);
    let advanced = after(&[told, follower], Step::Advances { a: 0 });
    assert_eq!(advanced.servers[0].commit_point, 2);
    let mut heard = after(advanced.counted(), Step::Hears { a: 1, b: 0 });
    assert_eq!(heard.servers[1].commit_point, 2);
    let asked = Step::Acknowledged { a: 1, count: 0, position: 2, term: 2 };
    assert_eq!(take(&mut heard, asked), Ok(Numbers::entry_at(2, &entry(2, 2))));
}

#[test]
fn an_entry_that_writes_nothing_and_a_write_are_not_equal() {
    let other = nothing_at(&holding(&[1, 2]), 2);
    let longer = primary(2, &[1, 2, 2]);
    assert_eq!(refused(&[other, longer], Step::Pulls { a: 0, b: 1 }), LastEntryDiffers);
}

#[test]
fn reads_never_show_an_entry_that_writes_nothing() {
    let written = writing(&Server { commit_point: 4, ..leader() }, 3, 15, 99);
    let server = nothing_at(&written, 4);
    let time = server.applied_time();
    for key in 0..=15 {
        let number = [(5, 42), (15, 99)].iter().find(|pair| pair.0 == key).map_or(0, |pair| pair.1);
        let shown = Ok(Numbers { number, term: 0, time });
        assert_eq!(answered(server, Step::LocalRead { a: 0, key, time }), shown);
        assert_eq!(answered(server, Step::MajorityRead { a: 0, key, time }), shown);
        assert_eq!(answered(server, newest(key, 4, 2)), shown);
    }
}

#[test]
fn the_key_of_nothing_is_neither_written_nor_read() {
    let server = nothing_at(&leader(), 3);
    let time = Time::ZERO;
    let of_key = |key: u8| {
        let write = Step::Writes { a: 0, key, value: 1, client: time };
        let reads = [Step::LocalRead { a: 0, key, time }, Step::MajorityRead { a: 0, key, time }];
        [write, reads[0], reads[1], newest(key, 3, 2)]
    };
    for (key, condition) in [(255, KeyOfNothing), (254, KeyAbove15), (16, KeyAbove15)] {
        assert!(of_key(key).iter().all(|&taken| refused_by(server, taken) == (condition, 3)));
    }
}

#[test]
fn kind_15_reads_up_to_the_position_and_gives_its_time() {
    let shown = |server: Server, position: u16| {
        let time = entry(2, position.into()).time;
        let answer = answered(server, newest(5, position, 2));
        assert_eq!(answer.map(|n| (n.term, n.time)), Ok((0, time)));
        answer.map(|n| n.number)
    };
    assert_eq!([2, 3].map(|position| shown(leader(), position)), [Ok(42), Ok(43)]);
    let all = Server { commit_point: 4, ..leader() };
    assert_eq!([2, 3, 4].map(|position| shown(all, position)), [Ok(42), Ok(43), Ok(44)]);
    let sparse = nothing_at(&writing(&all, 2, 6, 9), 3);
    assert_eq!([2, 3, 4].map(|position| shown(sparse, position)), [Ok(41), Ok(41), Ok(44)]);
    let unwritten = writing(&nothing_at(&sparse, 1), 4, 7, 1);
    assert_eq!([2, 3, 4].map(|position| shown(unwritten, position)), [Ok(0); 3]);
}

#[test]
fn each_refusal_of_kind_15() {
    let refusals = [
        (Step::NewestRead { a: 2, key: 5, position: 2, term: 2 }, ServerOutside, 3),
        (newest(16, 2, 2), KeyAbove15, 3),
        (newest(255, 2, 2), KeyOfNothing, 3),
        (newest(5, 0, 2), PositionZero, 3),
        (newest(5, 129, 2), PositionAboveHighest, 3),
        (newest(5, 256 + 2, 2), PositionAboveHighest, 3),
        (newest(5, 2, 0), TermZero, 3),
        (newest(5, 2, 3), PrimaryOfOtherTerm, 4),
        (newest(5, 1, 1), PrimaryOfOtherTerm, 4),
        (newest(5, 5, 2), NoEntry, 10),
        (newest(5, 128, 2), NoEntry, 10),
        (newest(5, 1, 2), OtherTerm, 10),
        (newest(5, 4, 2), CommitPointBelow, 8),
    ];
    for (taken, condition, number) in refusals {
        assert_eq!(refused_by(leader(), taken), (condition, number), "{taken:?}");
    }
    let stepped_down = Server { role: Secondary, ..leader() };
    assert_eq!(refused_by(stepped_down, newest(5, 2, 2)), (NotPrimary, 4));
}

/// From a step that breaks every rule, mended one by one: always the first broken rule is given.
#[test]
fn refusals_of_kind_15_come_in_order() {
    let down = Server { role: Secondary, ..leader() };
    let out = Step::NewestRead { a: 9, key: 16, position: 0, term: 0 };
    let by_order = [
        (down, out, ServerOutside),
        (down, newest(16, 0, 0), KeyAbove15),
        (down, newest(5, 0, 0), PositionZero),
        (down, newest(5, 129, 0), PositionAboveHighest),
        (down, newest(5, 5, 0), TermZero),
        (down, newest(5, 5, 1), NotPrimary),
        (leader(), newest(5, 5, 1), PrimaryOfOtherTerm),
        (leader(), newest(5, 5, 2), NoEntry),
        (Server { commit_point: 0, ..leader() }, newest(5, 1, 2), OtherTerm),
        (Server { commit_point: 0, ..leader() }, newest(5, 2, 2), CommitPointBelow),
    ];
    for (server, taken, condition) in by_order {
        assert_eq!(refused_by(server, taken).0, condition, "{taken:?}");
    }
    let mut broken = cluster(&[down, writing(&leader(), 1, 255, 1)]);
    assert_eq!(step(&mut broken, &out), Err(NotWellFormed));
}

/// A record that no lines reach: two majorities share a member, whom the first election has led on
/// into its term.
#[test]
fn two_primaries_of_one_term_each_answer_by_themselves() {
    let one = leader();
    let other = Server { commit_point: 2, ..nothing_at(&writing(&leader(), 1, 5, 77), 2) };
    let mut both = cluster(&[one, other]);
    let shown = [(0, 2), (0, 3), (1, 2), (1, 3)].map(|(a, position)| {
        let answer = take(&mut both, Step::NewestRead { a, key: 5, position, term: 2 });
        answer.map(|numbers| (numbers.number, numbers.time.l))
    });
    assert_eq!(shown, [Ok((42, 2)), Ok((43, 3)), Ok((77, 2)), Err(CommitPointBelow)]);
    let written = after(both.counted(), Step::WritesNothing { a: 1 });
    assert_eq!((written.servers[0], written.servers[1].log.length), (one, 5));
}
