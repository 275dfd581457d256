//! Tests of the nights: what they come to, that each part of the promise is looked at, and that of
//! what is refused nothing is missing.

use super::*;
use model::reports::REPORTS;
use model::{ENTRIES, Server};
use saved::load;
use std::collections::BTreeSet;
use upsets::{FEWEST, MOST};

/// A night, and whom its plan elects.
struct Seen {
    before: Cluster,
    steps: Vec<Step>,
    plan: Vec<Step>,
    c: usize,
}

impl Seen {
    fn some(&self, holds: impl Fn(usize, &Server) -> bool) -> bool {
        let servers = self.before.counted().iter().enumerate();
        servers.into_iter().any(|(number, server)| holds(number, server))
    }

    fn candidate(&self) -> &Server {
        &self.before.servers[self.c]
    }

    fn primaries(&self) -> usize {
        self.before.counted().iter().filter(|server| server.role == Role::Primary).count()
    }

    /// Whether a step of that kind is taken by a server of which something holds.
    fn plans(&self, kind: u8, holds: impl Fn(usize) -> bool) -> bool {
        let of = |step: &Step| match *step {
            Step::RollsBack { a, .. } | Step::Pulls { a, .. } => holds(a.into()),
            _ => false,
        };
        self.plan.iter().any(|step| step.kind() == kind && of(step))
    }

    fn has(&self, kind: u8) -> bool {
        self.steps.iter().any(|step| step.kind() == kind)
    }

    /// Whom the candidate hears first, if anybody.
    fn heard(&self) -> Option<&Server> {
        match self.plan[0] {
            Step::Hears { b, .. } => Some(&self.before.servers[usize::from(b)]),
            _ => None,
        }
    }

    fn follows(&self, number: usize) -> bool {
        self.before.is_follower(number)
    }

    /// Whether another with the same last term and length is there, of those of which something
    /// holds.
    fn ties(&self, holds: impl Fn(usize) -> bool) -> bool {
        let log = &self.candidate().log;
        let is_equal = |server: &Server| !log.is_behind(&server.log) && !server.log.is_behind(log);
        self.some(|number, server| number != self.c && holds(number) && is_equal(server))
    }
}

/// What a night may come to.
type Sort = (&'static str, fn(&Seen) -> bool);

const SORTS: &[Sort] = &[
    ("no primary", |s| s.primaries() == 0),
    ("one primary", |s| s.primaries() == 1),
    ("two primaries", |s| s.primaries() == 2),
    ("three primaries", |s| s.primaries() > 2),
    ("a candidate that is primary", |s| s.candidate().role == Role::Primary),
    ("another primary", |s| s.some(|n, server| n != s.c && server.role == Role::Primary)),
    ("entries that nobody covers", |s| {
        let most = s.before.counted().iter().map(|server| server.commit_point).max();
        s.candidate().log.length > most.unwrap_or(0)
    }),
    ("a candidate that covers less than another", |s| {
        s.some(|_, server| server.commit_point > s.candidate().commit_point)
    }),
    ("empty logs alone", |s| s.candidate().log.length == 0),
    ("a rollback of a voter", |s| s.plans(5, |a| !s.follows(a))),
    ("a rollback of a follower", |s| s.plans(5, |a| s.follows(a))),
    ("a rollback of what is longer", |s| {
        s.plans(5, |a| s.before.servers[a].log.length > s.candidate().log.length)
    }),
    ("a rollback above a commit point", |s| s.plans(5, |a| s.before.servers[a].commit_point > 0)),
    ("a pull of a follower", |s| s.plans(4, |a| s.follows(a))),
    ("a pull by an empty log", |s| s.plans(4, |a| s.before.servers[a].log.length == 0)),
    ("a follower behind", |s| {
        s.some(|n, server| s.follows(n) && server.log.is_behind(&s.candidate().log))
    }),
    ("a restart", |s| s.has(9)),
    ("a step down", |s| s.has(2)),
    ("an entry that writes nothing", |s| s.has(14)),
    ("reports at the candidate", |s| s.candidate().queue.length > 0),
    ("a full queue at the candidate", |s| s.candidate().queue.length == REPORTS),
    ("reports elsewhere", |s| s.some(|n, server| n != s.c && server.queue.length > 0)),
    ("notes at the candidate", |s| s.candidate().notes.iter().any(|note| note.is_used())),
    ("a source that is another than the candidate", |s| {
        s.some(|_, server| server.source.is_some_and(|source| source != s.c))
    }),
    ("a later term", |s| s.heard().is_some()),
    ("a later term at a follower first", |s| match s.plan[0] {
        Step::Hears { b, .. } => s.follows(b.into()),
        _ => false,
    }),
    ("a later term with a commit point to take", |s| {
        s.heard().is_some_and(|server| server.commit_point > s.candidate().commit_point)
    }),
    ("a candidate that isn't the first voter", |s| (0..s.c).any(|n| !s.follows(n))),
    ("a tie with a later voter", |s| s.ties(|n| n > s.c && !s.follows(n))),
    ("a tie with an earlier follower", |s| s.ties(|n| n < s.c && s.follows(n))),
    ("a clock that is behind its time", |s| {
        s.candidate().cluster_time.p > s.candidate().wall_clock
    }),
    ("another time that is later", |s| {
        s.some(|_, server| server.cluster_time > s.candidate().cluster_time)
    }),
    ("an l just below its end", |s| s.some(|_, server| server.cluster_time.l == u16::MAX - 1)),
];

fn seen(prng: &mut Prng, number: usize) -> Seen {
    let (servers, followers) = shape(number);
    let (before, steps) = night(prng, servers, followers);
    let plan = plan(&before, 5, 50).expect("there is a plan");
    let elected = |step: &Step| if let Step::Elect { a, .. } = step { Some(*a) } else { None };
    let c = plan.iter().find_map(elected).expect("somebody is elected").into();
    Seen { before, steps, plan, c }
}

#[test]
fn nights_come_to_every_sort_and_are_short() {
    let mut prng = Prng(1);
    let mut times = vec![0; SORTS.len()];
    for number in 0..1_500 {
        let seen = seen(&mut prng, number);
        assert!((FEWEST..=MOST).contains(&seen.steps.len()));
        for (times, (_, is_of_sort)) in times.iter_mut().zip(SORTS) {
            *times += usize::from(is_of_sort(&seen));
        }
    }
    let named = SORTS.iter().map(|(name, _)| *name).zip(times);
    let rare: Vec<(&str, usize)> = named.filter(|(_, times)| *times < 8).collect();
    assert_eq!(rare, []);
}

#[test]
fn every_count_and_every_set_of_followers_comes_in_turn() {
    let shapes: BTreeSet<(u8, u8)> = (0..1_500).map(shape).collect();
    assert_eq!(shapes.len(), 1 + 4 + 11 + 26 + 57 + 120);
    for (servers, followers) in shapes {
        let started = step(&mut Cluster::ZERO.clone(), &Step::Start { servers, followers });
        assert!(started.is_ok());
    }
}

/// What is found of a session whose plan is changed. Its own has nine steps: of three servers,
/// server 1 is elected and writes, server 0 rolls back to it and server 2 pulls from it.
fn found(change: impl Fn(&mut Vec<Step>), write: Write) -> Result<usize, &'static str> {
    let session = include_bytes!("../samples/newest");
    let mut record = Cluster::ZERO;
    answers(&mut record, session);
    let mut steps = plan(&record, 5, 50).unwrap();
    assert_eq!(steps.len(), 9);
    change(&mut steps);
    let answers = judged(session, &text_of(&steps), write)?;
    Ok(answers.iter().filter(|&&character| character == b'\n').count())
}

#[test]
fn each_part_of_the_promise_is_looked_at() {
    let lines = include_str!("../samples/newest").lines().count();
    let [refused, covered] =
        ["a step of its plan is refused", "a commit point doesn't cover all of its log"];
    let without = |number: usize| {
        let leave_out = |steps: &mut Vec<Step>| {
            steps.remove(number);
        };
        found(leave_out, (5, 50))
    };
    assert_eq!([1, 2, 3].map(without), [Err(refused); 3]);
    assert_eq!([6, 7, 8].map(without), [Err(covered); 3]);
    let with = |more: &[Step]| found(|steps| steps.extend(more), (5, 50));
    assert_eq!(with(&[]), Ok(lines + 9));
    assert_eq!(with(&[Step::ClocksAgree; 3]), Ok(lines + 12));
    let too_many = "its plan has more than four steps for each server";
    assert_eq!(with(&[Step::ClocksAgree; 4]), Err(too_many));
    let [elect, steps_down] = [Step::Elect { a: 0, set: 5 }, Step::StepDown { a: 0 }];
    assert_eq!(with(&[steps_down]), Err(refused));
    let one = "there isn't one primary afterwards";
    assert_eq!(with(&[Step::StepDown { a: 1 }]), Err(one));
    assert_eq!(with(&[elect]), Err(one));
    assert_eq!(with(&[elect, steps_down]), Err("the primary isn't in the highest term"));
    assert_eq!(with(&[Step::WritesNothing { a: 1 }]), Err("logs are not equal afterwards"));
    for write in [(6, 50), (5, 51)] {
        assert_eq!(found(|_| (), write), Err("the last entry isn't the write"));
    }
}

/// The causes of a refusal at a server, by the names that why gives them.
const CAUSES: [(&str, fn(&Server) -> bool); 5] = [
    ("log", |server| server.log.length == ENTRIES),
    ("term", |server| server.term == u16::MAX),
    ("wall", |server| server.wall_clock == u16::MAX),
    ("p", |server| server.cluster_time.p == u16::MAX),
    ("l", |server| server.cluster_time.l == u16::MAX),
];

/// The causes of a record, as why would tell them.
fn causes(record: &Cluster) -> Vec<String> {
    let of = |(number, server): (usize, &Server)| {
        let of_server = CAUSES.iter().filter(|(_, holds)| holds(server));
        of_server.map(|(name, _)| format!("{name} {number}")).collect::<Vec<_>>()
    };
    record.counted().iter().enumerate().flat_map(of).collect()
}

#[test]
fn each_cause_stands_alone_at_each_server() {
    let folder = std::env::temp_dir().join(format!("nights-tests-{}", std::process::id()));
    let folder = folder.to_str().unwrap();
    write_stuck(&mut Prng(2), folder).unwrap();
    let mut seen = BTreeSet::new();
    for number in 0.. {
        let read = |sort: &str| fs::read_to_string(format!("{folder}/refused/{number}.{sort}"));
        let Ok(why) = read("why") else { break };
        let (record, orders) = (load(read("saved").unwrap().as_bytes()), read("orders").unwrap());
        let (refusal, what) = why.trim_end().split_once(' ').unwrap_or((why.trim_end(), ""));
        assert!(orders.starts_with("09") && orders.ends_with('\n') && orders.len() == 25);
        match what {
            "key" => assert!(orders.starts_with("0910") || orders.starts_with("09ff")),
            "value" => assert_eq!(&orders[4..8], "0000"),
            "" => {}
            _ => assert_eq!(causes(&record.unwrap()), [what]),
        }
        seen.insert(format!("{refusal} {what}"));
    }
    for (name, _) in CAUSES {
        let refusal = if name == "log" { 6 } else { 7 };
        assert!((0..SERVERS).all(|a| seen.remove(&format!("{refusal} {name} {a}"))));
    }
    assert_eq!(seen.into_iter().collect::<Vec<_>>(), ["3 ", "3 key", "3 value", "6 ", "7 ", "9 "]);
    fs::remove_dir_all(folder).unwrap();
}
