//! Records that no night comes to. From most there is no plan: each is saved, with its orders and
//! with why. From those that are just below a limit, and from some odd ones, there is.

use crate::model::{Cluster, ENTRIES, Entry, Server, Step, Time};
use crate::plan::{plan, text_of};
use crate::prng::Prng;
use crate::saved::{load, save};
use crate::upsets::night;
use crate::{LOAD_AND_RECOVER, Write, orders, some_write};
use std::{fs, io};

/// A server count and a set of followers.
type Shape = (u8, u8);

const SHAPES: [Shape; 9] =
    [(2, 0), (3, 0), (3, 0x01), (4, 0x08), (5, 0x0a), (6, 0x30), (7, 0), (7, 0x41), (7, 0x1f)];
/// Those with enough voters for one to be elected without another.
const SPLITTING: [Shape; 5] = [(3, 0), (4, 0x08), (5, 0x0a), (7, 0), (7, 0x41)];
/// How many records of a shape are mixed.
const MIXED: usize = 12;
/// How many nights are tried for a record of some sort.
const TRIES: usize = 10_000;
/// The last term, wall clock, p and l.
const LAST: u16 = u16::MAX;

/// What has a limit at a server: its name, the refusal at it, and what brings it so far below that.
type Limit = (&'static str, u8, fn(&mut Server, u16));

const LIMITS: [Limit; 5] = [
    ("log", 6, |server, below| fill(server, ENTRIES - usize::from(below))),
    ("term", 7, |server, below| server.term = LAST - below),
    ("wall", 7, |server, below| server.wall_clock = LAST - below),
    ("p", 7, |server, below| server.cluster_time = Time { p: LAST - below, l: 0 }),
    ("l", 7, |server, below| server.cluster_time.l = LAST - below),
];

/// So many entries, of which those that it has come first.
fn fill(server: &mut Server, length: usize) {
    server.term = server.term.max(1);
    let p = server.cluster_time.p + 1;
    for (l, slot) in (0..).zip(&mut server.log.entries[server.log.length..length]) {
        server.cluster_time = Time { p, l };
        *slot = Entry { term: server.term, key: 5, value: 41, time: server.cluster_time };
    }
    server.log.length = length;
}

/// A record, the write that is asked for, and the refusal that it comes to with a word of why; none
/// where there is a plan.
struct Stuck {
    record: Cluster,
    write: Write,
    why: Option<(u8, String)>,
}

/// Writes those that are refused, and those from which there is a plan.
pub fn write_stuck(prng: &mut Prng, folder: &str) -> io::Result<()> {
    let mut all = Vec::new();
    for shape in SHAPES {
        for limit in &LIMITS {
            for a in 0..usize::from(shape.0) {
                all.extend(at_a_limit(prng, shape, limit, a)?);
            }
        }
        all.extend(out_of_range(prng, shape));
        for _ in 0..MIXED {
            all.push(mixed(prng, shape));
        }
    }
    for shape in SPLITTING {
        for a in 0..usize::from(shape.0) {
            all.extend(lying(prng, shape, a)?);
            all.push(odd(prng, shape, a)?);
        }
    }
    let (refused, near): (Vec<_>, Vec<_>) = all.iter().partition(|stuck| stuck.why.is_some());
    write_refused(&format!("{folder}/refused"), &refused)?;
    write_near(&format!("{folder}/near"), &near)
}

/// What the record of some night is made into, for the first night of which something can be made.
fn made<T>(prng: &mut Prng, shape: Shape, make: impl Fn(Cluster) -> Option<T>) -> io::Result<T> {
    let made = (0..TRIES).find_map(|_| make(night(prng, shape.0, shape.1).0));
    made.ok_or_else(|| io::Error::other(format!("no night of {shape:?} is of use")))
}

/// Server a alone is at a limit, or else just below it, and nothing else is in the plan's way.
fn at_a_limit(prng: &mut Prng, shape: Shape, limit: &Limit, a: usize) -> io::Result<[Stuck; 2]> {
    let &(name, number, bring) = limit;
    let write = some_write(prng);
    let [at, below] = made(prng, shape, |record| {
        let both = [0, 1].map(|below| {
            let mut record = record;
            bring(&mut record.servers[a], below);
            record
        });
        plan(&both[1], write.0, write.1).is_ok().then_some(both)
    })?;
    let why = Some((number, format!("{name} {a}")));
    Ok([Stuck { record: at, write, why }, Stuck { record: below, write, why: None }])
}

/// The key or the value is out of range, or neither.
fn out_of_range(prng: &mut Prng, shape: Shape) -> Vec<Stuck> {
    let (record, (key, value)) = (night(prng, shape.0, shape.1).0, some_write(prng));
    let writes = [((16, value), "key"), ((255, value), "key"), ((key, 0), "value")];
    let refused = writes.iter().map(|&(write, what)| (write, Some((3, what.to_string()))));
    let all = refused.chain([((key, value), None)]);
    all.map(|(write, why)| Stuck { record, write, why }).collect()
}

/// Server a covers what it would have to lose, as in no record that is reached. Then causes of
/// lower refusals are added, one after the other: each is the one that is given.
fn lying(prng: &mut Prng, shape: Shape, a: usize) -> io::Result<Vec<Stuck>> {
    let (key, value) = some_write(prng);
    let mut record = made(prng, shape, |mut record| {
        record.servers[a].commit_point = record.servers[a].log.length;
        (plan(&record, key, value) == Err(9)).then_some(record)
    })?;
    let because = |number: u8| Some((number, String::new()));
    let mut all = vec![Stuck { record, write: (key, value), why: because(9) }];
    let b = (a + 1) % record.count;
    record.servers[b].wall_clock = LAST;
    all.push(Stuck { record, write: (key, value), why: because(7) });
    fill(&mut record.servers[a], ENTRIES);
    all.push(Stuck { record, write: (key, value), why: because(6) });
    all.push(Stuck { record, write: (16, value), why: because(3) });
    Ok(all)
}

/// Server a's first entry is another than it was, and all the same it pulls, since its last entry
/// is still the candidate's; a rollback would be allowed as well.
fn odd(prng: &mut Prng, shape: Shape, a: usize) -> io::Result<Stuck> {
    let write = some_write(prng);
    let record = made(prng, shape, |mut record| {
        record.servers[a].log.entries[0].value ^= 1;
        let is_pull =
            |step: &Step| matches!(step, Step::Pulls { a: b, .. } if usize::from(*b) == a);
        let pulls = plan(&record, write.0, write.1).ok()?.iter().any(is_pull);
        pulls.then_some(record)
    })?;
    Ok(Stuck { record, write, why: None })
}

/// Each server is as a night of its own has left it; in every second record nothing is covered.
/// There is a plan, unless a server would have to lose what it covers.
fn mixed(prng: &mut Prng, shape: Shape) -> Stuck {
    let (write, covers) = (some_write(prng), prng.below(2) == 0);
    let mut record = night(prng, shape.0, shape.1).0;
    for a in 0..record.count {
        record.servers[a] = night(prng, shape.0, shape.1).0.servers[a];
        record.servers[a].commit_point *= usize::from(covers);
    }
    let is_refused = covers && plan(&record, write.0, write.1).is_err();
    Stuck { record, write, why: is_refused.then(|| (9, String::new())) }
}

/// A file of the record, one of its orders and one of why for each.
fn write_refused(folder: &str, refused: &[&Stuck]) -> io::Result<()> {
    fs::create_dir_all(folder)?;
    for (number, stuck) in refused.iter().enumerate() {
        let Stuck { record, write: (key, value), why } = stuck;
        let given = plan(record, *key, *value).err();
        if let Some((refusal, what)) = why {
            let line = format!("{refusal} {what}");
            fs::write(format!("{folder}/{number}.why"), format!("{}\n", line.trim_end()))?;
        }
        if given.is_none() || given != why.as_ref().map(|(refusal, _)| *refusal) {
            let told = format!("refused/{number}: the refusal is {given:?}, which is not why");
            return Err(io::Error::other(told));
        }
        write_record(folder, number, stuck)?;
    }
    Ok(())
}

/// The same without why; and all their plans, one after the other.
fn write_near(folder: &str, near: &[&Stuck]) -> io::Result<()> {
    fs::create_dir_all(folder)?;
    let mut plans = Vec::new();
    for (number, stuck) in near.iter().enumerate() {
        let (key, value) = stuck.write;
        let refused = |refusal| io::Error::other(format!("near/{number}: refusal {refusal}"));
        plans.extend(text_of(&plan(&stuck.record, key, value).map_err(refused)?));
        write_record(folder, number, stuck)?;
    }
    fs::write(format!("{folder}/plans"), plans)
}

fn write_record(folder: &str, number: usize, stuck: &Stuck) -> io::Result<()> {
    let failed = |refusal: u8| io::Error::other(format!("{folder}/{number}: {refusal} at saving"));
    let text = save(&stuck.record).map_err(|refusal| failed(refusal.number()))?;
    if load(&text) != Ok(stuck.record) {
        return Err(failed(0));
    }
    fs::write(format!("{folder}/{number}.saved"), text)?;
    fs::write(format!("{folder}/{number}.orders"), orders(LOAD_AND_RECOVER, stuck.write))
}
