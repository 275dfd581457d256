//! The tally of a run: how often each kind was done and how often each condition refused, and
//! whether everything that lines can reach was reached.

use crate::model::{Answer, CONDITIONS, Cluster, Condition, Condition::*, KINDS, Step};
use crate::sights::{COUNT, Sight, Strays, Taken, Trail, Trails, sights};
use std::io::{self, Write};

/// One row a kind, and a last one for lines that are no frame.
const ROWS: usize = KINDS + 1;
const NO_FRAME: usize = KINDS;

/// For each kind, the conditions of its refusals in the order in which they are tested.
const LISTS: [(&str, &[Condition]); ROWS] = [
    ("start", &[StartBelow2, StartAbove7, FollowerOutside, FewVoters]),
    (
        "elect",
        &[
            NotWellFormed,
            ServerOutside,
            MemberOutside,
            FollowerElected,
            FollowerInSet,
            NotAMajority,
            OutsideItsSet,
            MemberTermAbove,
            BehindAMember,
            TermAtLimit,
        ],
    ),
    ("step down", &[NotWellFormed, ServerOutside, NotPrimary]),
    ("hears", &[NotWellFormed, ServerOutside, OtherServerOutside, SameServer]),
    (
        "pulls",
        &[
            NotWellFormed,
            ServerOutside,
            OtherServerOutside,
            SameServer,
            NotSecondary,
            NotShorter,
            LastEntryDiffers,
        ],
    ),
    (
        "rolls back",
        &[
            NotWellFormed,
            ServerOutside,
            OtherServerOutside,
            SameServer,
            NotSecondary,
            LogEmpty,
            LastTermNotBelow,
            ABeginning,
            CommonBelowCommitPoint,
        ],
    ),
    (
        "writes",
        &[
            NotWellFormed,
            ServerOutside,
            KeyOfNothing,
            KeyAbove15,
            ValueZero,
            ClockAhead,
            NotPrimary,
            LogFull,
            TickAtLimit,
        ],
    ),
    ("advances", &[NotWellFormed, ServerOutside, NotPrimary, NothingPasses]),
    ("wall clock", &[NotWellFormed, ServerOutside, WallClockAtLimit]),
    ("restarts", &[NotWellFormed, ServerOutside]),
    ("local read", &[NotWellFormed, ServerOutside, KeyOfNothing, KeyAbove15, AppliedTimeBefore]),
    ("majority read", &[NotWellFormed, ServerOutside, KeyOfNothing, KeyAbove15, CommitTimeBefore]),
    (
        "acknowledged",
        &[
            NotWellFormed,
            ServerOutside,
            CountAbove,
            PositionZero,
            PositionAboveHighest,
            TermZero,
            CountRetired,
            NoEntry,
            OtherTerm,
            CommitPointBelow,
        ],
    ),
    ("clocks agree", &[NotWellFormed]),
    ("writes nothing", &[NotWellFormed, ServerOutside, NotPrimary, LogFull, TickAtLimit]),
    (
        "newest read",
        &[
            NotWellFormed,
            ServerOutside,
            KeyOfNothing,
            KeyAbove15,
            PositionZero,
            PositionAboveHighest,
            TermZero,
            NotPrimary,
            PrimaryOfOtherTerm,
            NoEntry,
            OtherTerm,
            CommitPointBelow,
        ],
    ),
    ("takes report", &[NotWellFormed, ServerOutside, QueueEmpty]),
    ("no frame", &[WrongLength, WrongCharacter, UnknownKind, UnusedByte]),
];

/// What no lines reach from a fresh start, and above it the reason.
const UNREACHABLE: [(usize, Condition); 1] = [
    // Demand 3: committed entries stay with a majority and with every log of a later last term.
    (5, CommonBelowCommitPoint),
];

pub struct Tally {
    done: [u64; ROWS],
    refused: [[u64; CONDITIONS]; ROWS],
    seen: [u64; COUNT],
    trails: Trails,
    strays: Strays,
}

impl Tally {
    pub const NONE: Tally = Tally {
        done: [0; ROWS],
        refused: [[0; CONDITIONS]; ROWS],
        seen: [0; COUNT],
        trails: Trails::NONE,
        strays: Strays::NONE,
    };

    /// Counts the answer to a line, whose step is none where it is no frame; the clusters are those
    /// before and after it.
    pub fn count(&mut self, step: Option<Step>, answer: Answer, [before, after]: [&Cluster; 2]) {
        let row = step.map_or(NO_FRAME, |step| step.kind().into());
        match answer {
            Ok(_) => self.done[row] += 1,
            Err(condition) => self.refused[row][condition as usize] += 1,
        }
        let Some(step) = step else { return };
        let both = [before, after];
        let trail = answer.map_or(Trail::NONE, |_| self.trails.follow(&step, both));
        let (trails, strays) = (&self.trails, &self.strays);
        let taken = Taken { step, answer, before, after, trail, trails, strays };
        for (times, (kind, ended, _, is_seen)) in self.seen.iter_mut().zip(sights()) {
            let applies = *kind == row && *ended == answer.map(|_| ());
            *times += u64::from(applies && is_seen(&taken));
        }
        self.strays.follow(&step, answer);
    }

    /// The names of the sights in steps of a row that ended so, and how often each was seen.
    fn seen_in(
        &self,
        row: usize,
        ended: Result<(), Condition>,
    ) -> impl Iterator<Item = (&'static str, u64)> + '_ {
        let applies = move |(sight, _): &(&Sight, &u64)| (sight.0, sight.1) == (row, ended);
        sights().zip(&self.seen).filter(applies).map(|(sight, times)| (sight.2, *times))
    }

    /// Writes the tally, then what is amiss; true where nothing is.
    pub fn write(&self, output: &mut impl Write) -> io::Result<bool> {
        for (row, (kind, list)) in LISTS.iter().enumerate() {
            writeln!(output, "{row:2} {kind}: {} done", self.done[row])?;
            self.write_seen(output, row, Ok(()))?;
            for &condition in *list {
                let times = self.refused[row][condition as usize];
                writeln!(output, "     {:2} {condition:?} {times}", condition.number())?;
                self.write_seen(output, row, Err(condition))?;
            }
        }
        self.write_share(output)?;
        let amiss = self.amiss();
        for line in &amiss {
            writeln!(output, "{line}")?;
        }
        Ok(amiss.is_empty())
    }

    fn write_seen(
        &self,
        output: &mut impl Write,
        row: usize,
        ended: Result<(), Condition>,
    ) -> io::Result<()> {
        for (sight, times) in self.seen_in(row, ended) {
            writeln!(output, "        {times} {sight}")?;
        }
        Ok(())
    }

    fn write_share(&self, output: &mut impl Write) -> io::Result<()> {
        let bad: u64 = self.refused[NO_FRAME].iter().sum();
        let refused = self.refused.iter().flatten().sum::<u64>() - bad;
        let done: u64 = self.done.iter().sum();
        let share = 100 * done / (done + refused).max(1);
        writeln!(output, "{} step lines, {share} of 100 done; {bad} bad lines", done + refused)
    }

    /// Everything that should have occurred and didn't, or the other way round.
    fn amiss(&self) -> Vec<String> {
        let unseen = sights().zip(&self.seen).filter(|(_, times)| **times == 0);
        let never = |(kind, ended, sight, _): &Sight| {
            let how =
                ended.map_or_else(|condition| format!("{condition:?}"), |()| "done".to_string());
            format!("never: {} {how} {sight}", LISTS[*kind].0)
        };
        let mut amiss: Vec<String> = unseen.map(|(sight, _)| never(sight)).collect();
        for (row, (kind, list)) in LISTS.iter().enumerate() {
            if row != NO_FRAME && self.done[row] == 0 {
                amiss.push(format!("never: {kind} done"));
            }
            for &condition in *list {
                let reachable = !UNREACHABLE.contains(&(row, condition));
                let occurred = self.refused[row][condition as usize] > 0;
                if reachable && !occurred {
                    amiss.push(format!("never: {kind} refused by {condition:?}"));
                } else if occurred && !reachable {
                    amiss.push(format!("held unreachable: {kind} refused by {condition:?}"));
                }
            }
            let listed: u64 = list.iter().map(|&c| self.refused[row][c as usize]).sum();
            if listed != self.refused[row].iter().sum() {
                amiss.push(format!("refused by a condition outside its list: {kind}"));
            }
        }
        amiss
    }
}
