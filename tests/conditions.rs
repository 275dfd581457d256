//! What refuses a step, and the refusal that it is given.

use self::Condition::*;

/// Every condition that refuses, finer than the refusal numbers so that each can be tallied.
#[derive(Clone, Copy, PartialEq, Eq, Debug)]
pub enum Condition {
    WrongLength,
    WrongCharacter,
    UnknownKind,
    UnusedByte,
    NotWellFormed,
    StartBelow2,
    StartAbove7,
    FollowerOutside,
    FewVoters,
    ServerOutside,
    OtherServerOutside,
    SameServer,
    MemberOutside,
    FollowerElected,
    FollowerInSet,
    CountAbove,
    KeyAbove15,
    KeyOfNothing,
    ValueZero,
    PositionZero,
    PositionAboveHighest,
    TermZero,
    ClockAhead,
    CountRetired,
    NotPrimary,
    PrimaryOfOtherTerm,
    NotSecondary,
    NotAMajority,
    OutsideItsSet,
    MemberTermAbove,
    BehindAMember,
    NotShorter,
    LastEntryDiffers,
    LogEmpty,
    LastTermNotBelow,
    ABeginning,
    NothingPasses,
    QueueEmpty,
    LogFull,
    TermAtLimit,
    WallClockAtLimit,
    TickAtLimit,
    AppliedTimeBefore,
    CommitTimeBefore,
    CommitPointBelow,
    CommonBelowCommitPoint,
    NoEntry,
    OtherTerm,
}

/// How many conditions there are.
pub const CONDITIONS: usize = OtherTerm as usize + 1;

impl Condition {
    /// The refusal number that documents 01 and 02 give this condition.
    pub fn number(self) -> u8 {
        match self {
            WrongLength | WrongCharacter | UnknownKind | UnusedByte => 1,
            NotWellFormed => 2,
            StartBelow2 | StartAbove7 | FollowerOutside | FewVoters => 3,
            ServerOutside | OtherServerOutside | SameServer => 3,
            MemberOutside | FollowerElected | FollowerInSet => 3,
            CountAbove | KeyAbove15 | KeyOfNothing | ValueZero => 3,
            PositionZero | PositionAboveHighest | TermZero => 3,
            NotPrimary | PrimaryOfOtherTerm | NotSecondary => 4,
            NotAMajority | OutsideItsSet | MemberTermAbove | BehindAMember => 5,
            NotShorter | LastEntryDiffers => 5,
            LogEmpty | LastTermNotBelow | ABeginning | NothingPasses | QueueEmpty => 5,
            LogFull => 6,
            TermAtLimit | WallClockAtLimit | TickAtLimit => 7,
            AppliedTimeBefore | CommitTimeBefore | CommitPointBelow => 8,
            CommonBelowCommitPoint => 9,
            NoEntry | OtherTerm => 10,
            ClockAhead => 11,
            CountRetired => 12,
        }
    }
}

/// One test of a kind's list; the first that applies is the answer.
pub(super) fn refuse_if(applies: bool, condition: Condition) -> Result<(), Condition> {
    if applies { Err(condition) } else { Ok(()) }
}
