//! What a tally looks for at the limits: logs that a step fills or finds full, and positions at the
//! highest and just above it.

use super::{DONE, Sight, Taken};
use crate::model::{Condition, Condition::*, ENTRIES, HIGHEST_POSITION};

const FULL: Result<(), Condition> = Err(LogFull);
const ABOVE: Result<(), Condition> = Err(PositionAboveHighest);

pub const SIGHTS: &[Sight] = &[
    (3, DONE, "to position 128", |t| t.covers_all()),
    (4, DONE, "to 128 entries", |t| t.is_filled()),
    (5, DONE, "to 128 entries", |t| t.is_filled()),
    (5, DONE, "with 128 entries to lose some of", |t| t.was_full()),
    (6, DONE, "at 127 entries", |t| t.is_filled()),
    (6, FULL, "at 128 entries", |t| t.was_full()),
    (7, DONE, "to position 128", |t| t.covers_all()),
    (12, DONE, "at position 128", |t| t.position() == HIGHEST_POSITION),
    (12, ABOVE, "at position 129", |t| t.position() == HIGHEST_POSITION + 1),
    (12, Err(NoEntry), "at position 128", |t| t.position() == HIGHEST_POSITION),
    (14, DONE, "at 127 entries", |t| t.is_filled()),
    (14, FULL, "at 128 entries", |t| t.was_full()),
    (15, DONE, "at position 128", |t| t.position() == HIGHEST_POSITION),
    (15, ABOVE, "at position 129", |t| t.position() == HIGHEST_POSITION + 1),
    (15, Err(NoEntry), "at position 128", |t| t.position() == HIGHEST_POSITION),
    (16, DONE, "of 128 entries", |t| t.report().note.length == HIGHEST_POSITION),
];

/// A's log and commit point on both sides of a step.
impl Taken<'_> {
    pub(super) fn was_full(&self) -> bool {
        self.a().log.length == ENTRIES
    }

    fn is_filled(&self) -> bool {
        !self.was_full() && self.a_after().log.length == ENTRIES
    }

    fn covers_all(&self) -> bool {
        let [before, after] = [self.a(), self.a_after()].map(|a| a.commit_point);
        before < after && after == HIGHEST_POSITION
    }
}
