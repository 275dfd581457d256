//! What a tally looks for in the counts of kind 12, where n is the server count: each sort of count
//! at each sort of place. Count 0 within range is in the tally's lists already, since no other count
//! gets as far as those conditions.

use self::Place::*;
use super::{Sight, Taken};
use crate::model::{Condition, Condition::*, HIGHEST_POSITION, Step};

const ABOVE: Result<(), Condition> = Err(CountAbove);
const RETIRED: Result<(), Condition> = Err(CountRetired);

pub const SIGHTS: &[Sight] = &[
    (12, Err(ServerOutside), "of a retired count", |t| t.is_retired()),
    (12, ABOVE, "n + 1, covered", |t| t.asks(t.all() + 1, Covered)),
    (12, ABOVE, "n + 1, no entry", |t| t.asks(t.all() + 1, Free)),
    (12, ABOVE, "n + 1, out of range", |t| t.asks(t.all() + 1, Outside)),
    (12, ABOVE, "255, covered", |t| t.asks(255, Covered)),
    (12, ABOVE, "255, no entry", |t| t.asks(255, Free)),
    (12, ABOVE, "255, out of range", |t| t.asks(255, Outside)),
    (12, Err(PositionZero), "count 0", |t| t.asks(0, Outside)),
    (12, Err(PositionZero), "count 1", |t| t.asks(1, Outside)),
    (12, Err(PositionZero), "count n", |t| t.asks(t.all(), Outside)),
    (12, Err(PositionAboveHighest), "count 0", |t| t.asks(0, Outside)),
    (12, Err(PositionAboveHighest), "count 1", |t| t.asks(1, Outside)),
    (12, Err(PositionAboveHighest), "count n", |t| t.asks(t.all(), Outside)),
    (12, Err(TermZero), "of a retired count", |t| t.is_retired()),
    (12, RETIRED, "count 1, covered", |t| t.asks(1, Covered)),
    (12, RETIRED, "count 1, where 8 applies", |t| t.asks(1, Uncovered)),
    (12, RETIRED, "count 1, where 10 applies", |t| t.asks(1, Free)),
    (12, RETIRED, "count n, covered", |t| t.asks(t.all(), Covered)),
    (12, RETIRED, "count n, where 8 applies", |t| t.asks(t.all(), Uncovered)),
    (12, RETIRED, "count n, where 10 applies", |t| t.asks(t.all(), Free)),
    (12, RETIRED, "between 1 and n", |t| t.count() > 1 && t.count() < t.all()),
];

/// What is at the position that is asked about: an entry of that term, covered or not, or none; or
/// it is out of range.
#[derive(PartialEq, Eq)]
enum Place {
    Covered,
    Uncovered,
    Free,
    Outside,
}

impl Taken<'_> {
    fn all(&self) -> usize {
        self.before.count
    }

    fn count(&self) -> usize {
        let Step::Acknowledged { count, .. } = self.step else { return 0 };
        count.into()
    }

    fn is_retired(&self) -> bool {
        (1..=self.all()).contains(&self.count())
    }

    fn asks(&self, count: usize, place: Place) -> bool {
        self.count() == count && self.place() == Some(place)
    }

    /// None where the term is out of range, so that it isn't the position that decides.
    fn place(&self) -> Option<Place> {
        let Step::Acknowledged { term: term @ 1.., .. } = self.step else { return None };
        let position = self.position();
        Some(match self.entry() {
            _ if position == 0 || position > HIGHEST_POSITION => Outside,
            Some(entry) if entry.term == term && position <= self.a().commit_point => Covered,
            Some(entry) if entry.term == term => Uncovered,
            _ => Free,
        })
    }
}
