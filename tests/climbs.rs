//! Sessions in which something rises step by step up to its limit.

use super::Run;
use crate::model::{Server, Step};

/// How near its limit a climb turns into an ordinary session that still climbs.
const NEAR: u16 = 60;
/// The ordinary steps that follow a climb.
const AFTER_CLIMB: usize = 300;

/// Something that rises.
pub struct Climb {
    height: fn(&Server) -> u16,
    raise: fn(&mut Run),
}

pub const TERMS: Climb = Climb { height: |server| server.term, raise: Run::raise_term };
pub const WALL_CLOCKS: Climb =
    Climb { height: |server| server.wall_clock, raise: Run::raise_wall_clock };

impl Run {
    fn raise_term(&mut self) {
        self.elect_of(self.electors());
    }

    fn raise_wall_clock(&mut self) {
        let a = self.with_most(self.electors(), |server| server.wall_clock);
        self.offer(Step::WallClock { a });
        self.near_the_end(a);
    }

    /// A session up to a limit; few other steps are on the way, so that logs aren't full there.
    pub(super) fn climb(&mut self, climb: &Climb, limit: u16) {
        self.begin();
        let top = |run: &Run| run.cluster.counted().iter().map(climb.height).max().unwrap_or(limit);
        while top(self) < limit {
            let one_in = if top(self) < limit - NEAR { 512 } else { 3 };
            if self.prng.one_in(one_in) { self.ordinary() } else { (climb.raise)(self) }
        }
        (climb.raise)(self);
        for _ in 0..AFTER_CLIMB {
            self.ordinary();
        }
    }
}
