//! At which ticks a test is tried, where the error planted leaves some out.

use super::errors::Ticks;
use crate::reference::line::{travel_at, Point};
use crate::reference::plan::profile_at;

/// A profile, and the roads in question: their points, and the profiles of their ends.
pub struct Around<'a> {
    pub period: u32,
    pub profile: &'a [Point],
    pub roads: Vec<(&'a [Point], &'a [Point])>,
}

impl Around<'_> {
    pub fn is_tried(&self, ticks: Ticks, tick: u64) -> bool {
        let last = u64::from(self.period) - 1;
        let has_point = |points: &[Point]| points.iter().any(|point| u64::from(point.tick) == tick);
        let road_has_point = || self.roads.iter().any(|road| has_point(road.0));
        let says = |tick: u64| profile_at(self.profile, tick, self.period);
        let is_first = || tick == 0 || says(tick - 1) != says(tick);
        let is_last = || tick == last || says(tick + 1) != says(tick);
        match ticks {
            Ticks::AtProfilePoints => has_point(self.profile),
            Ticks::AtRoadPoints => road_has_point(),
            Ticks::AtProfileAndRoadPoints => has_point(self.profile) || road_has_point(),
            Ticks::NotTheFirst => tick != 0,
            Ticks::NotTheLast => tick != last,
            Ticks::EveryOther => tick.is_multiple_of(2),
            Ticks::FirstOfProfileRuns => is_first(),
            Ticks::LastOfProfileRuns => is_last(),
            Ticks::NotFirstOfProfileRuns => !is_first(),
            Ticks::NotLastOfProfileRuns => !is_last(),
            Ticks::FirstOfRoadRuns => self.changes(tick, false, travel),
            Ticks::LastOfRoadRuns => self.changes(tick, true, travel),
            Ticks::NotFirstOfRoadRuns => !self.changes(tick, false, travel),
            Ticks::NotLastOfRoadRuns => !self.changes(tick, true, travel),
            Ticks::NotFirstOfEndRuns => !self.changes(tick, false, end_says),
            Ticks::NotLastOfEndRuns => !self.changes(tick, true, end_says),
            Ticks::WhereTravelsChange => is_first() || self.changes(tick, false, travel),
            Ticks::WhereProfilesChange => is_first() || self.changes(tick, false, end_says),
            Ticks::WhereEndsChange => is_first() || self.changes(tick, false, ends),
            Ticks::NotWhereAnEndStays => !self.roads.iter().any(|&road| self.stays(road, tick)),
            Ticks::NotWhereEndsAreTomorrow => !self.roads.iter().any(|&(points, _)| self.is_tomorrow(points, tick)),
        }
    }

    /// Some road's value differs from that of the tick before, or of the next one; so it does at the day's
    /// first and last tick.
    fn changes(&self, tick: u64, next: bool, value: Value) -> bool {
        let edge = if next { u64::from(self.period) - 1 } else { 0 };
        let other = if next { tick + 1 } else { tick.wrapping_sub(1) };
        let at = |road: &(&[Point], &[Point]), tick| value(*road, tick, self.period);
        tick == edge || self.roads.iter().any(|road| at(road, other) != at(road, tick))
    }

    /// It ends when it did a tick before.
    fn stays(&self, road: (&[Point], &[Point]), tick: u64) -> bool {
        tick > 0 && ends(road, tick - 1, self.period) == ends(road, tick, self.period)
    }

    fn is_tomorrow(&self, points: &[Point], tick: u64) -> bool {
        tick + travel_at(points, tick, self.period) >= u64::from(self.period)
    }
}

/// Something of a road and its end's profile at a tick.
type Value = fn((&[Point], &[Point]), u64, u32) -> Option<u64>;

fn travel(road: (&[Point], &[Point]), tick: u64, period: u32) -> Option<u64> {
    Some(travel_at(road.0, tick, period))
}

fn ends(road: (&[Point], &[Point]), tick: u64, period: u32) -> Option<u64> {
    Some(tick + travel_at(road.0, tick, period))
}

fn end_says(road: (&[Point], &[Point]), tick: u64, period: u32) -> Option<u64> {
    profile_at(road.1, tick + travel_at(road.0, tick, period), period)
}
