//! One walk through the day at each border and place: what its profile says, what its roads give, and which
//! of 21 to 24 fail.

use super::errors::{Error, Flags, Lines, Own, Roads, Rounding, Sums};
use super::stepping::{Of, Walked};
use super::tried::Around;
use super::Planted;
use crate::reference::line::Point;
use crate::reference::network::Network;
use crate::reference::plan::Plan;

/// Where a test fails; `ends` is the road in question, if there is one: where it leads and when it ends.
#[derive(Clone, Copy)]
pub struct Failure {
    pub number: u32,
    pub index: usize,
    pub border: usize,
    pub place: usize,
    pub tick: u64,
    pub ends: (usize, u64),
}

pub struct Walk<'a> {
    pub planted: Planted,
    pub network: &'a Network,
    pub plan: &'a Plan,
    pub failures: Vec<Failure>,
    /// By border.
    pub finds: Vec<u64>,
}

/// One place on the way to a border.
struct Here<'a> {
    index: usize,
    border: usize,
    place: usize,
    profile: &'a [Point],
    says: Option<Walked<'a>>,
    roads: Vec<Road<'a>>,
}

struct Road<'a> {
    arc: usize,
    to: usize,
    points: &'a [Point],
    end_profile: &'a [Point],
    travels: Walked<'a>,
    end: Option<Walked<'a>>,
    /// When it ends and what it gives, taken now.
    ends: u64,
    gives: Option<u64>,
}

impl<'a> Walk<'a> {
    pub fn through(planted: Planted, network: &'a Network, plan: &'a Plan) -> Walk<'a> {
        let mut walk = Walk { planted, network, plan, failures: Vec::new(), finds: Vec::new() };
        for index in 0..plan.borders.len() {
            walk.finds.push(0);
            for place in 0..network.nodes() {
                walk.day(index, place);
            }
        }
        walk
    }

    fn profile(&self, index: usize, place: usize) -> &'a [Point] {
        &self.plan.profiles[index * self.network.nodes() + place]
    }

    /// A walk along a profile, if it has points.
    fn walked(&self, of: Of, profile: &'a [Point], tick: u64) -> Option<Walked<'a>> {
        let period = self.network.header.period;
        (!profile.is_empty()).then(|| Walked::from(self.planted, of, profile, period, tick))
    }

    fn day(&mut self, index: usize, place: usize) {
        let profile = self.profile(index, place);
        let border = self.plan.borders[index];
        let says = self.walked(Of::Start, profile, 0);
        let mut here = Here { index, border, place, profile, says, roads: self.roads(index, place) };
        for tick in 0..u64::from(self.network.header.period) {
            let says = self.value(here.says.as_mut().map(|line| line.at(tick)));
            for road in &mut here.roads {
                self.take(road, tick);
            }
            self.try_all(&here, tick, says);
        }
        let of_road = |road: &Road| road.travels.finds + road.end.as_ref().map_or(0, |line| line.finds);
        let of_roads: u64 = here.roads.iter().map(of_road).sum();
        self.finds[index] += here.says.map_or(0, |line| line.finds) + of_roads;
    }

    fn roads(&self, index: usize, place: usize) -> Vec<Road<'a>> {
        let network = self.network;
        let out = (0..network.arcs.len()).filter(|&arc| network.arcs[arc].from == place);
        let cell = |place: usize| network.cell_of[place];
        let mut roads: Vec<Road> = Vec::new();
        for arc in out {
            let (to, points) = (network.arcs[arc].to, &network.arcs[arc].points[..]);
            let left_out = self.planted.has(Roads::FirstAlone) && !roads.is_empty()
                || self.planted.has(Roads::ParallelOnesOnce) && roads.iter().any(|road| road.to == to)
                || self.planted.has(Roads::NotIntoTheBorder) && to == self.plan.borders[index]
                || self.planted.has(Roads::NotIntoTheSameCell) && cell(to) == cell(place);
            if left_out {
                continue;
            }
            if self.planted.has(Roads::LastAlone) {
                roads.clear();
            }
            let travels = Walked::from(self.planted, Of::Road, points, network.header.period, 0);
            let end_profile = self.profile(index, to);
            let end = self.walked(Of::End, end_profile, u64::from(points[0].travel));
            roads.push(Road { arc, to, points, end_profile, travels, end, ends: 0, gives: None });
        }
        roads
    }

    /// What a profile's number counts as.
    fn value(&self, says: Option<u64>) -> Option<u64> {
        match says {
            Some(value) if value == u64::from(u32::MAX) && self.planted.has(Sums::LargestIsNever) => None,
            None if self.planted.has(Sums::NeverIsTheLargest) => Some(u64::from(u32::MAX)),
            None if self.planted.has(Sums::NeverIs0) => Some(0),
            says => says,
        }
    }

    /// What a road gives that is taken at a tick.
    fn take(&self, road: &mut Road, tick: u64) {
        let travel = road.travels.at(tick);
        let ends = tick + travel;
        let asked = match () {
            _ if self.planted.has(Lines::EndTakenAtTheDeparture) => tick + u64::from(self.network.header.period),
            _ if self.planted.has(Lines::EndTakenATickLate) => ends + 1,
            _ => ends,
        };
        let end = self.value(road.end.as_mut().map(|line| line.at(asked)));
        let end = if self.planted.has(Sums::NeverGivesTheTravel) { Some(end.unwrap_or(0)) } else { end };
        let whole_day = travel == u64::from(self.network.header.period);
        let driven = if whole_day && self.planted.has(Lines::WholeDayTakesNothing) { 0 } else { travel };
        road.ends = ends;
        let over = |line: &Walked| self.planted.has(Rounding::OnceForTheSum) && road.travels.rounded_by_a_tick(line);
        let one_less = u64::from(road.end.as_ref().is_some_and(over));
        road.gives = end.map(|end| self.sum(driven, end) - one_less);
    }

    fn sum(&self, travel: u64, end: u64) -> u64 {
        match () {
            _ if self.planted.has(Sums::In32Bits) => (travel + end) % (1 << 32),
            _ if self.planted.has(Sums::In32BitsAtMost) => (travel + end).min(u64::from(u32::MAX)),
            _ if self.planted.has(Sums::In31Bits) => (travel + end) % (1 << 31),
            _ => travel + end,
        }
    }

    fn try_all(&mut self, here: &Here, tick: u64, says: Option<u64>) {
        let is_border = here.place == here.border;
        let gives_it = |road: &&Road| says.is_some() && road.gives == says;
        let never_less = says.is_none() && self.planted.has(Sums::NeverIsNotAsked);
        let less = |road: &Road| road.gives.is_some_and(|gives| says.is_none_or(|says| gives < says)) && !never_less;
        let is_tried = |road: &Road| self.is_tried(22, here, &[road], tick);
        let less_by = here.roads.iter().find(|road| less(road) && is_tried(road));
        let givers: Vec<&Road> = here.roads.iter().filter(gives_it).collect();
        let out: Vec<&Road> = here.roads.iter().collect();
        let flag_fails = !givers.is_empty() && !self.flagged(here, &givers);
        let tests = [
            (21, is_border && self.own_fails(says) && self.is_tried(21, here, &[], tick), None),
            (22, less_by.is_some(), less_by),
            (23, says.is_some() && !is_border && givers.is_empty() && self.is_tried(23, here, &out, tick), None),
            (24, flag_fails && self.is_tried(24, here, &out, tick), givers.first().copied()),
        ];
        for (number, _, road) in tests.into_iter().filter(|(_, fails, _)| *fails) {
            let ends = road.map_or((here.place, tick), |road| (road.to, road.ends));
            let Here { index, border, place, .. } = *here;
            self.failures.push(Failure { number, index, border, place, tick, ends });
        }
    }

    fn is_tried(&self, number: u32, here: &Here, roads: &[&Road], tick: u64) -> bool {
        match self.planted.0 {
            Some(Error::Tried(test, ticks)) if test == number => {
                let roads = roads.iter().map(|road| (road.points, road.end_profile)).collect();
                let period = self.network.header.period;
                Around { period, profile: here.profile, roads }.is_tried(ticks, tick)
            }
            _ => true,
        }
    }

    fn own_fails(&self, says: Option<u64>) -> bool {
        match says {
            _ if self.planted.has(Own::NotAsked) => false,
            None => !self.planted.has(Own::NeverPasses),
            Some(says) if says == u64::from(u32::MAX) && self.planted.has(Own::LargestPasses) => false,
            Some(says) if self.planted.has(Own::Only16Bits) => says % (1 << 16) != 0,
            Some(says) => says != 0,
        }
    }

    fn flagged(&self, here: &Here, givers: &[&Road]) -> bool {
        let cell_of = &self.network.cell_of;
        let flag = |road: &Road| {
            let cell = match () {
                _ if self.planted.has(Flags::OfTheStartsCell) => cell_of[here.place],
                _ if self.planted.has(Flags::OfTheEndsCell) => cell_of[road.to],
                _ if self.planted.has(Flags::In32Bits) => cell_of[here.border] % 32,
                _ if self.planted.has(Flags::In8Bits) => cell_of[here.border] % 8,
                _ => cell_of[here.border],
            };
            self.plan.has_flag(road.arc, cell)
        };
        match () {
            _ if self.planted.has(Flags::NeverAsked) => true,
            _ if self.planted.has(Flags::OfTheFirstGiver) => flag(givers[0]),
            _ if self.planted.has(Flags::OfTheLastGiver) => flag(givers[givers.len() - 1]),
            _ if self.planted.has(Flags::OfAllGivers) => givers.iter().all(|road| flag(road)),
            _ if self.planted.has(Flags::OfAnyRoadOut) => here.roads.iter().any(flag),
            _ => givers.iter().any(|road| flag(road)),
        }
    }
}
