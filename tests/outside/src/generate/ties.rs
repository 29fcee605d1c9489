//! Towns in which many ways arrive at the same tick: places on a grid, roads that take as long as the places
//! are apart, and so on each way onwards the same in all.

use super::rising_ticks;
use crate::rng::Rng;

/// Tick and travel.
type Point = (usize, usize);

/// How a town of ties is laid out.
#[derive(Clone, Copy)]
pub struct Ties {
    columns: usize,
    /// What a step on the grid takes.
    unit: usize,
    /// Some roads take a tick more at some ticks, so that ties come and go.
    wobbles: bool,
    /// Some roads take longer than others, and some end at one tick of the day whenever they are taken: who
    /// comes late may be in time again.
    makes_up: bool,
    /// Once in so many a road leads back; 1 where all directions are alike.
    back: usize,
}

/// Roads lead this far at most, in columns and in rows.
const REACH: usize = 2;

impl Ties {
    pub fn new(rng: &mut Rng, nodes: usize) -> Ties {
        Ties {
            columns: rng.pick(&[1, 2, 3, nodes.isqrt().max(1), nodes]),
            unit: rng.pick(&[1, 1, 1, 2, 5]),
            wobbles: rng.once_in(3),
            makes_up: rng.once_in(2),
            back: rng.pick(&[1, 3, 10]),
        }
    }

    /// Two different nodes near each other, mostly in the direction in which all ways lead.
    pub fn ends(&self, rng: &mut Rng, nodes: usize) -> (usize, usize) {
        let from = rng.below(nodes);
        let (rows, columns) = (rng.below(REACH + 1), rng.below(REACH + 1));
        let other = from + rows * self.columns + columns;
        let to = if rows + columns > 0 && other < nodes { other } else { (from + 1) % nodes };
        let (low, high) = (from.min(to), from.max(to));
        if rng.once_in(self.back) && rng.once_in(2) {
            (high, low)
        } else {
            (low, high)
        }
    }

    /// A road's points, at most `count`.
    pub fn points(&self, rng: &mut Rng, period: usize, ends: (usize, usize), count: usize) -> Vec<Point> {
        if self.makes_up && period >= 3 && count >= 3 && rng.once_in(3) {
            return ending_at(rng.within(2, period - 1), period);
        }
        let steps = self.steps(ends.0, ends.1);
        let late = if self.makes_up && rng.once_in(3) { rng.within(1, 3) } else { 0 };
        let travel = (self.unit * steps + late).min(period);
        let more = usize::from(self.wobbles && travel < period);
        let ticks = [0].into_iter().chain(rising_ticks(rng, period, count - 1));
        ticks.map(|tick| (tick, travel + rng.below(more + 1))).collect()
    }

    /// How far apart two nodes are on the grid.
    fn steps(&self, one: usize, other: usize) -> usize {
        let (rows, columns) = (|node: usize| node / self.columns, |node: usize| node % self.columns);
        rows(one).abs_diff(rows(other)) + columns(one).abs_diff(columns(other))
    }
}

/// Points of a road that ends at this tick, or a day later, whenever it is taken; the tick is below P.
fn ending_at(tick: usize, period: usize) -> Vec<Point> {
    vec![(0, tick), (tick - 1, 1), (tick, period)]
}
