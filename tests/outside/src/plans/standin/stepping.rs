//! A line walked along: a piece is found and divided by its width once, and then its value and what rounding
//! left are stepped on. Ticks may run on into the next day and never go back.

use super::errors::{Error, Lines, Rounding};
use super::Planted;
use crate::reference::line::Point;

/// Whose line it is: a road's travel, the profile of a place, or that of a road's end.
#[derive(Clone, Copy, PartialEq, Eq)]
pub enum Of {
    Road,
    Start,
    End,
}

pub struct Walked<'a> {
    planted: Planted,
    of: Of,
    points: &'a [Point],
    period: i64,
    /// Which point the piece begins with, and from what tick to what tick it reaches.
    place: usize,
    start: i64,
    end: i64,
    /// Where the walk stands. The value is rounded up: a piece starts with all of the width but one part as
    /// its rest, so that every part beyond a whole number makes one more.
    tick: i64,
    value: i64,
    rest: i64,
    /// What a tick adds: whole numbers, and parts of the width.
    step: i64,
    part: i64,
    width: i64,
    pub finds: u64,
}

impl<'a> Walked<'a> {
    /// From a tick on. There is a point.
    pub fn from(planted: Planted, of: Of, points: &'a [Point], period: u32, tick: u64) -> Walked<'a> {
        let (period, tick) = (i64::from(period), tick as i64);
        let today = tick.rem_euclid(period);
        let place = points.partition_point(|point| i64::from(point.tick) <= today) - 1;
        let mut walked = Walked {
            planted,
            of,
            points,
            period,
            place,
            start: 0,
            end: 0,
            tick: 0,
            value: 0,
            rest: 0,
            step: 0,
            part: 0,
            width: 1,
            finds: 0,
        };
        walked.find(place, tick - today + i64::from(points[place].tick));
        walked
    }

    /// The piece that begins with a point at a tick.
    fn find(&mut self, place: usize, start: i64) {
        let left = self.points[place];
        let (mut next_tick, mut next) = match self.points.get(place + 1) {
            Some(right) => (i64::from(right.tick), i64::from(right.travel)),
            None => (self.period, i64::from(self.points[0].travel)),
        };
        if place + 1 == self.points.len() {
            match () {
                _ if self.planted.has(Lines::LastLineFlat) => next = i64::from(left.travel),
                _ if self.planted.has(Lines::LastLineTo0) => next = 0,
                _ if self.planted.has(Lines::LastLineATickShort) => next_tick = (next_tick - 1).max(left.tick.into()),
                _ => {}
            }
        }
        let rise = next - i64::from(left.travel);
        self.place = place;
        self.start = start;
        self.tick = start;
        self.width = (next_tick - i64::from(left.tick)).max(1);
        self.end = start + self.width;
        if place + 1 == self.points.len() && self.planted.has(Lines::LastLineATickShort) {
            self.end = start + self.period - i64::from(left.tick);
        }
        self.value = i64::from(left.travel);
        self.step = rise.div_euclid(self.width);
        self.part = rise.rem_euclid(self.width);
        if !self.planted.has(Lines::RestKeptAtAPoint) {
            self.rest = self.width - 1;
        }
        self.finds += 1;
    }

    /// The value at a tick, which is not before the last one asked for.
    pub fn at(&mut self, tick: u64) -> u64 {
        let tick = tick as i64;
        let early = i64::from(self.planted.has(Lines::PieceATickEarly) && self.width > 1);
        let mut pieces = if self.planted.has(Lines::OnePieceAStep) { 1 } else { usize::MAX };
        while tick + early >= self.end && pieces > 0 {
            let next = (self.place + 1) % self.points.len();
            if next == 0 && self.planted.has(Lines::LastLineGoesOnForEver) {
                break;
            }
            self.find(next, self.end);
            pieces -= 1;
        }
        self.step_to(tick);
        self.rounded(tick).max(0) as u64
    }

    fn step_to(&mut self, tick: i64) {
        let ticks = tick - self.tick;
        self.tick = tick;
        self.value += self.step * ticks;
        self.rest += self.part * ticks;
        if self.planted.has(Lines::RestIgnored) {
            self.rest = 0;
        }
        let mut carries = if self.planted.has(Lines::RestCarriedOnce) { 1 } else { i64::MAX };
        while self.rest >= self.width && carries > 0 {
            self.rest -= self.width;
            self.value += 1;
            carries -= 1;
        }
    }

    /// Rounded up it is the value; other roundings go back to the piece's first point.
    fn rounded(&self, tick: i64) -> i64 {
        let first = i64::from(self.points[self.place].travel);
        let gone = (self.step * self.width + self.part) * (tick - self.start);
        let down = first + gone.div_euclid(self.width);
        match self.planted.0 {
            Some(Error::Rounding(rounding)) if self.rounds_down(rounding, gone) => down,
            Some(Error::Rounding(Rounding::ToTheNearest)) => first + (gone + self.width / 2).div_euclid(self.width),
            Some(Error::Rounding(Rounding::OneMoreWhereWhole)) => down + 1,
            Some(Error::Rounding(Rounding::OneMoreWhereWholeBetweenPoints)) if tick > self.start => down + 1,
            _ => self.value,
        }
    }

    /// `gone` is by how many parts the line has risen from the piece's first point.
    fn rounds_down(&self, rounding: Rounding, gone: i64) -> bool {
        match rounding {
            Rounding::Down => true,
            Rounding::DownOnRoads => self.of == Of::Road,
            Rounding::DownInProfiles => self.of != Of::Road,
            Rounding::DownInTheStartsProfile => self.of == Of::Start,
            Rounding::DownInTheEndsProfile => self.of == Of::End,
            Rounding::TowardsTheEarlierPoint => gone > 0,
            Rounding::TowardsTheLaterPoint => gone < 0,
            _ => false,
        }
    }

    /// By how many parts of how many the line lies below its value where the walk stands.
    fn rounded_by(&self) -> (i64, i64) {
        (self.width - 1 - self.rest, self.width)
    }

    /// What rounding added to both lines makes a whole tick.
    pub fn rounded_by_a_tick(&self, other: &Walked) -> bool {
        let ((one, of_one), (two, of_two)) = (self.rounded_by(), other.rounded_by());
        one * of_two + two * of_one >= of_one * of_two
    }
}
