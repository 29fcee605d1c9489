//! Towns at the limits: as many profile points as a plan can hold and one more, the longest plan file, the
//! longest travel.

use super::{draft, Gives, Road, Town};
use crate::reference::plan::{MOST_BLOCKS, MOST_POINTS};

const MOST: usize = MOST_POINTS as usize;

/// A chain through all places, each road as long as the day: travels pass 16 bits by far.
pub fn longest_way() -> Town {
    let roads: Vec<Road> = (0..511).map(|place| (place, place + 1, vec![(0, 2_880)])).collect();
    let mut cells = [0; 512];
    cells[511] = 1;
    // The header, 511 flag words, 512 counts and as many points.
    let gives = Gives::Size { points: 512, blocks: 1 + 9 + 3 + 7 };
    Town { name: "the longest way", draft: draft(2_880, 2, &cells, &roads), gives, small: false }
}

pub fn most_points_to_one_border() -> Town {
    with_points("1,048,576 points, 1 border", 1, 2_880, MOST)
}

pub fn one_point_too_many_to_one_border() -> Town {
    with_points("1,048,577 points, 1 border", 1, 2_880, MOST + 1)
}

pub fn most_points_to_many_borders() -> Town {
    with_points("1,048,576 points, 100 borders", 100, 41, MOST)
}

pub fn one_point_too_many_to_many_borders() -> Town {
    with_points("1,048,577 points, 100 borders", 100, 41, MOST + 1)
}

/// Travels 1 2 1 2 ..: each step differs from the one before it, over the day's end too, so that a way of one
/// such road and others that always take the same has a point at every tick, whenever it comes to the road.
fn zigzag(period: u16) -> Vec<(u16, u16)> {
    (0..period).map(|tick| (tick, 1 + tick % 2)).collect()
}

/// A road whose profile has exactly `count` points, 1 or at least 3: it zigzags as long as needed, after one
/// flat step if `count` is even, and then is flat.
fn zigzag_with_points(period: u16, count: usize) -> Vec<(u16, u16)> {
    assert!(count != 2 && count <= usize::from(period));
    let flat = 1 - count % 2;
    let up = |tick: usize| tick >= flat && tick + 1 < count && (tick - flat) % 2 == 1;
    (0..period).map(|tick| (tick, 1 + u16::from(up(usize::from(tick))))).collect()
}

/// A hub with a zigzag road to each border, as many places around the hub as the points last, and then places
/// with a road of their own to the first border for what is left. Each border's own profile has one point.
fn with_points(name: &'static str, borders: u16, period: u16, points: usize) -> Town {
    let day = usize::from(period);
    let of_a_place = usize::from(borders) * day;
    let around = (points - usize::from(borders)) / of_a_place;
    let mut left = points - usize::from(borders) - around * of_a_place;
    let mut cells: Vec<u16> = (0..borders).map(|border| 1 + border % 63).collect();
    let mut roads: Vec<Road> = (0..borders).map(|border| (borders, border, zigzag(period))).collect();
    cells.push(0);
    for place in 1..around as u16 {
        roads.push((cells.len() as u16, borders, vec![(0, 1 + place % period)]));
        cells.push(0);
    }
    while left > 0 {
        let count = left.min(day);
        roads.push((cells.len() as u16, 0, zigzag_with_points(period, count)));
        cells.push(0);
        left -= count;
    }
    let profiles = usize::from(borders) * cells.len();
    let blocks = 1 + roads.len().div_ceil(62) + profiles.div_ceil(250) + points.div_ceil(83);
    let gives = if points > MOST { Gives::TooManyPoints } else { Gives::Size { points, blocks } };
    Town { name, draft: draft(period, 64, &cells, &roads), gives, small: false }
}

/// 511 places round a hub, all of them borders: as many roads, profiles and points as a plan can have. A
/// place's road to the hub takes 1. The hub's roads to the first 384 zigzag, which makes 511 profiles of 5
/// points to each; to the others they take 1. To one of those a place's own road zigzags below the 2 over the
/// hub, which makes one profile of 5 points more each time. All other profiles have one point: together
/// 512 x 512 + 4 x (384 x 511 + 384) points. The roads that are left are slow ones.
pub fn longest_file() -> Town {
    let period = 5;
    let cells: Vec<u16> = (0..512).map(|place| if place == 0 { 0 } else { 1 + place % 63 }).collect();
    let mut roads: Vec<Road> = Vec::new();
    for place in 1..512 {
        roads.push((place, 0, vec![(0, 1)]));
        roads.push((0, place, if place <= 384 { zigzag(period) } else { vec![(0, 1)] }));
    }
    roads.extend((0..384).map(|number| (1 + number, 385 + number % 127, zigzag(period))));
    while roads.len() < 2_048 {
        roads.push((1 + roads.len() as u16 % 511, 0, vec![(0, period)]));
    }
    let gives = Gives::Size { points: MOST, blocks: MOST_BLOCKS };
    Town { name: "the longest file", draft: draft(period, 64, &cells, &roads), gives, small: false }
}
