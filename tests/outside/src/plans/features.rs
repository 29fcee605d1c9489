//! What a damaged plan's town is like, to tell that each of it was met.

use super::true_town::TrueTown;

pub const NAMES: [&str; 9] = [
    "a period of 1",
    "a period of 2",
    "a period of 3 to 12",
    "a period of 13 to 60",
    "a period of 2,880",
    "a road that falls by one a tick",
    "a road that rises by half the period at once",
    "a road that takes the whole period",
    "a road of one point",
];

/// Periods so short that every road does as much do not count.
const STEEP_FROM: usize = 4;

pub fn features(town: &TrueTown) -> [bool; NAMES.len()] {
    let period = town.period();
    let steps = |travels: &Vec<u32>| -> Vec<i64> {
        let travel = |tick: usize| i64::from(travels[tick % period]);
        (0..period).map(|tick| travel(tick + 1) - travel(tick)).collect()
    };
    let road = |holds: &dyn Fn(&Vec<u32>) -> bool| town.exact.arc_travels.iter().any(holds);
    let falls = |travels: &Vec<u32>| steps(travels).windows(3).any(|steps| steps == [-1, -1, -1]);
    let rises = |travels: &Vec<u32>| steps(travels).into_iter().any(|step| 2 * step >= period as i64);
    [
        period == 1,
        period == 2,
        (3..=12).contains(&period),
        (13..=60).contains(&period),
        period == 2_880,
        period >= STEEP_FROM && road(&falls),
        period >= STEEP_FROM && road(&rises),
        road(&|travels| travels.contains(&(period as u32))),
        town.network.arcs.iter().any(|arc| arc.points.len() == 1),
    ]
}
