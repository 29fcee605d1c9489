//! What has to come of a damaged plan, by what is true of the town and not by trying the check's tests: where
//! one profile to a border is changed, all other profiles to it still tell least travels.

use super::true_town::TrueTown;
use super::Damage;
use crate::compare::Predicted;
use crate::reference::line::Point;
use crate::reference::plan::profile_at;
use crate::reference::Refusal;

/// None where two profiles to one border are changed: what comes of both together is not told here.
pub fn meant(town: &TrueTown, damage: &Damage) -> Option<Predicted> {
    let mut borders: Vec<usize> = damage.profiles.iter().map(|(profile, _)| town.place(*profile).0).collect();
    borders.sort();
    if borders.windows(2).any(|two| two[0] == two[1]) {
        return None;
    }
    let flags = damage.flags.as_ref().unwrap_or(&town.flags);
    let of_profiles = damage.profiles.iter().filter_map(|(profile, _)| of_profile(town, damage, *profile));
    let refusals = inner_flag_missing(town, flags).into_iter().chain(of_profiles).chain(flag_missing(town, flags));
    Some(refusals.min_by_key(|refusal| (refusal.number, refusal.places)))
}

/// What the damaged plan says in a profile, by tick.
pub fn values(town: &TrueTown, damage: &Damage, profile: usize) -> Vec<Option<u64>> {
    let points = damage.points(town, profile).iter();
    let points: Vec<Point> = points.map(|&(tick, travel)| Point { tick: tick.into(), travel }).collect();
    (0..town.period() as u64).map(|tick| profile_at(&points, tick, town.network.header.period)).collect()
}

fn refusal(town: &TrueTown, number: u32, profile: usize, tick: usize) -> Refusal {
    let (index, node) = town.place(profile);
    Refusal { number, places: [index as u32, node as u32, tick as u32] }
}

/// "never counting as more than any number".
fn is_less(one: Option<u64>, other: Option<u64>) -> bool {
    one.unwrap_or(u64::MAX) < other.unwrap_or(u64::MAX)
}

fn of_profile(town: &TrueTown, damage: &Damage, profile: usize) -> Predicted {
    let values = values(town, damage, profile);
    let mut ticks = 0..town.period();
    if town.is_own(profile) {
        let tick = ticks.find(|&tick| values[tick] != Some(0))?;
        return Some(refusal(town, 21, profile, tick));
    }
    if let Some((profile, tick)) = first_that_gets_less(town, profile, &values) {
        return Some(refusal(town, 22, profile, tick));
    }
    let tick = ticks.find(|&tick| is_less(values[tick], town.least(profile, tick)))?;
    Some(refusal(town, 23, profile, tick))
}

/// A road that starts a least way gives less than a profile that says too much. And a road gives less than
/// the least travel only where it leads to the node that says too little.
fn first_that_gets_less(town: &TrueTown, profile: usize, values: &[Option<u64>]) -> Option<(usize, usize)> {
    let (index, node) = town.place(profile);
    let period = town.period();
    let too_much = (0..period).find(|&tick| is_less(town.least(profile, tick), values[tick]));
    let mut first = too_much.map(|tick| (profile, tick));
    for (number, arc) in town.network.arcs.iter().enumerate().filter(|(_, arc)| arc.to == node) {
        let before = index * town.network.nodes() + arc.from;
        let travels = &town.exact.arc_travels[number];
        let given = |tick: usize| {
            let travel = travels[tick] as usize;
            values[(tick + travel) % period].map(|value| travel as u64 + value)
        };
        let gets_less = (0..period).find(|&tick| is_less(given(tick), town.least(before, tick)));
        first = first.into_iter().chain(gets_less.map(|tick| (before, tick))).min();
    }
    first
}

fn inner_flag_missing(town: &TrueTown, flags: &[u64]) -> Predicted {
    let cells = |arc: usize| town.network.cell_of[town.network.arcs[arc].to];
    let missing = |&arc: &usize| town.is_inner(arc, cells(arc)) && flags[arc] >> cells(arc) & 1 == 0;
    let arc = (0..flags.len()).find(missing)?;
    Some(Refusal { number: 20, places: [arc as u32, 0, 0] })
}

/// The first place and tick at which none of the roads that start a least way has the bit.
fn flag_missing(town: &TrueTown, flags: &[u64]) -> Predicted {
    for profile in 0..town.profile_count() {
        let cell = town.cell(profile);
        let flagged = town.bits_of(profile, |arc| flags[arc] >> cell & 1 == 1);
        let missing = |givers: &u64| *givers != 0 && givers & flagged == 0;
        if let Some(tick) = town.givers(profile).iter().position(missing) {
            return Some(refusal(town, 24, profile, tick));
        }
    }
    None
}
