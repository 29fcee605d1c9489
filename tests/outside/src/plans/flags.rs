//! Damage in the flags: a bit that matters at one tick alone, where other roads give the travel or none does,
//! and the bits of all roads that give it.

use super::true_town::TrueTown;
use super::{Damage, Kind};
use crate::rng::Rng;

/// A profile, a tick, and the roads that start a least way then.
struct Spot {
    profile: usize,
    tick: usize,
    givers: u64,
    /// Without the bits of all these roads nothing fails but this one tick, or it fails first.
    alone: bool,
    first: bool,
}

/// Roads that start least ways to borders of one cell, how often just these do, and at which profile and tick
/// for the first time.
struct Met {
    givers: u64,
    count: usize,
    first: (usize, usize),
}

/// Which spots a kind takes.
type Takes = fn(&TrueTown, &Spot) -> bool;

pub fn kinds() -> Vec<Kind> {
    let all: [(&str, Takes); 8] = [
        ("a flag of one tick, others give it too", |_, spot| spot.alone && spot.givers.count_ones() > 1),
        ("a flag of one tick, no other gives it", |_, spot| spot.alone && spot.givers.count_ones() == 1),
        ("a flag of tick 0 alone", |_, spot| spot.alone && spot.tick == 0),
        ("a flag of tick P - 1 alone", |town, spot| spot.alone && spot.tick == town.period() - 1),
        ("flags, where all travels go on as before", |town, spot| spot.first && goes_on(town, spot)),
        ("flags, where no line has a point", |town, spot| spot.first && is_between_points(town, spot)),
        ("the flag of the one road that gives it", |_, spot| spot.givers.count_ones() == 1),
        ("the flags of all roads that give it", |_, spot| spot.givers.count_ones() > 1),
    ];
    let kind = |(name, takes): (&str, Takes)| Kind {
        name: name.to_string(),
        gives: &[24],
        one_tick: false,
        make: Box::new(move |rng, town| cleared(rng, town, takes)),
    };
    all.into_iter().map(kind).collect()
}

/// Clears the cell's bit of all roads that give the travel at a spot, one of them last.
fn cleared(rng: &mut Rng, town: &TrueTown, takes: Takes) -> Option<Damage> {
    let mut spots = Vec::new();
    for profile in 0..town.profile_count() {
        spots.extend(spots_of(town, profile, takes));
    }
    (!spots.is_empty()).then_some(())?;
    let spot = &spots[rng.below(spots.len())];
    let bit = 1 << town.cell(spot.profile);
    let arcs = town.arcs_of(spot.profile, spot.givers);
    let last = rng.pick(&arcs);
    let mut flags: Vec<u64> = town.flags.iter().zip(&town.starters).map(|(one, other)| one | other).collect();
    for &arc in arcs.iter().filter(|&&arc| arc != last) {
        flags[arc] &= !bit;
    }
    let still_enough = (spot.alone || arcs.len() == 1).then(|| flags.clone());
    flags[last] &= !bit;
    Some(Damage { flags: Some(flags), still_enough, profiles: Vec::new() })
}

/// Where no road that gives the travel lies inside the cell, so that rule (a) asks for none of the bits. All
/// other roads that start least ways keep theirs: what fails are the ticks at which no others give it.
fn spots_of(town: &TrueTown, profile: usize, takes: Takes) -> Vec<Spot> {
    let cell = town.cell(profile);
    let inner = town.bits_of(profile, |arc| town.is_inner(arc, cell));
    let met = givers_to_the_cell(town, profile);
    let mut spots = Vec::new();
    for (tick, &givers) in town.givers(profile).iter().enumerate() {
        let failing = || met.iter().filter(|met| met.givers & !givers == 0);
        let alone = failing().map(|met| met.count).sum::<usize>() == 1;
        let first = failing().map(|met| met.first).min() == Some((profile, tick));
        let spot = Spot { profile, tick, givers, alone, first };
        if givers != 0 && givers & inner == 0 && takes(town, &spot) {
            spots.push(spot);
        }
    }
    spots
}

fn roads_out<'a>(town: &'a TrueTown, spot: &Spot) -> &'a [usize] {
    &town.arcs_out[town.place(spot.profile).1]
}

/// The profile's value and the travels of all roads out are those of the tick before.
fn goes_on(town: &TrueTown, spot: &Spot) -> bool {
    let stays = |travels: &[u32]| spot.tick > 0 && travels[spot.tick - 1] == travels[spot.tick];
    let mut roads = roads_out(town, spot).iter();
    stays(town.travels(spot.profile)) && roads.all(|&arc| stays(&town.exact.arc_travels[arc]))
}

/// Neither the profile nor a road out has a point then.
fn is_between_points(town: &TrueTown, spot: &Spot) -> bool {
    let of_profile = town.profiles[spot.profile].iter().any(|point| usize::from(point.0) == spot.tick);
    let of_road = |arc: usize| town.network.arcs[arc].points.iter().any(|point| point.tick as usize == spot.tick);
    !of_profile && !roads_out(town, spot).iter().any(|&arc| of_road(arc))
}

/// From the profile's node to all borders of the same cell.
fn givers_to_the_cell(town: &TrueTown, profile: usize) -> Vec<Met> {
    let (cell, node) = (town.cell(profile), town.place(profile).1);
    let alike = |&other: &usize| town.cell(other) == cell && town.place(other).1 == node;
    let with_ticks = |other: usize| town.givers(other).iter().enumerate().map(move |givers| (other, givers));
    let mut all: Vec<Met> = Vec::new();
    for (other, (tick, &givers)) in (0..town.profile_count()).filter(alike).flat_map(with_ticks) {
        match all.iter_mut().find(|met| met.givers == givers) {
            _ if givers == 0 => {}
            Some(met) => met.count += 1,
            None => all.push(Met { givers, count: 1, first: (other, tick) }),
        }
    }
    all
}
