//! Damage in one profile: its value moved at one tick, a point dropped, a line bent, numbers close to the
//! largest there is, no points at all, and a border's own profile that is not 0.

use super::ticks::{self, some_number, some_profile, some_spot, When};
use super::true_town::TrueTown;
use super::{Damage, Kind, Make};
use crate::planner::{few_points, lines_through, Points};
use crate::rng::Rng;

pub fn kinds() -> Vec<Kind> {
    let kind = |name: &str, gives, one_tick, make: Make| Kind { name: name.to_string(), gives, one_tick, make };
    let mut kinds = Vec::new();
    for (when, name) in ticks::ALL {
        let more = Box::new(move |rng: &mut Rng, town: &TrueTown| moved(rng, town, when, true));
        let less = Box::new(move |rng: &mut Rng, town: &TrueTown| moved(rng, town, when, false));
        kinds.push(kind(&format!("one more, {name}"), &[22], true, more));
        kinds.push(kind(&format!("one less, {name}"), &[22, 23], true, less));
    }
    kinds.extend([
        kind("a point dropped between close ones", &[22, 23], true, Box::new(dropped_between)),
        kind("the day's last point dropped", &[22, 23], true, Box::new(last_dropped)),
        kind("a point dropped, one tick moves", &[22, 23], true, Box::new(dropped_for_one_tick)),
        kind("a first point moved, and the day's last line", &[22, 23], false, Box::new(first_point_moved)),
        kind("a point raised as far as can be", &[22], false, Box::new(point_raised)),
        kind("a point lowered to 0", &[22, 23], false, Box::new(point_lowered)),
        kind("nearly 2^32 at one tick", &[22], true, Box::new(huge_at_one_tick)),
        kind("nearly 2^32 in place of never", &[22, 23], false, Box::new(huge_for_never)),
        kind("nearly 2^32 at both ends of a road", &[22, 23], false, Box::new(huge_at_both_ends)),
        kind("right or less if 32 bits held the sum", &[22, 23], false, Box::new(right_in_32_bits)),
        kind("never where a road gives a number", &[22], false, Box::new(never_for_a_number)),
        kind("a border's own not 0 at tick 0", &[21], true, Box::new(own_at_first_tick)),
        kind("a border's own not 0 at tick P - 1", &[21], true, Box::new(own_at_last_tick)),
        kind("a border's own not 0 at some tick", &[21], true, Box::new(own_at_some_tick)),
        kind("a border's own, a line that reaches 1", &[21], false, Box::new(own_reaches_one)),
        kind("a border's own, a steep line", &[21], false, Box::new(own_steep)),
        kind("a border's own never", &[21], false, Box::new(own_never)),
    ]);
    kinds
}

/// The profile with this value at one tick. Its points stay, and as few as can be come in between.
fn with_value(town: &TrueTown, profile: usize, tick: usize, value: u32) -> Damage {
    let mut travels = town.travels(profile).to_vec();
    travels[tick] = value;
    Damage::of_profile(profile, lines_through(&travels, &ticks_with(&town.profiles[profile], &[tick])))
}

/// The ticks of these points, and more.
fn ticks_with(points: &Points, more: &[usize]) -> Vec<usize> {
    let ticks = points.iter().map(|point| usize::from(point.0));
    let mut ticks: Vec<usize> = ticks.chain(more.iter().copied()).collect();
    ticks.sort();
    ticks.dedup();
    ticks
}

fn moved(rng: &mut Rng, town: &TrueTown, when: When, up: bool) -> Option<Damage> {
    let (profile, tick) = some_spot(rng, town, when)?;
    let travel = town.travels(profile)[tick];
    Some(with_value(town, profile, tick, if up { travel + 1 } else { travel - 1 }))
}

/// A tick of a profile at which the line from the tick before to the tick after would be wrong.
fn dropped_at(rng: &mut Rng, town: &TrueTown, wanted: impl Fn(usize) -> bool) -> Option<Damage> {
    let profile = some_number(rng, town)?;
    let travels = town.travels(profile);
    let period = travels.len();
    let line_errs = |&tick: &usize| (travels[tick - 1] + travels[(tick + 1) % period]).div_ceil(2) != travels[tick];
    let ticks: Vec<usize> = (1..period).filter(line_errs).filter(|&tick| wanted(tick)).collect();
    (!ticks.is_empty()).then_some(())?;
    let tick = rng.pick(&ticks);
    let kept = ticks_with(&town.profiles[profile], &[tick - 1, tick, (tick + 1) % period]);
    let mut points = lines_through(travels, &kept);
    points.retain(|point| usize::from(point.0) != tick);
    Some(Damage::of_profile(profile, points))
}

fn dropped_between(rng: &mut Rng, town: &TrueTown) -> Option<Damage> {
    dropped_at(rng, town, |_| true)
}

fn last_dropped(rng: &mut Rng, town: &TrueTown) -> Option<Damage> {
    let last = town.period() - 1;
    dropped_at(rng, town, |tick| tick == last)
}

/// A point whose neighbours may be far, and whose loss still shows at one tick alone.
fn dropped_for_one_tick(rng: &mut Rng, town: &TrueTown) -> Option<Damage> {
    let profile = some_number(rng, town)?;
    let points = if rng.once_in(2) { town.profiles[profile].clone() } else { few_points(town.travels(profile)) };
    let without = |place: usize| {
        let mut points = points.clone();
        points.remove(place);
        Damage::of_profile(profile, points)
    };
    let first = rng.below(points.len());
    let some = (first..points.len()).take(40).filter(|&place| place > 0);
    some.map(without).find(|damage| damage.changed_ticks(town) == 1)
}

/// The line from the last point runs on to the next day's first, so it bends too.
fn first_point_moved(rng: &mut Rng, town: &TrueTown) -> Option<Damage> {
    let profile = some_number(rng, town)?;
    let mut points = town.profiles[profile].clone();
    points[0].1 = if rng.once_in(2) { points[0].1 + 1 } else { points[0].1 - 1 };
    Some(Damage::of_profile(profile, points))
}

/// A point of the profile, or one put in, gets this travel; the lines to it bend.
fn bent(rng: &mut Rng, town: &TrueTown, travel: u32) -> Option<Damage> {
    let profile = some_number(rng, town)?;
    let put_in = rng.once_in(2).then(|| rng.below(town.period()));
    let kept = ticks_with(&town.profiles[profile], put_in.as_slice());
    let mut points = lines_through(town.travels(profile), &kept);
    let place = rng.below(points.len());
    points[place].1 = travel;
    Some(Damage::of_profile(profile, points))
}

fn point_raised(rng: &mut Rng, town: &TrueTown) -> Option<Damage> {
    let travel = huge(rng);
    bent(rng, town, travel)
}

fn point_lowered(rng: &mut Rng, town: &TrueTown) -> Option<Damage> {
    bent(rng, town, 0)
}

fn huge(rng: &mut Rng) -> u32 {
    let below = rng.pick(&[1, 1, 2, 3_000]);
    u32::MAX - rng.below(below) as u32
}

fn huge_at_one_tick(rng: &mut Rng, town: &TrueTown) -> Option<Damage> {
    let profile = some_number(rng, town)?;
    let tick = rng.below(town.period());
    let travel = huge(rng);
    Some(with_value(town, profile, tick, travel))
}

fn some_never(rng: &mut Rng, town: &TrueTown) -> Option<usize> {
    some_profile(rng, town, |profile| town.is_never(profile))
}

fn huge_for_never(rng: &mut Rng, town: &TrueTown) -> Option<Damage> {
    let profile = some_never(rng, town)?;
    let mut points = vec![(0, huge(rng))];
    if town.period() > 1 && rng.once_in(2) {
        points.push((rng.within(1, town.period() - 1) as u16, huge(rng)));
    }
    Some(Damage::of_profile(profile, points))
}

/// In place of never at both: the start says what 32 bits would hold of the sum, or the most they can hold.
fn huge_at_both_ends(rng: &mut Rng, town: &TrueTown) -> Option<Damage> {
    let start =
        some_profile(rng, town, |profile| town.is_never(profile) && !town.arcs_of(profile, u64::MAX).is_empty())?;
    let (index, node) = town.place(start);
    let arc = rng.pick(&town.arcs_out[node]);
    let end = index * town.network.nodes() + town.network.arcs[arc].to;
    let (travel, huge) = (town.exact.arc_travels[arc][0], huge(rng));
    let sum = if rng.once_in(2) { huge.wrapping_add(travel) } else { huge.saturating_add(travel) };
    Damage::of_profile(start, vec![(0, sum)]).with(&Damage::of_profile(end, vec![(0, huge)]))
}

/// An end's profile so large that the sum, cut to 32 bits, would be what the start's profile says, or less.
fn right_in_32_bits(rng: &mut Rng, town: &TrueTown) -> Option<Damage> {
    let never_too = rng.once_in(2);
    let start = some_number(rng, town)?;
    let (index, node) = town.place(start);
    let arc = rng.pick(&town.arcs_out[node]);
    let end = index * town.network.nodes() + town.network.arcs[arc].to;
    (!town.is_own(end) && (never_too || !town.is_never(end))).then_some(())?;
    let travels = &town.exact.arc_travels[arc];
    let slow: Vec<usize> = (0..travels.len()).filter(|&tick| travels[tick] > town.travels(start)[tick]).collect();
    (!slow.is_empty()).then_some(())?;
    let tick = rng.pick(&slow);
    let value = (town.travels(start)[tick].wrapping_sub(travels[tick])).wrapping_sub(rng.below(2) as u32);
    if town.is_never(end) {
        return Some(Damage::of_profile(end, vec![(0, value)]));
    }
    Some(with_value(town, end, (tick + travels[tick] as usize) % travels.len(), value))
}

fn never_for_a_number(rng: &mut Rng, town: &TrueTown) -> Option<Damage> {
    Some(Damage::of_profile(some_number(rng, town)?, Vec::new()))
}

fn some_own(rng: &mut Rng, town: &TrueTown) -> usize {
    let index = rng.below(town.exact.least.len());
    index * town.network.nodes() + town.exact.least[index].border
}

fn own_at(rng: &mut Rng, town: &TrueTown, tick: usize) -> Option<Damage> {
    let value = rng.pick(&[1, 1, town.network.header.period, 1 << 16, 1 << 31, u32::MAX]);
    Some(with_value(town, some_own(rng, town), tick, value))
}

fn own_at_first_tick(rng: &mut Rng, town: &TrueTown) -> Option<Damage> {
    own_at(rng, town, 0)
}

fn own_at_last_tick(rng: &mut Rng, town: &TrueTown) -> Option<Damage> {
    own_at(rng, town, town.period() - 1)
}

fn own_at_some_tick(rng: &mut Rng, town: &TrueTown) -> Option<Damage> {
    let tick = rng.below(town.period());
    own_at(rng, town, tick)
}

/// Rounded up it is 1 as soon as the line leaves 0, long before it gets there, and up to the day's end.
fn own_reaches_one(rng: &mut Rng, town: &TrueTown) -> Option<Damage> {
    (town.period() > 1).then_some(())?;
    let tick = rng.within(1, town.period() - 1);
    let before = rng.below(tick);
    let flat = (before > 0).then_some((before as u16, 0));
    let points = [(0, 0)].into_iter().chain(flat).chain([(tick as u16, 1)]);
    Some(Damage::of_profile(some_own(rng, town), points.collect()))
}

/// It is not 0 before the tick at which the lines meet, and after it.
fn own_steep(rng: &mut Rng, town: &TrueTown) -> Option<Damage> {
    (town.period() > 1).then_some(())?;
    let tick = rng.within(1, town.period() - 1);
    let travel = rng.pick(&[2, 3, town.network.header.period, u32::MAX]);
    Some(Damage::of_profile(some_own(rng, town), vec![(0, 0), (tick as u16, travel)]))
}

fn own_never(rng: &mut Rng, town: &TrueTown) -> Option<Damage> {
    Some(Damage::of_profile(some_own(rng, town), Vec::new()))
}
