//! Faults in a plan's header numbers, flags and profiles: refusals 13, 14 and 17 to 24.

use super::Intended::{Any, Gives};
use super::{tables, Fault, Kind};
use crate::case::Case;
use crate::generate::Size;
use crate::library::CHECK;
use crate::planner::{at_every_tick, exact_plan, work};
use crate::reference::line::{travel_at, Point};
use crate::reference::plan::borders;
use crate::rng::Rng;

pub fn kinds() -> Vec<Kind> {
    vec![
        Kind { name: "plan header unlike the network's", intended: Gives(CHECK, &[14]), make: header_unlike },
        Kind { name: "plan's zero bits set", intended: Gives(CHECK, &[13]), make: zero_bits_set },
        Kind { name: "too many profile points", intended: Gives(CHECK, &[14]), make: too_many_points },
        Kind { name: "profile points one off", intended: Any, make: points_one_off },
        Kind { name: "plan of another town", intended: Any, make: other_towns_plan },
        Kind { name: "flag at K or above", intended: Gives(CHECK, &[17]), make: flag_beyond },
        Kind { name: "rule (a) bit cleared", intended: Gives(CHECK, &[20]), make: rule_a_cleared },
        Kind { name: "one flag cleared", intended: Any, make: flag_cleared },
        Kind { name: "one crossing flag cleared", intended: Any, make: crossing_flag_cleared },
        Kind { name: "one flag set", intended: Gives(CHECK, &[0]), make: flag_set },
        Kind { name: "an arc's flags cleared", intended: Any, make: arc_flags_cleared },
        Kind { name: "all flags cleared", intended: Any, make: all_flags_cleared },
        Kind { name: "flags at random", intended: Any, make: flags_at_random },
        Kind { name: "profile of more than P points", intended: Gives(CHECK, &[18]), make: count_above_period },
        Kind { name: "profile point uncounted", intended: Gives(CHECK, &[18]), make: point_uncounted },
        Kind { name: "profile point moved to the next", intended: Any, make: count_moved },
        Kind { name: "profile's first tick not 0", intended: Gives(CHECK, &[19]), make: first_tick },
        Kind { name: "profile's tick not rising", intended: Gives(CHECK, &[19]), make: tick_not_rising },
        Kind { name: "profile's tick at P or above", intended: Gives(CHECK, &[19]), make: tick_at_period },
        Kind { name: "border's own profile not 0", intended: Gives(CHECK, &[21]), make: own_not_zero },
        Kind { name: "border's own profile never", intended: Gives(CHECK, &[21]), make: own_never },
        Kind { name: "profile one more at one tick", intended: Gives(CHECK, &[21, 22]), make: one_more },
        Kind { name: "profile one less at one tick", intended: Gives(CHECK, &[22, 23]), make: one_less },
        Kind { name: "profile made never", intended: Gives(CHECK, &[21, 22]), make: made_never },
        Kind { name: "never made a number", intended: Gives(CHECK, &[22, 23]), make: never_made_number },
        Kind { name: "profile made huge", intended: Gives(CHECK, &[21, 22, 23]), make: made_huge },
        Kind { name: "all profiles to a border one more", intended: Gives(CHECK, &[21]), make: all_one_more },
        Kind { name: "all but the border's one more", intended: Any, make: all_others_one_more },
        Kind { name: "a profile's point dropped", intended: Any, make: point_dropped },
        Kind { name: "profiles at random", intended: Any, make: profiles_at_random },
        Kind { name: "two profiles exchanged", intended: Any, make: profiles_exchanged },
    ]
}

/// A profile of the case's plan, as the case holds it.
fn profile(case: &Case, number: usize) -> Vec<Point> {
    let plan = &case.drafts.plan;
    let first = plan.first_point(number);
    (first..first + usize::from(plan.counts[number]))
        .map(|point| Point { tick: u32::from(plan.ticks[point]), travel: plan.travels[point] })
        .collect()
}

/// The profile's travel at every tick.
fn travels(case: &Case, number: usize) -> Vec<u32> {
    let period = case.network.header.period;
    let points = profile(case, number);
    (0..u64::from(period)).map(|tick| travel_at(&points, tick, period) as u32).collect()
}

/// A profile for which `wanted` holds of its count of points, if a few tries find one.
fn some_profile(rng: &mut Rng, case: &Case, wanted: fn(u16) -> bool) -> Option<usize> {
    let counts = &case.drafts.plan.counts;
    (!counts.is_empty()).then_some(())?;
    (0..20).map(|_| rng.below(counts.len())).find(|&profile| wanted(counts[profile]))
}

/// The number of a border's profile of itself.
fn some_own_profile(rng: &mut Rng, case: &Case) -> Option<usize> {
    let borders = borders(&case.network);
    (!borders.is_empty()).then_some(())?;
    let index = rng.below(borders.len());
    Some(index * case.network.nodes() + borders[index])
}

/// Room for `more` profile points beside those of the case.
fn has_room(case: &Case, more: usize) -> bool {
    case.drafts.plan.ticks.len() + more <= 1_048_576
}

fn header_unlike(rng: &mut Rng, _case: &Case) -> Option<Fault> {
    let choice = rng.below(6);
    let bit = rng.below(16);
    let high_bit = rng.below(32);
    tables(move |drafts| {
        let header = &mut drafts.plan.header;
        match choice {
            0 => header.number ^= 1 << high_bit,
            1 => header.period ^= 1 << bit,
            2 => header.nodes ^= 1 << bit,
            3 => header.arcs ^= 1 << bit,
            4 => header.cells ^= 1 << bit,
            _ => header.borders ^= 1 << bit,
        }
    })
}

fn zero_bits_set(rng: &mut Rng, _case: &Case) -> Option<Fault> {
    let zero = rng.pick(&[1, 256, 0x8000, u16::MAX]);
    tables(move |drafts| drafts.plan.header.zero = zero)
}

fn too_many_points(rng: &mut Rng, _case: &Case) -> Option<Fault> {
    let points = rng.pick(&[1_048_577, 0x8000_0000, u32::MAX]);
    tables(move |drafts| drafts.plan.header.points = points)
}

fn points_one_off(rng: &mut Rng, _case: &Case) -> Option<Fault> {
    let up = rng.once_in(2);
    tables(move |drafts| {
        let points = &mut drafts.plan.header.points;
        *points = if up { points.wrapping_add(1) } else { points.saturating_sub(1) };
    })
}

/// An exact plan, but for a town that differs in its arcs' travels, under this network's number.
fn other_towns_plan(rng: &mut Rng, case: &Case) -> Option<Fault> {
    let mut other = if rng.once_in(2) { crate::case::generate(rng, Size::Small).network } else { case.network.clone() };
    for arc in &mut other.arcs {
        arc.points.truncate(1);
    }
    (work(&other) < 100_000).then_some(())?;
    let mut plan = exact_plan(rng, &other)?;
    plan.header.number = case.network.header.number;
    tables(move |drafts| drafts.plan = plan.clone())
}

fn flag_beyond(rng: &mut Rng, case: &Case) -> Option<Fault> {
    let cells = case.network.header.cells as usize;
    let arcs = case.network.arcs.len();
    (cells < 64 && arcs > 0).then_some(())?;
    let arc = rng.below(arcs);
    let bit = rng.pick(&[cells, (cells + 63) / 2, 63]);
    flags_changed(arc, move |word| word | 1 << bit)
}

/// Changes one arc's flag word. Beside another fault the plan may be another town's and have no such arc.
fn flags_changed(arc: usize, change: impl Fn(u64) -> u64 + 'static) -> Option<Fault> {
    tables(move |drafts| {
        if let Some(word) = drafts.plan.flags.get_mut(arc) {
            *word = change(*word);
        }
    })
}

fn rule_a_cleared(rng: &mut Rng, case: &Case) -> Option<Fault> {
    let network = &case.network;
    let inside: Vec<usize> = (0..network.arcs.len())
        .filter(|&arc| network.cell_of[network.arcs[arc].from] == network.cell_of[network.arcs[arc].to])
        .collect();
    (!inside.is_empty()).then_some(())?;
    let arc = rng.pick(&inside);
    let bit = network.cell_of[network.arcs[arc].from];
    flags_changed(arc, move |word| word & !(1 << bit))
}

/// A set bit of the case's flags for which `wanted` holds, if there is one.
fn some_flag(rng: &mut Rng, case: &Case, wanted: impl Fn(usize, u32) -> bool) -> Option<(usize, u32)> {
    let flags = &case.drafts.plan.flags;
    let set: Vec<(usize, u32)> = (0..flags.len())
        .flat_map(|arc| (0..64).map(move |bit| (arc, bit)))
        .filter(|&(arc, bit)| flags[arc] >> bit & 1 == 1 && wanted(arc, bit))
        .collect();
    (!set.is_empty()).then(|| rng.pick(&set))
}

fn flag_cleared(rng: &mut Rng, case: &Case) -> Option<Fault> {
    let (arc, bit) = some_flag(rng, case, |_, _| true)?;
    flags_changed(arc, move |word| word & !(1 << bit))
}

/// A bit that rule (a) does not ask for: its loss can show only as 24.
fn crossing_flag_cleared(rng: &mut Rng, case: &Case) -> Option<Fault> {
    let network = &case.network;
    let (arc, bit) = some_flag(rng, case, |arc, bit| {
        let arc = &network.arcs[arc];
        network.cell_of[arc.from] != network.cell_of[arc.to] || network.cell_of[arc.to] != bit as usize
    })?;
    flags_changed(arc, move |word| word & !(1 << bit))
}

fn flag_set(rng: &mut Rng, case: &Case) -> Option<Fault> {
    let arcs = case.network.arcs.len();
    (arcs > 0).then_some(())?;
    let arc = rng.below(arcs);
    let bit = rng.below(case.network.header.cells as usize);
    flags_changed(arc, move |word| word | 1 << bit)
}

fn arc_flags_cleared(rng: &mut Rng, case: &Case) -> Option<Fault> {
    let arcs = case.network.arcs.len();
    (arcs > 0).then_some(())?;
    let arc = rng.below(arcs);
    flags_changed(arc, |_| 0)
}

fn all_flags_cleared(_rng: &mut Rng, _case: &Case) -> Option<Fault> {
    tables(|drafts| drafts.plan.flags.fill(0))
}

/// Well-formed, enough only by chance: the flagged trip has to be least over what is left.
fn flags_at_random(rng: &mut Rng, case: &Case) -> Option<Fault> {
    let below_count = u64::MAX >> (64 - case.network.header.cells);
    let words: Vec<u64> = case.network.arcs.iter().map(|_| (rng.next() | rng.next()) & below_count).collect();
    tables(move |drafts| drafts.plan.flags.clone_from(&words))
}

fn count_above_period(rng: &mut Rng, case: &Case) -> Option<Fault> {
    let profile = some_profile(rng, case, |_| true)?;
    let count = rng.pick(&[case.network.header.period as u16 + 1, 2_881, u16::MAX]);
    tables(move |drafts| {
        if let Some(kept) = drafts.plan.counts.get_mut(profile) {
            *kept = count;
        }
    })
}

fn point_uncounted(_rng: &mut Rng, case: &Case) -> Option<Fault> {
    has_room(case, 1).then_some(())?;
    tables(|drafts| {
        drafts.plan.ticks.push(0);
        drafts.plan.travels.push(1);
        drafts.plan.header.points = drafts.plan.header.points.wrapping_add(1);
    })
}

fn count_moved(rng: &mut Rng, case: &Case) -> Option<Fault> {
    let giver = some_profile(rng, case, |count| count > 0)?;
    let forwards = rng.once_in(2);
    let taker = if forwards { giver + 1 } else { giver.checked_sub(1)? };
    (taker < case.drafts.plan.counts.len()).then_some(())?;
    tables(move |drafts| {
        let counts = &mut drafts.plan.counts;
        if giver.max(taker) < counts.len() {
            counts[giver] = counts[giver].wrapping_sub(1);
            counts[taker] = counts[taker].wrapping_add(1);
        }
    })
}

fn first_tick(rng: &mut Rng, case: &Case) -> Option<Fault> {
    let profile = some_profile(rng, case, |count| count > 0)?;
    let point = case.drafts.plan.first_point(profile);
    let tick = rng.pick(&[1, case.network.header.period as u16, u16::MAX]);
    tables(move |drafts| {
        if let Some(kept) = drafts.plan.ticks.get_mut(point) {
            *kept = tick;
        }
    })
}

fn some_later_point(rng: &mut Rng, case: &Case) -> Option<usize> {
    let profile = some_profile(rng, case, |count| count > 1)?;
    let count = usize::from(case.drafts.plan.counts[profile]);
    Some(case.drafts.plan.first_point(profile) + rng.within(1, count - 1))
}

fn tick_not_rising(rng: &mut Rng, case: &Case) -> Option<Fault> {
    let point = some_later_point(rng, case)?;
    let falling = rng.once_in(2);
    tables(move |drafts| {
        let ticks = &mut drafts.plan.ticks;
        if point < ticks.len() {
            let before = ticks[point - 1];
            ticks[point] = if falling { before.saturating_sub(1) } else { before };
        }
    })
}

fn tick_at_period(rng: &mut Rng, case: &Case) -> Option<Fault> {
    let point = some_later_point(rng, case)?;
    let period = case.network.header.period as u16;
    let tick = rng.pick(&[period, period + 1, u16::MAX]);
    tables(move |drafts| {
        if let Some(kept) = drafts.plan.ticks.get_mut(point) {
            *kept = tick;
        }
    })
}

/// Puts these points in a profile's place. Beside another fault the plan may be another town's.
fn replaced(profile: usize, points: Vec<(u16, u32)>) -> Option<Fault> {
    tables(move |drafts| {
        let plan = &mut drafts.plan;
        let fits = profile < plan.counts.len()
            && plan.first_point(profile) + usize::from(plan.counts[profile]) <= plan.ticks.len();
        if fits {
            plan.replace_profile(profile, &points);
        }
    })
}

fn own_not_zero(rng: &mut Rng, case: &Case) -> Option<Fault> {
    let profile = some_own_profile(rng, case)?;
    let tick = rng.below(case.network.header.period as usize);
    let mut travels = travels(case, profile);
    travels[tick] = rng.pick(&[1, 2, case.network.header.period, u32::MAX]);
    has_room(case, travels.len()).then_some(())?;
    replaced(profile, at_every_tick(&travels))
}

fn own_never(rng: &mut Rng, case: &Case) -> Option<Fault> {
    replaced(some_own_profile(rng, case)?, Vec::new())
}

/// One travel of a profile moved at one tick, a point at every tick so that no other moves.
fn moved_at_one_tick(rng: &mut Rng, case: &Case, up: bool) -> Option<Fault> {
    let profile = some_profile(rng, case, |count| count > 0)?;
    let mut travels = travels(case, profile);
    has_room(case, travels.len()).then_some(())?;
    let tick = rng.below(travels.len());
    travels[tick] = if up { travels[tick] + 1 } else { travels[tick].checked_sub(1)? };
    replaced(profile, at_every_tick(&travels))
}

fn one_more(rng: &mut Rng, case: &Case) -> Option<Fault> {
    moved_at_one_tick(rng, case, true)
}

fn one_less(rng: &mut Rng, case: &Case) -> Option<Fault> {
    moved_at_one_tick(rng, case, false)
}

fn made_never(rng: &mut Rng, case: &Case) -> Option<Fault> {
    replaced(some_profile(rng, case, |count| count > 0)?, Vec::new())
}

fn never_made_number(rng: &mut Rng, case: &Case) -> Option<Fault> {
    let profile = some_profile(rng, case, |count| count == 0)?;
    has_room(case, 1).then_some(())?;
    let travel = rng.pick(&[0, 1, case.network.header.period, u32::MAX - 1, u32::MAX]);
    replaced(profile, vec![(0, travel)])
}

/// Travels whose sum with an arc's travel passes 32 bits.
fn made_huge(rng: &mut Rng, case: &Case) -> Option<Fault> {
    let profile = some_profile(rng, case, |count| count > 0)?;
    let mut travels = travels(case, profile);
    has_room(case, travels.len()).then_some(())?;
    let from = rng.below(travels.len());
    let huge = rng.pick(&[u32::MAX, u32::MAX - 1, 0x8000_0000, 0xFFFF_0000]);
    travels[from..].fill(huge);
    replaced(profile, at_every_tick(&travels))
}

/// Every profile to one border one more, its own too or not.
fn raised(rng: &mut Rng, case: &Case, own_too: bool) -> Option<Fault> {
    let own = some_own_profile(rng, case)?;
    let nodes = case.network.nodes();
    let first = own / nodes * nodes;
    tables(move |drafts| {
        let plan = &mut drafts.plan;
        for profile in (first..first + nodes).filter(|&profile| own_too || profile != own) {
            if profile >= plan.counts.len() {
                return;
            }
            let start = plan.first_point(profile);
            let end = start + usize::from(plan.counts[profile]);
            for travel in plan.travels.iter_mut().take(end).skip(start) {
                *travel = travel.saturating_add(1);
            }
        }
    })
}

fn all_one_more(rng: &mut Rng, case: &Case) -> Option<Fault> {
    raised(rng, case, true)
}

fn all_others_one_more(rng: &mut Rng, case: &Case) -> Option<Fault> {
    raised(rng, case, false)
}

fn point_dropped(rng: &mut Rng, case: &Case) -> Option<Fault> {
    let number = some_profile(rng, case, |count| count > 1)?;
    let mut points: Vec<(u16, u32)> =
        profile(case, number).iter().map(|point| (point.tick as u16, point.travel)).collect();
    points.remove(rng.within(1, points.len() - 1));
    replaced(number, points)
}

/// Well-formed, true only by chance, rule 21 kept: other tests fail all over the town.
fn profiles_at_random(rng: &mut Rng, case: &Case) -> Option<Fault> {
    let period = case.network.header.period as usize;
    let nodes = case.network.nodes();
    let counts = &case.drafts.plan.counts;
    (counts.len() <= 512).then_some(())?;
    let borders = borders(&case.network);
    let most_travel = rng.spread(1, 2 * period) as u32;
    let points: Vec<Vec<(u16, u32)>> = (0..counts.len())
        .map(|profile| match profile % nodes {
            node if node == borders[profile / nodes] => vec![(0, 0)],
            _ if counts[profile] == 0 => Vec::new(),
            _ => vec![(0, rng.within(1, most_travel as usize) as u32)],
        })
        .collect();
    tables(move |drafts| {
        let plan = &mut drafts.plan;
        plan.counts = points.iter().map(|profile| profile.len() as u16).collect();
        plan.ticks = points.iter().flatten().map(|point| point.0).collect();
        plan.travels = points.iter().flatten().map(|point| point.1).collect();
        plan.header.points = plan.ticks.len() as u32;
    })
}

fn profiles_exchanged(rng: &mut Rng, case: &Case) -> Option<Fault> {
    let one = some_profile(rng, case, |count| count > 0)?;
    let other = some_profile(rng, case, |_| true)?;
    let as_points = |number| -> Vec<(u16, u32)> {
        profile(case, number).iter().map(|point| (point.tick as u16, point.travel)).collect()
    };
    let (of_one, of_other) = (as_points(one), as_points(other));
    let least = one.max(other);
    tables(move |drafts| {
        let plan = &mut drafts.plan;
        let fits = least < plan.counts.len()
            && plan.counts.iter().map(|&count| usize::from(count)).sum::<usize>() == plan.ticks.len();
        if fits {
            plan.replace_profile(one, &of_other);
            plan.replace_profile(other, &of_one);
        }
    })
}
