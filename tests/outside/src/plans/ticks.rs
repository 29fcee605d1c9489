//! At which profile and tick a plan is damaged: at the day's first or last tick, or at the first tick, the
//! last, or one inside of a run. A run is a longest stretch of ticks at which a profile, or a road's travel,
//! is the same; it goes on over the day's end.

use super::true_town::TrueTown;
use crate::rng::Rng;

#[derive(Clone, Copy)]
pub enum When {
    FirstTick,
    LastTick,
    Run(Part, Of),
}

#[derive(Clone, Copy)]
pub enum Part {
    First,
    Last,
    Inside,
}

/// Whose run it is: the profile's, that of a road out of its node, or that of a road into its node, whose
/// ticks are those at which it ends.
#[derive(Clone, Copy)]
pub enum Of {
    Profile,
    RoadOut,
    RoadIn,
}

pub const ALL: [(When, &str); 11] = [
    (When::FirstTick, "tick 0"),
    (When::LastTick, "tick P - 1"),
    (When::Run(Part::First, Of::Profile), "the first of a profile's run"),
    (When::Run(Part::Last, Of::Profile), "the last of a profile's run"),
    (When::Run(Part::Inside, Of::Profile), "inside a profile's run"),
    (When::Run(Part::First, Of::RoadOut), "the first of a run of a road out"),
    (When::Run(Part::Last, Of::RoadOut), "the last of a run of a road out"),
    (When::Run(Part::Inside, Of::RoadOut), "inside a run of a road out"),
    (When::Run(Part::First, Of::RoadIn), "the first of a run of a road in"),
    (When::Run(Part::Last, Of::RoadIn), "the last of a run of a road in"),
    (When::Run(Part::Inside, Of::RoadIn), "inside a run of a road in"),
];

const TRIES: usize = 20;

/// A profile for which `wanted`, if a few tries find one.
pub fn some_profile(rng: &mut Rng, town: &TrueTown, wanted: impl Fn(usize) -> bool) -> Option<usize> {
    (0..TRIES).map(|_| rng.below(town.profile_count())).find(|&profile| wanted(profile))
}

/// A profile that is a number and not the border's own.
pub fn some_number(rng: &mut Rng, town: &TrueTown) -> Option<usize> {
    some_profile(rng, town, |profile| !town.is_own(profile) && !town.is_never(profile))
}

/// Such a profile and one of its ticks.
pub fn some_spot(rng: &mut Rng, town: &TrueTown, when: When) -> Option<(usize, usize)> {
    for _ in 0..TRIES {
        let profile = some_number(rng, town)?;
        let ticks = ticks(rng, town, profile, when);
        if !ticks.is_empty() {
            return Some((profile, rng.pick(&ticks)));
        }
    }
    None
}

fn ticks(rng: &mut Rng, town: &TrueTown, profile: usize, when: When) -> Vec<usize> {
    let (_, node) = town.place(profile);
    let arcs = &town.network.arcs;
    match when {
        When::FirstTick => vec![0],
        When::LastTick => vec![town.period() - 1],
        When::Run(part, Of::Profile) => part.ticks(town.travels(profile)),
        When::Run(part, Of::RoadOut) => {
            let out: Vec<usize> = (0..arcs.len()).filter(|&arc| arcs[arc].from == node).collect();
            part.ticks(&town.exact.arc_travels[rng.pick(&out)])
        }
        When::Run(part, Of::RoadIn) => {
            let into: Vec<usize> = (0..arcs.len()).filter(|&arc| arcs[arc].to == node).collect();
            if into.is_empty() {
                return Vec::new();
            }
            let travels = &town.exact.arc_travels[rng.pick(&into)];
            let ends = |tick: usize| (tick + travels[tick] as usize) % town.period();
            part.ticks(travels).into_iter().map(ends).collect()
        }
    }
}

impl Part {
    fn ticks(self, values: &[u32]) -> Vec<usize> {
        let period = values.len();
        let holds = |&tick: &usize| {
            let first = values[(tick + period - 1) % period] != values[tick];
            let last = values[(tick + 1) % period] != values[tick];
            match self {
                Part::First => first,
                Part::Last => last,
                Part::Inside => !first && !last,
            }
        };
        (0..period).filter(holds).collect()
    }
}
