//! Plans damaged on purpose: true but for a profile at one tick, a point, some flags, or several of these at
//! once. What has to come of it is known from what is true of the town.

pub mod features;
mod flags;
mod meant;
pub mod planted;
mod profiles;
mod several;
mod standin;
mod ticks;
mod towns;
mod true_town;

use crate::draft::PlanDraft;
use crate::planner::{plan_of, Points};
use crate::rng::Rng;
use std::rc::Rc;

pub use meant::meant;
pub use true_town::TrueTown;

/// What is changed in a town's exact plan.
#[derive(Clone, Default)]
pub struct Damage {
    /// Profile numbers, and the points put there.
    pub profiles: Vec<(usize, Points)>,
    pub flags: Option<Vec<u64>>,
    /// Flags with one bit more, which are still enough.
    pub still_enough: Option<Vec<u64>>,
}

pub struct Kind {
    pub name: String,
    /// The refusals that it leads to, and a long run has to meet.
    pub gives: &'static [u32],
    /// It changes what one profile says, at one tick alone.
    pub one_tick: bool,
    pub make: Make,
}

/// None where the town has nothing to damage in this way.
type Make = Box<dyn Fn(&mut Rng, &TrueTown) -> Option<Damage>>;

pub fn kinds() -> Vec<Kind> {
    let singles = || profiles::kinds().into_iter().chain(flags::kinds());
    let several = several::kinds(Rc::new(singles().collect()));
    singles().chain(several).collect()
}

impl Damage {
    fn of_profile(profile: usize, points: Points) -> Damage {
        Damage { profiles: vec![(profile, points)], ..Damage::default() }
    }

    /// A profile's points in the damaged plan.
    fn points<'a>(&'a self, town: &'a TrueTown, profile: usize) -> &'a Points {
        let changed = self.profiles.iter().find(|(changed, _)| *changed == profile);
        changed.map_or(&town.profiles[profile], |(_, points)| points)
    }

    /// Both at once, unless they change the same profile.
    fn with(&self, other: &Damage) -> Option<Damage> {
        let changes = |damage: &Damage, profile| damage.profiles.iter().any(|(changed, _)| *changed == profile);
        if self.profiles.iter().any(|(profile, _)| changes(other, *profile)) {
            return None;
        }
        let both = |one: &[u64], other: &[u64]| one.iter().zip(other).map(|(one, other)| one & other).collect();
        let flags = match (&self.flags, &other.flags) {
            (Some(one), Some(other)) => Some(both(one, other)),
            (one, other) => one.as_ref().or(other.as_ref()).cloned(),
        };
        let profiles = self.profiles.iter().chain(&other.profiles).cloned().collect();
        Some(Damage { profiles, flags, still_enough: None })
    }

    pub fn plan(&self, town: &TrueTown) -> PlanDraft {
        let flags = self.flags.as_ref().unwrap_or(&town.flags).clone();
        let profiles: Vec<Points> =
            (0..town.profile_count()).map(|profile| self.points(town, profile).clone()).collect();
        plan_of(&town.network, flags, &profiles)
    }

    /// At how many ticks of how many profiles the plan says something else than what is true.
    pub fn changed_ticks(&self, town: &TrueTown) -> usize {
        let changed = |profile: usize| {
            let values = meant::values(town, self, profile).into_iter().enumerate();
            values.filter(|&(tick, value)| value != town.least(profile, tick)).count()
        };
        self.profiles.iter().map(|(profile, _)| changed(*profile)).sum()
    }
}
