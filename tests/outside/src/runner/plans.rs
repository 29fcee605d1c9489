//! Plans damaged on purpose: each kind of damage once in every town, through the check alone.

use super::{CaseName, Runner};
use crate::compare::{compare_check, Predicted};
use crate::input::Input;
use crate::library::CHECK_ANSWER;
use crate::oracle::judge_plan;
use crate::plans::features::features;
use crate::plans::{kinds, meant, Damage, TrueTown};
use crate::reference::network::Network;
use crate::reference::trips::TripCall;
use crate::reference::{plan, Refusal};
use crate::rng::Rng;

/// A town, and the input that its true plan makes.
struct Ground {
    name: CaseName,
    town: TrueTown,
    opened: Result<Network, Refusal>,
    input: Input,
}

impl Runner {
    pub(super) fn run_plans(&mut self, name: CaseName) {
        let mut rng = Rng::new(self.seed, name.stream());
        let town = TrueTown::generate(&mut rng, name.number);
        let header = town.network.header;
        let call = TripCall { from: 0, to: 0, departure: rng.below(header.period as usize) as u32 };
        let plan = Damage::default().plan(&town).file();
        let input = Input::roomy(town.file.clone(), plan, call, header.table_lengths(), rng.below(3));
        let ground = Ground { name, opened: Ok(town.network.clone()), town, input };
        self.true_plan(&ground);
        self.short_answer(&ground, rng.below(CHECK_ANSWER));
        for (number, kind) in kinds().iter().enumerate() {
            if let Some(damage) = (kind.make)(&mut rng, &ground.town) {
                let changed = damage.changed_ticks(&ground.town);
                if kind.one_tick && changed != 1 {
                    self.trial(name, kind.name.clone()).differ(&format!("{changed} ticks are changed"));
                }
                self.damaged_plan(&ground, (number, &kind.name), &damage);
            }
        }
    }

    fn true_plan(&mut self, ground: &Ground) {
        self.checked(ground, None, "true", &Damage::default(), Some(None));
        let small = ground.town.period() * ground.town.network.nodes() <= 60;
        if small && ground.name.number.is_multiple_of(4) {
            let plan = plan::open(&ground.town.network, &ground.input.plan).expect("the true plan is well-formed");
            if let Some(text) = judge_plan(&ground.town.network, &plan) {
                self.trial(ground.name, "true".to_string()).differ(&text);
            }
        }
    }

    fn short_answer(&mut self, ground: &Ground, length: usize) {
        let mut input = ground.input.clone();
        input.lengths.check_answer = length;
        let checked = compare_check(self.functions, &input, &ground.opened);
        let mut trial = self.trial(ground.name, format!("an answer of {length}"));
        for text in &checked.differences {
            trial.differ(text);
        }
    }

    fn damaged_plan(&mut self, ground: &Ground, kind: (usize, &str), damage: &Damage) {
        let (number, what) = kind;
        if let Some(flags) = &damage.still_enough {
            let enough = Damage { flags: Some(flags.clone()), ..Damage::default() };
            self.checked(ground, None, &format!("{what}, still enough"), &enough, Some(None));
        }
        self.checked(ground, Some(number), what, damage, meant(&ground.town, damage));
    }

    /// The check of a plan of the town's, and what is meant to come of it, if that is known.
    fn checked(&mut self, ground: &Ground, kind: Option<usize>, what: &str, damage: &Damage, meant: Option<Predicted>) {
        let input = Input { plan: damage.plan(&ground.town).file(), ..ground.input.clone() };
        let checked = compare_check(self.functions, &input, &ground.opened);
        let mut trial = self.trial(ground.name, what.to_string());
        for text in &checked.differences {
            trial.differ(text);
        }
        if meant.is_some_and(|meant| meant != checked.refused) {
            trial.differ(&format!("the reference gives {:?}, meant {meant:?}", checked.refused));
        }
        let verdict = checked.refused.map_or(0, |refusal| refusal.number);
        self.coverage.plans.met(kind, features(&ground.town), verdict);
        if let Some((finds, bounds)) = checked.finds {
            self.coverage.finds.met(verdict, finds, bounds);
        }
    }
}
