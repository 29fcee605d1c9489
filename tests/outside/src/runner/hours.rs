//! Towns with hours: all their trips where they are small, rows whose outcome is known, and the same town
//! with other hours, which must not matter to trips, verdicts and plans.

use super::{CaseName, Runner};
use crate::case::{of_town, Case};
use crate::compare::Verdict;
use crate::generate::Size;
use crate::hours::rows::rows;
use crate::hours::towns::{hall_town, with_other_hours};
use crate::input::Input;
use crate::library::{ON_NETWORKS, OPERATIONS, PACK};
use crate::reference::network::{self, Network};
use crate::reference::trips::{flagged_trip, plain_trip, Arrived, ListLengths, Trip, TripCall};
use crate::reference::Refusal;
use crate::rng::Rng;

const ANY_LIST: ListLengths = ListLengths { arrivals: 512, roads: 512 };

/// All trips are tried where there are at most so many.
const MOST_TRIPS: usize = 400;

impl Runner {
    pub(super) fn run_hours(&mut self, name: CaseName) {
        let mut rng = Rng::new(self.seed, name.stream());
        let draft = hall_town(&mut rng, name.number);
        let case = of_town(&mut rng, draft, Size::Small);
        let input = case.input(&case.drafts);
        let verdict = self.valid_hours(name, &case, &input);
        if !self.is_found() {
            self.open_ticks(name, &case, &input, &verdict);
        }
        self.rows_of_hours(name, &mut rng, &case);
        if !self.is_found() {
            self.other_hours(name, &mut rng, &case, &verdict);
        }
    }

    /// No operation refuses the town, and what opens packs to the same bytes.
    fn valid_hours(&mut self, name: CaseName, case: &Case, input: &Input) -> Verdict {
        let mut trial = self.trial(name, "valid".to_string());
        let verdict = trial.compare(input, false);
        for (operation, predicted) in verdict.predicted.iter().enumerate() {
            if let Some(refusal) = predicted {
                trial.differ(&format!("{}: the reference gives {refusal:?}", OPERATIONS[operation]));
            }
        }
        let packed = network::pack(&case.network.header, &case.network.tables, input.network.len());
        if packed.as_ref() != Ok(&input.network) {
            trial.differ("the reference packs other bytes than it opened");
        }
        verdict
    }

    /// All trips of a small town, their open ticks worked out once more.
    fn open_ticks(&mut self, name: CaseName, case: &Case, input: &Input, verdict: &Verdict) {
        let calls = all_calls(&case.network);
        let calls = if calls.len() <= MOST_TRIPS { calls } else { vec![case.call] };
        let all = calls.len() > 1;
        let mut trial = self.trial(name, "open ticks".to_string());
        if all {
            trial.compare_all_trips(input, verdict);
        }
        for call in calls {
            if let Ok(arrived) = plain_trip(&case.network, call, ANY_LIST).answer {
                let by_day = open_by_day(&case.network, call.to as usize, arrived.tick);
                if by_day != arrived.open {
                    trial.differ(&format!("{call:?}: the reference opens at {}, by the day {by_day}", arrived.open));
                }
                trial.runner.coverage.hours.met(&case.network, call, &arrived);
            }
        }
    }

    fn rows_of_hours(&mut self, name: CaseName, rng: &mut Rng, case: &Case) {
        for row in rows(rng, case) {
            if self.is_found() {
                return;
            }
            let mut trial = self.trial(name, row.name);
            let verdict = trial.compare(&row.input, false);
            let given = verdict.predicted[row.operation];
            let wanted = row.wanted.map(|(number, place)| Refusal { number, places: [place, 0, 0] });
            if given != wanted {
                let operation = OPERATIONS[row.operation];
                trial.differ(&format!("{operation}: the reference gives {given:?}, meant {wanted:?}"));
            }
            for operation in 0..ON_NETWORKS {
                self.coverage.alone(operation, verdict.refusal(operation));
            }
        }
    }

    /// "Driving through a shut place is allowed, so least arrivals keep their meaning, and so does acceptance
    /// of a plan."
    fn other_hours(&mut self, name: CaseName, rng: &mut Rng, case: &Case, verdict: &Verdict) {
        let mut drafts = case.drafts.clone();
        drafts.network = with_other_hours(rng, &drafts.network);
        let mut trial = self.trial(name, "other hours".to_string());
        let other = trial.compare(&case.input(&drafts), false);
        if verdict.predicted[PACK + 1..] != other.predicted[PACK + 1..] {
            trial.differ(&format!("{:?}, with other hours {:?}", verdict.predicted, other.predicted));
        }
        if verdict.finds.map(|told| told.0) != other.finds.map(|told| told.0) {
            trial.differ("the check makes other finds");
        }
        let files = [verdict, &other].map(|verdict| verdict.made.as_ref().and_then(|made| made.file()));
        if files[0] != files[1] {
            trial.differ("another plan is made");
        }
        let (Ok(network), Ok(plan)) = (&other.opened, &other.planned) else { return };
        let calls = all_calls(network);
        for call in if calls.len() <= MOST_TRIPS { calls } else { vec![case.call] } {
            let plain = [&case.network, network].map(|network| but_for_hours(plain_trip(network, call, ANY_LIST)));
            let flagged =
                [&case.network, network].map(|network| but_for_hours(flagged_trip(network, plan, call, ANY_LIST)));
            if plain[0] != plain[1] || flagged[0] != flagged[1] {
                trial.differ(&format!("{call:?}: another trip"));
            }
        }
    }
}

/// Every pair of places at every tick.
fn all_calls(network: &Network) -> Vec<TripCall> {
    let (nodes, period) = (network.header.nodes, network.header.period);
    let pairs = (0..nodes).flat_map(|from| (0..nodes).map(move |to| (from, to)));
    if nodes as usize * nodes as usize * period as usize > 100_000 {
        return vec![TripCall { from: 0, to: nodes - 1, departure: 0 }; MOST_TRIPS + 1];
    }
    pairs.flat_map(|(from, to)| (0..period).map(move |departure| TripCall { from, to, departure })).collect()
}

/// Today or tomorrow: the open tick of the day of arrival, the arrival itself, or the next day's open tick.
fn open_by_day(network: &Network, place: usize, arrival: u32) -> u32 {
    let (open, close) = (u32::from(network.tables.opens[place]), u32::from(network.tables.closes[place]));
    let tick = arrival % network.header.period;
    let midnight = arrival - tick;
    if tick < open {
        midnight + open
    } else if tick < close {
        arrival
    } else {
        midnight + network.header.period + open
    }
}

/// A trip without its open tick.
fn but_for_hours(trip: Trip) -> (Result<Arrived, Refusal>, Vec<u32>) {
    (trip.answer.map(|arrived| Arrived { open: 0, ..arrived }), trip.arrivals)
}
