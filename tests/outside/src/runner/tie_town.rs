//! The towns made on purpose for wish 2: the ways known by hand, by the reference and through the library
//! with road lists of every length that matters, and in small towns all trips.

use super::{CaseName, Runner, Trial};
use crate::hours::towns::some_hours;
use crate::input::Input;
use crate::library::{FLAGGED_LISTS, PLAIN_LISTS};
use crate::made;
use crate::reference::make_plan::plan_file;
use crate::reference::network::{self, Network};
use crate::reference::plan::Plan;
use crate::reference::trips::{flagged_trip, plain_trip, ListLengths, Trip, TripCall};
use crate::towns::ties::{town, TieTown, Way};

/// A town under a plan.
struct Planned<'a> {
    file: &'a [u8],
    network: &'a Network,
    plan: &'a Plan,
    /// The plan is the one made, so that plain trips take the flagged trips' ways.
    made: bool,
}

impl Planned<'_> {
    fn input(&self, call: TripCall) -> Input {
        let plan = plan_file(self.network, self.plan);
        Input::roomy(self.file.to_vec(), plan, call, self.network.header.table_lengths(), 1)
    }
}

impl Runner {
    pub(super) fn run_tie_town(&mut self, name: CaseName) {
        let mut town = town(name.number);
        self.try_tie_town(name, &town);
        town.draft.hold_hours(&some_hours(name.number, &town.draft));
        self.try_tie_town(name, &town);
    }

    fn try_tie_town(&mut self, name: CaseName, town: &TieTown) {
        let file = &town.draft.file();
        let network = &network::open(file).expect("a town made on purpose opens");
        let made = made::of(file, network);
        let plan = &made.written.as_ref().expect("its plan has few points").plan;
        let mut trial = self.trial(name, town.name.to_string());
        let mut run = |planned: Planned, ways: &[Way]| {
            trial.ways_by_hand(&planned, ways);
            if town.small {
                trial.all_chosen_ways(&planned);
            }
        };
        run(Planned { file, network, plan, made: true }, &town.plain);
        for (flags, ways) in &town.flagged {
            let plan = &Plan { flags: flags.clone(), ..plan.clone() };
            run(Planned { file, network, plan, made: false }, ways);
        }
    }
}

impl Trial<'_> {
    fn ways_by_hand(&mut self, planned: &Planned, ways: &[Way]) {
        for way in ways {
            self.way_by_hand(planned, way);
            let count = way.roads.len();
            let mut lengths = vec![(count, 0), (count + 2, 0)];
            if count > 0 {
                lengths.extend([(count - 1, 29), (0, 29)]);
            }
            for (length, refusal) in lengths {
                self.road_list(planned, way.call, length, refusal);
            }
        }
    }

    /// The reference takes this way.
    fn way_by_hand(&mut self, planned: &Planned, way: &Way) {
        let lists = ListLengths { arrivals: planned.network.nodes(), roads: way.roads.len() };
        let by_hand = Ok((way.tick, way.roads.clone()));
        let shown = |trip: Trip| trip.answer.map(|arrived| (arrived.tick, arrived.roads));
        let flagged = shown(flagged_trip(planned.network, planned.plan, way.call, lists));
        let plain = shown(plain_trip(planned.network, way.call, lists));
        if flagged != by_hand || planned.made && plain != by_hand {
            let call = way.call;
            self.differ(&format!("{call:?}: by hand {by_hand:?}, flagged {flagged:?}, plain {plain:?}"));
        }
    }

    /// Both trips with a road list of this length, which is too short or is not.
    fn road_list(&mut self, planned: &Planned, call: TripCall, length: usize, refusal: u32) {
        let mut input = planned.input(call);
        input.lengths.roads = length;
        let verdict = self.compare(&input, false);
        let (flagged, plain) = (verdict.refusal(FLAGGED_LISTS), verdict.refusal(PLAIN_LISTS));
        if flagged != refusal || planned.made && plain != refusal {
            let given = format!("by hand {refusal}, flagged {flagged}, plain {plain}");
            self.differ(&format!("{call:?}, {length} roads: {given}"));
        }
    }

    /// All trips of a small town under a plan: by listing, by the rule and through the library.
    fn all_chosen_ways(&mut self, planned: &Planned) {
        let input = planned.input(TripCall { from: 0, to: 0, departure: 0 });
        let verdict = self.compare(&input, true);
        self.judge_chosen_ways(&verdict);
        self.compare_all_trips(&input, &verdict);
        self.judge_made_plan(&verdict, true);
        self.judge_trips(&input, &verdict);
    }
}
