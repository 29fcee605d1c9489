//! A case: one valid town with an exact plan and a call that no operation refuses, from which damage starts.

use crate::draft::{Drafts, NetworkDraft, PlanDraft};
use crate::generate::{town, Size};
use crate::input::Input;
use crate::made;
use crate::oracle::{unlike, WORTH};
use crate::planner::{exact_plan, work};
use crate::reference::make_plan::MakeLengths;
use crate::reference::network::{self, Network};
use crate::reference::plan::Plan;
use crate::reference::trips::{flagged_trip, least_arrivals, plain_trip, ListLengths, Trip, TripCall};
use crate::rng::Rng;

pub struct Case {
    pub drafts: Drafts,
    pub network: Network,
    pub call: TripCall,
    /// How many entries each lent list has beyond what is named.
    pub spare: usize,
    /// How many arcs the plain trip's chosen way has.
    pub roads: usize,
    /// How many the flagged trip's has.
    pub flagged_roads: usize,
    /// How long the planner's lists have to be, and how many entries longer they are.
    pub make_needs: MakeLengths,
    pub make_spare: usize,
}

/// What a case's exact plan may cost.
fn most_work(rng: &mut Rng, size: Size) -> usize {
    match size {
        Size::Full => usize::MAX,
        Size::Large if rng.once_in(200) => 30_000_000,
        Size::Large => 1_000_000,
        _ => 300_000,
    }
}

pub fn generate(rng: &mut Rng, size: Size) -> Case {
    let draft = town(rng, size);
    of_town(rng, draft, size)
}

/// The case of a town, whose cells may change.
pub fn of_town(rng: &mut Rng, mut draft: NetworkDraft, size: Size) -> Case {
    let most_work = most_work(rng, size);
    let (network, plan) = planned(rng, &draft, most_work)
        .or_else(|| {
            leave_few_borders(rng, &mut draft);
            planned(rng, &draft, most_work)
        })
        .unwrap_or_else(|| {
            draft.tables.cells.fill(0);
            planned(rng, &draft, usize::MAX).expect("a town without borders has no profiles")
        });
    let drafts = Drafts { network: draft, plan };
    // Trips look at a plan's flags alone.
    let plan = Plan { borders: Vec::new(), flags: drafts.plan.flags.clone(), profiles: Vec::new() };
    let call = telling_call(rng, &network, &plan);
    let any_list = ListLengths { arrivals: 512, roads: 512 };
    let roads = roads_of(plain_trip(&network, call, any_list));
    let flagged_roads = roads_of(flagged_trip(&network, &plan, call, any_list));
    let make_needs = made::of(&drafts.network.file(), &network).needs;
    // A planner that clears a block or a row too many needs room for it.
    let make_spare = rng.pick(&[0, 0, 1, 3, 512, 1_100]);
    Case { drafts, network, call, spare: rng.below(4), roads, flagged_roads, make_needs, make_spare }
}

fn roads_of(trip: Trip) -> usize {
    trip.answer.map_or(0, |arrived| arrived.roads.len())
}

/// The opened town and its exact plan, unless that takes too much work or too many points.
fn planned(rng: &mut Rng, draft: &NetworkDraft, most_work: usize) -> Option<(Network, PlanDraft)> {
    let network = open(&draft.file());
    (work(&network) <= most_work).then_some(())?;
    let plan = exact_plan(rng, &network)?;
    Some((network, plan))
}

/// All nodes in one cell but one, whose neighbours and itself are all the borders left.
fn leave_few_borders(rng: &mut Rng, draft: &mut NetworkDraft) {
    let cells = &mut draft.tables.cells;
    let last = draft.header.cells as u16 - 1;
    cells.fill(last);
    let apart = rng.below(cells.len());
    cells[apart] = 0;
}

fn open(file: &[u8]) -> Network {
    network::open(file).expect("a generated town opens")
}

/// Of some calls the one that best tells wish 2's rule from others: most calls tell it from none.
fn telling_call(rng: &mut Rng, network: &Network, plan: &Plan) -> TripCall {
    let calls = rng.pick(&[1, 1, 4, if network.nodes() > 100 { 4 } else { 12 }]);
    let calls: Vec<TripCall> = (0..calls).map(|_| reachable_pair(rng, network)).collect();
    if calls.len() == 1 {
        return calls[0];
    }
    let worth = |call: &TripCall| -> u32 {
        let both = [None, Some(plan)].map(|plan| unlike(network, plan, *call).unwrap_or_default());
        both.iter()
            .map(|unlike| WORTH.iter().zip(unlike).map(|(worth, &told)| worth * u32::from(told)).sum::<u32>())
            .sum()
    };
    calls.into_iter().max_by_key(worth).expect("there are calls")
}

/// A pair with a way between them, the same node twice where chance or the town leaves no other.
fn reachable_pair(rng: &mut Rng, network: &Network) -> TripCall {
    let from = rng.below(network.nodes());
    let departure = rng.below(network.header.period as usize) as u32;
    let labels = least_arrivals(network, &vec![true; network.arcs.len()], from, u64::from(departure));
    let reached: Vec<usize> = (0..network.nodes()).filter(|&node| labels[node].is_some()).collect();
    let to = *reached.iter().max_by_key(|&&node| (rng.below(3), labels[node])).expect("a node reaches itself");
    TripCall { from: from as u32, to: to as u32, departure }
}

impl Case {
    /// The input of these drafts, every list as long as named for this case and `spare` longer.
    pub fn input(&self, drafts: &Drafts) -> Input {
        self.input_of_files(drafts.network.file(), drafts.plan.file())
    }

    pub fn input_of_files(&self, network: Vec<u8>, plan: Vec<u8>) -> Input {
        let tables = self.network.header.table_lengths();
        let mut input = Input::roomy(network, plan, self.call, tables, self.spare);
        input.plan_what_the_network_says(self.make_needs, self.make_spare);
        input
    }
}
