//! What wish 2 says of chosen ways, apart from how the reference comes to them: listing and rule agree, and
//! the way drives. Beside it stand the rules that the wish is not: how often each would have taken another
//! way says how much a run's towns tell.

use crate::reference::network::Network;
use crate::reference::plan::Plan;
use crate::reference::trips::{drive, least_arrivals, permitted, TripCall};
use crate::reference::ways::{chosen_way, fewest_arcs, way_by_listing, way_by_rule, Known, FEW_ARCS};

/// The rules that a chosen way is not to follow.
pub const RULES: [&str; 6] = [
    "the lowest number alone",
    "the fewest of all least ways",
    "the highest number back",
    "the lowest number from the source",
    "the most roads",
    "all roads permitted",
];
/// How much a trip is worth that tells a rule from the wish's: more for those that few trips tell.
pub const WORTH: [u32; RULES.len()] = [4, 20, 1, 10, 2, 2];
/// Whether each rule takes another way than the chosen one.
pub type Unlike = [bool; RULES.len()];

/// All pairs, all ticks, over all arcs or under a plan, in a town with so few arcs that ways can be listed.
pub fn judge_chosen_ways(network: &Network, plan: Option<&Plan>) -> Option<String> {
    if network.arcs.len() > FEW_ARCS {
        return None;
    }
    all_calls(network).find_map(|call| judge_chosen_way(&search(network, plan, call)?.known(), call))
}

fn all_calls(network: &Network) -> impl Iterator<Item = TripCall> {
    let (nodes, period) = (network.header.nodes, network.header.period);
    let pairs = (0..nodes).flat_map(move |from| (0..nodes).map(move |to| (from, to)));
    pairs.flat_map(move |(from, to)| (0..period).map(move |departure| TripCall { from, to, departure }))
}

/// A trip's permitted arcs and least arrivals.
struct Searched<'a> {
    network: &'a Network,
    permitted: Vec<bool>,
    labels: Vec<Option<u64>>,
    from: usize,
    to: usize,
}

impl Searched<'_> {
    fn known(&self) -> Known<'_> {
        let Searched { network, permitted, labels, from, to } = self;
        Known { network, permitted, labels, from: *from, to: *to }
    }
}

/// None if there is no way.
fn search<'a>(network: &'a Network, plan: Option<&Plan>, call: TripCall) -> Option<Searched<'a>> {
    let (from, to) = (call.from as usize, call.to as usize);
    let permitted = permitted(network, plan, to);
    let labels = least_arrivals(network, &permitted, from, u64::from(call.departure));
    labels[to].is_some().then_some(Searched { network, permitted, labels, from, to })
}

fn judge_chosen_way(trip: &Known, call: TripCall) -> Option<String> {
    let (listed, ruled) = (way_by_listing(trip), way_by_rule(trip));
    if listed != ruled {
        return Some(format!("oracle: {call:?}: way by listing {listed:?}, by the rule {ruled:?}"));
    }
    let (driven, least) = (drive(trip.network, &ruled, call), trip.labels[trip.to]);
    (driven != least).then(|| format!("oracle: {call:?}: {ruled:?} driven {driven:?}, least {least:?}"))
}

/// Which rules take another way on this trip; none if there is no way.
pub fn unlike(network: &Network, plan: Option<&Plan>, call: TripCall) -> Option<Unlike> {
    let searched = search(network, plan, call)?;
    let trip = &searched.known();
    let chosen = chosen_way(trip);
    let arcs = trip.tight_arcs();
    let of_fewest_ways = arcs_of_fewest_ways(trip, &arcs);
    let over_all_arcs = plan.and_then(|_| search(network, None, call));
    Some([
        lowest_number_alone(trip, &arcs) != chosen,
        fewest_of_all_least_ways(trip) != chosen.len(),
        back(trip, &of_fewest_ways, |arcs| arcs.iter().max()) != chosen,
        forth(trip, &of_fewest_ways) != chosen,
        most_arcs(trip, &arcs) != chosen.len(),
        over_all_arcs.is_some_and(|searched| chosen_way(&searched.known()) != chosen),
    ])
}

/// Document 01's chosen way: "the lowest-numbered permitted road that, taken at its start's least arrival
/// over permitted roads, ends exactly at this place's". None where there is no way.
pub fn document_01s_way(network: &Network, plan: Option<&Plan>, call: TripCall) -> Option<Vec<u16>> {
    let searched = search(network, plan, call)?;
    let trip = &searched.known();
    Some(lowest_number_alone(trip, &trip.tight_arcs()))
}

fn lowest_number_alone(trip: &Known, arcs: &[usize]) -> Vec<u16> {
    back(trip, arcs, |arcs| arcs.iter().min())
}

/// Back from the target, at each node that arc of `arcs` into it which `pick` takes.
fn back(trip: &Known, arcs: &[usize], pick: impl Fn(&[usize]) -> Option<&usize>) -> Vec<u16> {
    let mut way = Vec::new();
    let mut node = trip.to;
    while node != trip.from {
        let leads_here = |arc: &usize| trip.network.arcs[*arc].to == node;
        let into: Vec<usize> = arcs.iter().copied().filter(leads_here).collect();
        let arc = *pick(&into).expect("a least arrival is some arc's end");
        way.push(arc as u16);
        node = trip.network.arcs[arc].from;
    }
    way.reverse();
    way
}

/// From the source on, the lowest-numbered of `arcs`, each of which lies on a way to the target.
fn forth(trip: &Known, arcs: &[usize]) -> Vec<u16> {
    let mut way = Vec::new();
    let mut node = trip.from;
    while node != trip.to {
        let out = arcs.iter().copied().filter(|&arc| trip.network.arcs[arc].from == node);
        let arc = out.min().expect("the arcs lead to the target");
        way.push(arc as u16);
        node = trip.network.arcs[arc].to;
    }
    way
}

/// The arcs of tight ways to the target with the fewest arcs: looked for from the last one back.
fn arcs_of_fewest_ways(trip: &Known, arcs: &[usize]) -> Vec<usize> {
    let fewest = fewest_arcs(trip, arcs);
    let mut leads_on = vec![false; trip.network.nodes()];
    leads_on[trip.to] = true;
    let mut found = Vec::new();
    for &arc in arcs.iter().rev() {
        let ends = &trip.network.arcs[arc];
        if leads_on[ends.to] && fewest[ends.from] + 1 == fewest[ends.to] {
            leads_on[ends.from] = true;
            found.push(arc);
        }
    }
    found
}

/// How many arcs the longest tight way has.
fn most_arcs(trip: &Known, arcs: &[usize]) -> usize {
    let mut most = vec![0; trip.network.nodes()];
    for &arc in arcs {
        let ends = &trip.network.arcs[arc];
        most[ends.to] = most[ends.to].max(most[ends.from] + 1);
    }
    most[trip.to]
}

/// How many arcs a least way needs that may reach its nodes late: round by round the least arrivals over ways
/// of at most so many arcs.
fn fewest_of_all_least_ways(trip: &Known) -> usize {
    let mut labels = vec![None; trip.network.nodes()];
    labels[trip.from] = trip.labels[trip.from];
    let mut rounds = 0;
    while labels[trip.to] != trip.labels[trip.to] {
        labels = one_arc_more(trip, &labels);
        rounds += 1;
    }
    rounds
}

fn one_arc_more(trip: &Known, labels: &[Option<u64>]) -> Vec<Option<u64>> {
    let mut next = labels.to_vec();
    for (number, arc) in trip.network.arcs.iter().enumerate().filter(|(number, _)| trip.permitted[*number]) {
        let Some(tick) = labels[arc.from] else { continue };
        let ends = tick + trip.network.arc_travel(number, tick);
        if next[arc.to].is_none_or(|label| ends < label) {
            next[arc.to] = Some(ends);
        }
    }
    next
}
