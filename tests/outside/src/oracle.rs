//! What the letter's demands mean, apart from the check's and the search's own rules: true least travels by
//! naive search, flags enough by document 01's (a) and (b), and on tiny towns all ways with all waits.
//! Each function returns a line of text for a demand that the reference itself does not meet.

mod made_plan;
mod ties;

use crate::reference::check::check;
use crate::reference::network::Network;
use crate::reference::plan::{profile_at, Plan};
use crate::reference::trips::{drive, flagged_trip, least_arrivals, ListLengths, TripCall};

pub use made_plan::{judge_flags_by_ways, judge_made_plan, trips_are_plain};
pub use ties::{document_01s_way, judge_chosen_ways, unlike, Unlike, RULES, WORTH};

/// Least arrivals over all arcs, by starting node, tick below P, and node.
type Least = Vec<Vec<Vec<Option<u64>>>>;

const ANY_LIST: ListLengths = ListLengths { arrivals: 512, roads: 512 };

/// Demand 3: "the check accepts exactly when the plan's profiles are the true least travels at every tick and
/// its flags are enough"; and then every flagged trip of the town is least.
pub fn judge_plan(network: &Network, plan: &Plan) -> Option<String> {
    let least = all_least_arrivals(network);
    let profiles_true = profiles_are_true(network, plan, &least);
    let flags_enough = flags_are_enough(network, plan, &least);
    let accepted = check(network, plan);
    if accepted.is_ok() != (profiles_true && flags_enough) {
        return Some(format!(
            "oracle: check {accepted:?}, but profiles true: {profiles_true}, flags enough: {flags_enough}"
        ));
    }
    if accepted.is_ok() {
        flagged_trips_are_least(network, plan, &least)
    } else {
        None
    }
}

fn all_least_arrivals(network: &Network) -> Least {
    let all = vec![true; network.arcs.len()];
    (0..network.nodes())
        .map(|from| {
            (0..u64::from(network.header.period)).map(|tick| least_arrivals(network, &all, from, tick)).collect()
        })
        .collect()
}

/// The least travel from a node to a node leaving at any tick, or never.
fn least_travel(network: &Network, least: &Least, from: usize, to: usize, tick: u64) -> Option<u64> {
    let tick = tick % u64::from(network.header.period);
    least[from][tick as usize][to].map(|arrival| arrival - tick)
}

fn profiles_are_true(network: &Network, plan: &Plan, least: &Least) -> bool {
    let period = network.header.period;
    plan.borders.iter().enumerate().all(|(index, &border)| {
        (0..network.nodes()).all(|node| {
            let profile = &plan.profiles[index * network.nodes() + node];
            (0..u64::from(period))
                .all(|tick| profile_at(profile, tick, period) == least_travel(network, least, node, border, tick))
        })
    })
}

fn flags_are_enough(network: &Network, plan: &Plan, least: &Least) -> bool {
    let rule_a = network.arcs.iter().enumerate().all(|(number, arc)| {
        let cell = network.cell_of[arc.from];
        cell != network.cell_of[arc.to] || plan.has_flag(number, cell)
    });
    let rule_b = plan.borders.iter().all(|&border| {
        (0..network.nodes()).filter(|&node| node != border).all(|node| {
            (0..u64::from(network.header.period))
                .all(|tick| flagged_arc_starts_least_way(network, plan, least, node, border, tick))
        })
    });
    rule_a && rule_b
}

/// "some road out of u with bit c starts a least way from u to b", or u cannot reach b.
fn flagged_arc_starts_least_way(
    network: &Network,
    plan: &Plan,
    least: &Least,
    node: usize,
    border: usize,
    tick: u64,
) -> bool {
    let Some(wanted) = least_travel(network, least, node, border, tick) else { return true };
    let cell = network.cell_of[border];
    network.arcs.iter().enumerate().any(|(number, arc)| {
        let travel = network.arc_travel(number, tick);
        arc.from == node
            && plan.has_flag(number, cell)
            && least_travel(network, least, arc.to, border, tick + travel).is_some_and(|after| travel + after == wanted)
    })
}

/// All pairs, all ticks: the same arrival as over all arcs or no way in both, and the listed arcs, driven,
/// arrive then.
fn flagged_trips_are_least(network: &Network, plan: &Plan, least: &Least) -> Option<String> {
    for from in 0..network.header.nodes {
        for to in 0..network.header.nodes {
            for departure in 0..network.header.period {
                let call = TripCall { from, to, departure };
                let wanted = least[from as usize][departure as usize][to as usize];
                let trip = flagged_trip(network, plan, call, ANY_LIST);
                let arrives = trip.answer.as_ref().ok().map(|arrived| u64::from(arrived.tick));
                let driven = trip.answer.as_ref().ok().and_then(|arrived| drive(network, &arrived.roads, call));
                if arrives != wanted || driven != wanted {
                    return Some(format!(
                        "oracle: accepted plan, {call:?}: flagged {arrives:?}, driven {driven:?}, least {wanted:?}"
                    ));
                }
            }
        }
    }
    None
}

/// Demand 2 on a tiny town: the least arrival is the earliest of all ways with all waits. Ways may pass a node
/// again; lists of more arcs than nodes and waits longer than a day are left out.
pub fn judge_ways_with_waits(network: &Network) -> Option<String> {
    let least = all_least_arrivals(network);
    for (from, by_tick) in least.iter().enumerate() {
        for (departure, labels) in by_tick.iter().enumerate() {
            let mut earliest = vec![None; network.nodes()];
            list_ways(network, from, departure as u64, network.nodes(), &mut earliest);
            if earliest != *labels {
                return Some(format!(
                    "oracle: from {from} at {departure}: ways with waits {earliest:?}, least arrivals {labels:?}"
                ));
            }
        }
    }
    None
}

/// Goes on from a node at a tick over every arc after every wait, at most `arcs_left` arcs.
fn list_ways(network: &Network, node: usize, tick: u64, arcs_left: usize, earliest: &mut [Option<u64>]) {
    if earliest[node].is_none_or(|kept| tick < kept) {
        earliest[node] = Some(tick);
    }
    if arcs_left == 0 {
        return;
    }
    for (number, arc) in network.arcs.iter().enumerate() {
        if arc.from != node {
            continue;
        }
        for wait in 0..=u64::from(network.header.period) {
            let taken = tick + wait;
            let ends = taken + network.arc_travel(number, taken);
            list_ways(network, arc.to, ends, arcs_left - 1, earliest);
        }
    }
}
