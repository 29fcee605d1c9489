//! Both trips of document 01: refusals 25 to 29, least arrivals, and wish 6's open tick. `ways` has the
//! chosen way.

use super::network::Network;
use super::plan::Plan;
use super::ways::{chosen_way, Known};
use super::{refuse, Refusal, NEVER};

#[derive(Clone, Copy, Debug, PartialEq, Eq)]
pub struct TripCall {
    pub from: u32,
    pub to: u32,
    pub departure: u32,
}

/// How many entries the lent lists have.
#[derive(Clone, Copy)]
pub struct ListLengths {
    pub arrivals: usize,
    pub roads: usize,
}

#[derive(Clone, Debug, PartialEq, Eq)]
pub struct Arrived {
    pub tick: u32,
    /// The first tick from then on at which the target is open.
    pub open: u32,
    pub roads: Vec<u16>,
}

/// A trip's answer, and what the first entries of the arrival list hold afterwards (nothing: untouched).
pub struct Trip {
    pub answer: Result<Arrived, Refusal>,
    pub arrivals: Vec<u32>,
}

impl Trip {
    pub fn refused(refusal: Refusal) -> Trip {
        Trip { answer: Err(refusal), arrivals: Vec::new() }
    }
}

pub fn plain_trip(network: &Network, call: TripCall, lists: ListLengths) -> Trip {
    trip(network, None, call, lists)
}

pub fn flagged_trip(network: &Network, plan: &Plan, call: TripCall, lists: ListLengths) -> Trip {
    trip(network, Some(plan), call, lists)
}

/// "Permitted roads are all roads on the plain trip, those with the target cell's bit on the flagged one."
pub fn permitted(network: &Network, plan: Option<&Plan>, target: usize) -> Vec<bool> {
    let cell = network.cell_of[target];
    (0..network.arcs.len()).map(|arc| plan.is_none_or(|plan| plan.has_flag(arc, cell))).collect()
}

/// The flagged trip under a plan, the plain one without.
fn trip(network: &Network, plan: Option<&Plan>, call: TripCall, lists: ListLengths) -> Trip {
    if let Err(refusal) = judge_call(network, call, lists) {
        return Trip::refused(refusal);
    }
    let (from, to) = (call.from as usize, call.to as usize);
    let permitted = permitted(network, plan, to);
    let labels = least_arrivals(network, &permitted, from, u64::from(call.departure));
    let Some(arrival) = labels[to] else {
        let arrivals = labels.iter().map(|label| label.map_or(NEVER, |tick| tick as u32)).collect();
        return Trip { answer: refuse(28, 0), arrivals };
    };
    let roads = chosen_way(&Known { network, permitted: &permitted, labels: &labels, from, to });
    let answer = if lists.roads < roads.len() {
        refuse(29, 0)
    } else {
        let open = open_from(network, to, arrival) as u32;
        Ok(Arrived { tick: arrival as u32, open, roads })
    };
    Trip { answer, arrivals: shown_arrivals(&labels, to, arrival) }
}

/// "the first tick at or after arrival when the target is open", and "a hall is open from its open tick up
/// to, and without, its close tick every day".
fn open_from(network: &Network, node: usize, arrival: u64) -> u64 {
    let hours = u64::from(network.tables.opens[node])..u64::from(network.tables.closes[node]);
    let is_open = |tick: &u64| hours.contains(&(tick % u64::from(network.header.period)));
    (arrival..).find(is_open).expect("every place is open at some tick of each day")
}

/// 25 from, then to; 26; 27.
fn judge_call(network: &Network, call: TripCall, lists: ListLengths) -> Result<(), Refusal> {
    for node in [call.from, call.to] {
        if node >= network.header.nodes {
            return refuse(25, node as usize);
        }
    }
    if call.departure >= network.header.period {
        return refuse(26, 0);
    }
    if lists.arrivals < network.nodes() {
        return refuse(27, 0);
    }
    Ok(())
}

/// The least arrival over permitted arcs at every node: relaxed until nothing gets earlier.
pub fn least_arrivals(network: &Network, permitted: &[bool], from: usize, departure: u64) -> Vec<Option<u64>> {
    let mut labels = vec![None; network.nodes()];
    labels[from] = Some(departure);
    let mut changed = true;
    while changed {
        changed = false;
        for (number, arc) in network.arcs.iter().enumerate() {
            if !permitted[number] {
                continue;
            }
            let Some(tick) = labels[arc.from] else { continue };
            let ends = tick + network.arc_travel(number, tick);
            if labels[arc.to].is_none_or(|label| ends < label) {
                labels[arc.to] = Some(ends);
                changed = true;
            }
        }
    }
    labels
}

/// "the least arrival where it is before the target's or the place is the target, else never".
fn shown_arrivals(labels: &[Option<u64>], to: usize, arrival: u64) -> Vec<u32> {
    labels
        .iter()
        .enumerate()
        .map(|(node, label)| match label {
            Some(tick) if *tick < arrival || node == to => *tick as u32,
            _ => NEVER,
        })
        .collect()
}

/// The arrival of a list of arcs driven from `from` at `departure`, if it is a way to `to`.
pub fn drive(network: &Network, roads: &[u16], call: TripCall) -> Option<u64> {
    let mut node = call.from as usize;
    let mut tick = u64::from(call.departure);
    for &road in roads {
        let arc = network.arcs.get(usize::from(road))?;
        if arc.from != node {
            return None;
        }
        tick += network.arc_travel(usize::from(road), tick);
        node = arc.to;
    }
    (node == call.to as usize).then_some(tick)
}
