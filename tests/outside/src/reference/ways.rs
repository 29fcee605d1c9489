//! Document 02's wish 2: the chosen way. "The order is now: fewest roads first, over permitted ways that
//! reach each of their places at its least arrival, then the lowest number at each step back." It stands here
//! twice: by listing all those ways, for small towns, and by a rule, for any town.

use super::network::Network;

/// A trip whose least arrivals are known.
#[derive(Clone, Copy)]
pub struct Known<'a> {
    pub network: &'a Network,
    /// The arcs that the trip may take.
    pub permitted: &'a [bool],
    /// The least arrival over permitted arcs at each node, the departure at `from`.
    pub labels: &'a [Option<u64>],
    pub from: usize,
    /// A node with a least arrival.
    pub to: usize,
}

/// Up to so many arcs all tight ways are listed: there are 3^7 of them at most, if three parallel arcs lead
/// on at each of seven steps.
pub const FEW_ARCS: usize = 21;

/// The chosen way, from its first arc to its last.
pub fn chosen_way(trip: &Known) -> Vec<u16> {
    if trip.network.arcs.len() <= FEW_ARCS {
        way_by_listing(trip)
    } else {
        way_by_rule(trip)
    }
}

/// All tight ways, the fewest arcs of them, and back from the target the lowest number at each step.
pub fn way_by_listing(trip: &Known) -> Vec<u16> {
    let mut ways = tight_ways(trip);
    let fewest = ways.iter().map(Vec::len).min().expect("some way is tight where there is one");
    ways.retain(|way| way.len() == fewest);
    for step in (0..fewest).rev() {
        let lowest = ways.iter().map(|way| way[step]).min().expect("the lowest leaves a way");
        ways.retain(|way| way[step] == lowest);
    }
    ways.swap_remove(0)
}

/// All tight ways: permitted ways to the target that reach each of their nodes at its least arrival. None of
/// them passes a node twice, as each arc takes a tick or more and a node's least arrival is one tick. So
/// each is found by going on over tight arcs, which ends by itself, and stopping at the target.
fn tight_ways(trip: &Known) -> Vec<Vec<u16>> {
    let mut found = Vec::new();
    go_on(trip, trip.from, &mut Vec::new(), &mut found);
    found
}

fn go_on(trip: &Known, node: usize, way: &mut Vec<u16>, found: &mut Vec<Vec<u16>>) {
    if node == trip.to {
        found.push(way.clone());
        return;
    }
    for (number, arc) in trip.network.arcs.iter().enumerate() {
        if arc.from == node && trip.is_tight(number) {
            way.push(number as u16);
            go_on(trip, arc.to, way, found);
            way.pop();
        }
    }
}

/// "back from the target, among the roads that still leave a fewest way", the lowest number: a tight arc
/// leaves one if a tight way with one arc fewer leads to its start.
pub fn way_by_rule(trip: &Known) -> Vec<u16> {
    let arcs = trip.tight_arcs();
    let fewest = fewest_arcs(trip, &arcs);
    let mut way = Vec::new();
    let mut node = trip.to;
    while node != trip.from {
        let leaves_a_fewest = |&&arc: &&usize| {
            let ends = &trip.network.arcs[arc];
            ends.to == node && fewest[ends.from] + 1 == fewest[node]
        };
        let arc = *arcs.iter().filter(leaves_a_fewest).min().expect("a fewest way has a last arc");
        way.push(arc as u16);
        node = trip.network.arcs[arc].from;
    }
    way.reverse();
    way
}

/// How many arcs the tight way with the fewest has, for each node that one leads to. `arcs` are in the order
/// of their ends' least arrivals. A tight arc starts at a node whose least arrival is earlier, so whatever
/// leads there has been looked at when its turn comes.
pub fn fewest_arcs(trip: &Known, arcs: &[usize]) -> Vec<usize> {
    let mut fewest = vec![usize::MAX; trip.network.nodes()];
    fewest[trip.from] = 0;
    for &arc in arcs {
        let ends = &trip.network.arcs[arc];
        fewest[ends.to] = fewest[ends.to].min(fewest[ends.from] + 1);
    }
    fewest
}

impl Known<'_> {
    /// The arc is permitted and, taken at its start's least arrival, ends exactly at its end's.
    pub fn is_tight(&self, arc: usize) -> bool {
        let ends = &self.network.arcs[arc];
        let taken = self.labels[ends.from].filter(|_| self.permitted[arc]);
        taken.is_some_and(|tick| self.labels[ends.to] == Some(tick + self.network.arc_travel(arc, tick)))
    }

    /// All tight arcs in the order of their ends' least arrivals.
    pub fn tight_arcs(&self) -> Vec<usize> {
        let mut arcs: Vec<usize> = (0..self.network.arcs.len()).filter(|&arc| self.is_tight(arc)).collect();
        arcs.sort_by_key(|&arc| self.labels[self.network.arcs[arc].to]);
        arcs
    }
}
