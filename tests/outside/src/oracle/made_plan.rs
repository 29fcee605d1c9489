//! What wish 1 says of a plan that was made, apart from how the reference makes it: least travels by a search
//! forwards, on tiny towns by listing all ways, and trips that are the plain ones.

use super::{all_least_arrivals, least_travel, Least, ANY_LIST};
use crate::reference::line::Point;
use crate::reference::network::Network;
use crate::reference::plan::Plan;
use crate::reference::trips::{flagged_trip, plain_trip, TripCall};

/// The profiles have exactly the points and the arcs exactly the bits that the wish names.
pub fn judge_made_plan(network: &Network, plan: &Plan) -> Option<String> {
    let least = all_least_arrivals(network);
    let nodes = network.nodes();
    for (number, profile) in plan.profiles.iter().enumerate() {
        let (border, node) = (plan.borders[number / nodes], number % nodes);
        let named = named_points(network, &least, node, border);
        if *profile != named {
            return Some(format!("oracle: from {node} to border {border} made {profile:?}, named {named:?}"));
        }
    }
    judge_flags(network, plan, |arc, border, tick| {
        let travel = network.arc_travel(arc, tick);
        let from_start = least_travel(network, &least, network.arcs[arc].from, border, tick);
        let from_end = least_travel(network, &least, network.arcs[arc].to, border, tick + travel);
        from_end.is_some_and(|from_end| from_start == Some(travel + from_end))
    })
}

/// Tick 0, and each later tick at which the travel is not halfway between its neighbours'.
fn named_points(network: &Network, least: &Least, node: usize, border: usize) -> Vec<Point> {
    let Some(at_0) = least_travel(network, least, node, border, 0) else { return Vec::new() };
    let travel = |tick| least_travel(network, least, node, border, tick).expect("there is a way at any tick");
    let mut points = vec![Point { tick: 0, travel: at_0 as u32 }];
    for tick in 1..u64::from(network.header.period) {
        if travel(tick - 1) + travel(tick + 1) != 2 * travel(tick) {
            points.push(Point { tick: tick as u32, travel: travel(tick) as u32 });
        }
    }
    points
}

/// An arc has a cell's bit exactly when both its ends lie there or it `starts` a least way to one of the
/// cell's borders at some tick.
fn judge_flags(network: &Network, plan: &Plan, starts: impl Fn(usize, usize, u64) -> bool) -> Option<String> {
    for (number, arc) in network.arcs.iter().enumerate() {
        for cell in 0..64 {
            let inner = network.cell_of[arc.from] == cell && network.cell_of[arc.to] == cell;
            let borders = plan.borders.iter().filter(|&&border| network.cell_of[border] == cell);
            let mut ticks = 0..u64::from(network.header.period);
            let tick = ticks.find(|&tick| borders.clone().any(|&border| starts(number, border, tick)));
            if plan.has_flag(number, cell) != (inner || tick.is_some()) {
                return Some(format!("oracle: arc {number}, cell {cell}: inner {inner}, starts at {tick:?}"));
            }
        }
    }
    None
}

/// The same of the flags on a tiny town, by listing all ways of at most as many arcs as there are nodes: once
/// the arc in question is driven, no least way needs a node twice.
pub fn judge_flags_by_ways(network: &Network, plan: &Plan) -> Option<String> {
    let arcs = network.nodes();
    judge_flags(network, plan, |arc, border, tick| {
        let ends = &network.arcs[arc];
        let taken = tick + network.arc_travel(arc, tick);
        let through = earliest(network, ends.to, taken, border, arcs - 1);
        through.is_some() && through == earliest(network, ends.from, tick, border, arcs)
    })
}

/// The earliest arrival of all ways of at most `arcs_left` arcs, driven.
fn earliest(network: &Network, node: usize, tick: u64, border: usize, arcs_left: usize) -> Option<u64> {
    let stays = (node == border).then_some(tick);
    if arcs_left == 0 {
        return stays;
    }
    let out = network.arcs.iter().enumerate().filter(|(_, arc)| arc.from == node);
    let goes = out.filter_map(|(number, arc)| {
        let ends = tick + network.arc_travel(number, tick);
        earliest(network, arc.to, ends, border, arcs_left - 1)
    });
    goes.chain(stays).min()
}

/// Under a made plan the flagged trip is the plain one, roads and all, for the same ways are tight. Each arc
/// of a plainly tight way is permitted: it lies in the target's cell, or starts a least way to the border by
/// which the way next gets there. So permitted arcs reach that cell's borders and inner nodes in time. A node
/// elsewhere that a way tight over permitted arcs reached late would be left for such a border; a least way
/// to the node and the same arcs on are no later there, so all are permitted and the node is not late.
pub fn trips_are_plain(network: &Network, plan: &Plan) -> Option<String> {
    for from in 0..network.header.nodes {
        for to in 0..network.header.nodes {
            for departure in 0..network.header.period {
                let call = TripCall { from, to, departure };
                let plain = plain_trip(network, call, ANY_LIST).answer;
                let flagged = flagged_trip(network, plan, call, ANY_LIST).answer;
                if plain != flagged {
                    return Some(format!("oracle: made plan, {call:?}: flagged {flagged:?}, plain {plain:?}"));
                }
            }
        }
    }
    None
}
