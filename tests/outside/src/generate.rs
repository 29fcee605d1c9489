//! Seeded valid towns of every shape document 01 allows, from one node without an arc to a full town, and
//! among them towns full of ties. Sizes are what a run can afford; `planner` makes the exact plans for them.

pub mod hours;
mod ties;

use crate::draft::NetworkDraft;
use crate::reference::network::{Header, Tables, MOST_ARCS, MOST_CELLS, MOST_NODES, MOST_PERIOD, MOST_POINTS};
use crate::rng::Rng;
use ties::Ties;

/// How large a case may be.
#[derive(Clone, Copy, PartialEq, Eq, Debug)]
pub enum Size {
    /// Small enough that all ways with all waits can be listed.
    Tiny,
    Small,
    /// A few blocks of each kind, their ends met exactly or missed by one.
    Medium,
    /// Up to the limits of document 01.
    Large,
    /// All 512 nodes are borders and reach each other, so that four ticks fill a plan to its last point.
    Full,
}

/// The numbers a town is made to.
struct Shape {
    period: usize,
    nodes: usize,
    arcs: usize,
    cells: usize,
    /// The most points in all.
    points: usize,
    /// The first arcs lead round through all nodes, so that every node reaches every other.
    ring: bool,
    ties: Option<Ties>,
}

pub fn town(rng: &mut Rng, size: Size) -> NetworkDraft {
    let shape = shape(rng, size);
    let mut tables = Tables { cells: cells(rng, &shape, size), ..Tables::default() };
    arcs(rng, &shape, &mut tables);
    let header = Header {
        number: rng.pick(&[0, 1, 7, 65_535, 65_536, u32::MAX, 0x0001_0203]).wrapping_add(rng.below(3) as u32),
        period: shape.period as u32,
        nodes: shape.nodes as u32,
        arcs: tables.from.len() as u32,
        cells: shape.cells as u32,
        points: tables.ticks.len() as u32,
        hours: 0,
    };
    tables.open_all_day(shape.period as u16);
    let mut draft = NetworkDraft { header, tables };
    if rng.once_in(2) {
        draft.hold_hours(&hours::hours(rng, shape.period, shape.nodes));
    }
    draft
}

fn shape(rng: &mut Rng, size: Size) -> Shape {
    let has_ties = size != Size::Full && rng.once_in(3);
    let (period, nodes, arcs) = match size {
        Size::Small if has_ties => (rng.within(2, 15), rng.within(3, 7), rng.within(3, 16).max(8)),
        Size::Tiny => (rng.within(1, 5), rng.within(1, 4), rng.within(0, 5)),
        Size::Small => (small_period(rng), small_nodes(rng), rng.within(0, 14).max(rng.below(5))),
        Size::Medium => (
            rng.spread(1, 48),
            rng.pick(&[30, 62, 83, 125, 249, 250, 251, 260]),
            rng.pick(&[0, 20, 61, 62, 63, 82, 83, 84, 124, 125, 126, 166, 250]),
        ),
        Size::Large => large_numbers(rng),
        Size::Full => (4, MOST_NODES as usize, MOST_ARCS as usize),
    };
    let most_points = (MOST_POINTS as usize).max(arcs);
    let points = if size == Size::Large && rng.once_in(3) { most_points } else { most_points.min(arcs * 40) };
    Shape {
        period,
        nodes,
        arcs: if nodes == 1 { 0 } else { arcs },
        cells: if size == Size::Full { MOST_CELLS as usize } else { cell_count(rng, nodes) },
        points,
        ring: size == Size::Full || nodes > 1 && arcs >= nodes && rng.once_in(2),
        ties: (has_ties && nodes > 1).then(|| Ties::new(rng, nodes)),
    }
}

fn small_nodes(rng: &mut Rng) -> usize {
    if rng.once_in(20) {
        1
    } else {
        rng.within(2, 7)
    }
}

fn small_period(rng: &mut Rng) -> usize {
    match rng.below(8) {
        0 => 1,
        1 => rng.within(2, 3),
        2 => rng.within(13, 30),
        _ => rng.within(4, 12),
    }
}

fn large_numbers(rng: &mut Rng) -> (usize, usize, usize) {
    let most_period = MOST_PERIOD as usize;
    let most_nodes = MOST_NODES as usize;
    let most_arcs = MOST_ARCS as usize;
    match rng.below(8) {
        0 => (most_period, most_nodes, most_arcs),
        1 => (most_period, rng.spread(2, 40), rng.spread(0, 80)),
        // One ring through all nodes has the longest way there is.
        2 if rng.once_in(4) => (rng.spread(1, most_period), most_nodes, most_nodes),
        2 => (rng.within(1, 4), most_nodes, rng.within(500, most_arcs)),
        _ => (rng.spread(1, most_period), rng.spread(2, most_nodes), rng.spread(0, most_arcs)),
    }
}

fn cell_count(rng: &mut Rng, nodes: usize) -> usize {
    match rng.below(10) {
        0 => 1,
        1 | 2 => MOST_CELLS as usize,
        3 | 4 => nodes.min(MOST_CELLS as usize),
        5 => rng.within(1, MOST_CELLS as usize),
        _ => rng.within(2, 4),
    }
}

/// Uniform, or only a few of the cells used, or all nodes but a few in one cell (few borders), or each node in
/// another cell than the one before it (many).
fn cells(rng: &mut Rng, shape: &Shape, size: Size) -> Vec<u16> {
    let style = if size == Size::Full { 3 } else { rng.below(5) };
    let home = rng.below(shape.cells);
    (0..shape.nodes)
        .map(|node| match style {
            0 if !rng.once_in(shape.nodes.min(40)) => home as u16,
            1 => [0, shape.cells - 1][rng.below(2)] as u16,
            2 => (node * shape.cells / shape.nodes) as u16,
            3 => (node % shape.cells) as u16,
            _ => rng.below(shape.cells) as u16,
        })
        .collect()
}

fn arcs(rng: &mut Rng, shape: &Shape, tables: &mut Tables) {
    let style = rng.below(4);
    let most_travel = if rng.once_in(2) { shape.period } else { rng.within(1, shape.period) };
    let mut points_left = shape.points;
    for number in 0..shape.arcs {
        let (from, to) = ends(rng, shape, tables, style, number);
        let arcs_after = shape.arcs - number - 1;
        let most = shape.period.min(points_left - arcs_after);
        let fair = (points_left / (arcs_after + 1)).max(1).min(most);
        let count = match rng.below(5) {
            0 => 1,
            1 => most.min(shape.period),
            2 => rng.within(1, fair),
            _ => fair.min(rng.spread(1, shape.period)),
        };
        // A town that is to be full spends at least its share on each arc.
        let is_full = shape.points == MOST_POINTS as usize;
        let count = if is_full { fair.max(count.min(most)) } else { count.min(fair * 2).min(most) };
        tables.from.push(from as u16);
        tables.to.push(to as u16);
        let points = match shape.ties {
            Some(ties) if !rng.once_in(12) => ties.points(rng, shape.period, (from, to), count),
            _ => fifo_points(rng, shape.period, most_travel, count),
        };
        points_left -= points.len();
        tables.counts.push(points.len() as u16);
        for (tick, travel) in points {
            tables.ticks.push(tick as u16);
            tables.travels.push(travel as u16);
        }
    }
}

/// Two different nodes: anywhere, beside each other, on a grid, or the ends of an earlier arc again.
fn ends(rng: &mut Rng, shape: &Shape, tables: &Tables, style: usize, number: usize) -> (usize, usize) {
    if shape.ring && number < shape.nodes {
        return (number, (number + 1) % shape.nodes);
    }
    if number > 0 && rng.once_in(5) {
        let parallel = rng.below(number);
        return (usize::from(tables.from[parallel]), usize::from(tables.to[parallel]));
    }
    if let Some(ties) = shape.ties {
        return ties.ends(rng, shape.nodes);
    }
    let from = rng.below(shape.nodes);
    let step = match style {
        0 => 1,
        1 => rng.within(1, (shape.nodes - 1).min(3)),
        _ => rng.within(1, shape.nodes - 1),
    };
    let other = (from + step) % shape.nodes;
    if rng.once_in(2) {
        (from, other)
    } else {
        (other, from)
    }
}

/// Points of one arc: the first at tick 0, rising, FIFO, also over the day's end. The end of each is chosen
/// between the last one's end and the next day's first, often at the very edge: the steepest falling lines.
fn fifo_points(rng: &mut Rng, period: usize, most_travel: usize, count: usize) -> Vec<(usize, usize)> {
    let first_travel = rng.within(1, most_travel);
    let mut points = vec![(0, first_travel)];
    let mut last_end = first_travel;
    for tick in rising_ticks(rng, period, count - 1) {
        let low = last_end.max(tick + 1);
        let high = (tick + most_travel).min(period + first_travel).max(low);
        let end = match rng.below(5) {
            0 => low,
            1 => high,
            2 => (low + 1).min(high),
            _ => rng.within(low, high),
        };
        points.push((tick, end - tick));
        last_end = end;
    }
    points
}

/// `count` different ticks from 1 to P - 1, rising.
fn rising_ticks(rng: &mut Rng, period: usize, count: usize) -> Vec<usize> {
    let mut ticks = Vec::new();
    let mut wanted = count;
    for tick in 1..period {
        if rng.below(period - tick) < wanted {
            ticks.push(tick);
            wanted -= 1;
        }
    }
    ticks
}
