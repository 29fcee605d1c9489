//! Towns for plans that are damaged on purpose. Their roads fall by one a tick, rise at once, take the whole
//! day, keep a travel for a while, or are better than others at one tick alone. Periods are 1, 2, short, and
//! the longest there is.

use crate::draft::NetworkDraft;
use crate::planner::{at_every_tick, even_runs, few_points};
use crate::reference::network::{MOST_CELLS, MOST_PERIOD};
use crate::rng::Rng;
use crate::towns::{draft, Road};

/// The last case of so many has the longest period.
const LONGEST: u64 = 64;

/// A road before it is written in points: its ends, and its travel at each tick.
struct Way {
    from: usize,
    to: usize,
    travels: Vec<u32>,
}

pub fn town(rng: &mut Rng, number: u64) -> NetworkDraft {
    let period = period(rng, number);
    let nodes = rng.within(2, if period == MOST_PERIOD as usize { 5 } else { 7 });
    let cell_count = rng.pick(&[2, 2, 3, MOST_CELLS as usize]);
    let mut cells: Vec<u16> = (0..nodes).map(|_| rng.below(cell_count) as u16).collect();
    // The first road joins two cells, so that there is a border.
    cells[1] = (usize::from(cells[0]) + rng.within(1, cell_count - 1)) as u16 % cell_count as u16;
    let mut ways = chain(rng, period, nodes);
    for _ in 0..rng.within(0, 10) {
        let more = some_more(rng, period, nodes, &ways);
        ways.extend(more);
    }
    let roads: Vec<Road> = ways.iter().map(|way| road(rng, way)).collect();
    draft(period as u16, cell_count as u16, &cells, &roads)
}

/// From each place to the next, back, or both; the first road leads from place 0 to place 1.
fn chain(rng: &mut Rng, period: usize, nodes: usize) -> Vec<Way> {
    let mut ways = vec![Way { from: 0, to: 1, travels: travels(rng, period) }];
    for node in 1..nodes {
        let (on, back) = rng.pick(&[(true, false), (true, false), (false, true), (true, true)]);
        ways.extend(on.then(|| Way { from: node - 1, to: node, travels: travels(rng, period) }));
        ways.extend(back.then(|| Way { from: node, to: node - 1, travels: travels(rng, period) }));
    }
    ways
}

/// A road anywhere, or some that suit the roads there are.
fn some_more(rng: &mut Rng, period: usize, nodes: usize, ways: &[Way]) -> Vec<Way> {
    let way = &ways[rng.below(ways.len())];
    match rng.below(3) {
        0 => {
            let from = rng.below(nodes);
            let to = (from + rng.within(1, nodes - 1)) % nodes;
            vec![Way { from, to, travels: travels(rng, period) }]
        }
        1 => beside_another(rng, way),
        _ => over_and_at_once(rng, nodes, way).into_iter().flatten().collect(),
    }
}

fn period(rng: &mut Rng, number: u64) -> usize {
    if number % LONGEST == LONGEST - 1 {
        return MOST_PERIOD as usize;
    }
    match number % 8 {
        0 => 1,
        1 => 2,
        2 => rng.within(13, 60),
        _ => rng.within(3, 12),
    }
}

fn travels(rng: &mut Rng, period: usize) -> Vec<u32> {
    let high = if rng.once_in(2) { period } else { rng.within(1, period) };
    let low = rng.within(1, high);
    let width = rng.spread(1, period);
    let wanted: Vec<usize> = match rng.below(9) {
        0 => vec![low; period],
        1 => vec![period; period],
        // It ends at one tick of the day whenever it is taken.
        2 => (0..period).map(|tick| 1 + (low + period - tick) % period).collect(),
        // It falls by one a tick and rises at once.
        3 => (0..period).map(|tick| if tick % width == 0 { low } else { period }).collect(),
        4 => (0..period).map(|tick| (low + tick / width).min(period)).collect(),
        5 => (0..period).map(|tick| (low + (period - tick) / width).min(period)).collect(),
        6 => (0..period).map(|tick| (low + tick % 2).min(period)).collect(),
        7 => one_line(rng, period, low, high),
        _ => stretches(rng, period, width),
    };
    settled(wanted)
}

/// Up or down from the first tick on and back after some tick, rounded up.
fn one_line(rng: &mut Rng, period: usize, low: usize, high: usize) -> Vec<usize> {
    let turn = rng.within(1, period);
    let (first, other) = if rng.once_in(2) { (low, high) } else { (high, low) };
    let between = |from: usize, to: usize, gone: usize, run: usize| (from * (run - gone) + to * gone).div_ceil(run);
    let back = |tick| between(other, first, tick - turn, period - turn);
    (0..period).map(|tick| if tick < turn { between(first, other, tick, turn) } else { back(tick) }).collect()
}

/// The same for a while, and then something else.
fn stretches(rng: &mut Rng, period: usize, width: usize) -> Vec<usize> {
    let mut travel = rng.within(1, period);
    let mut until = rng.within(1, width);
    let mut next = |tick: usize| {
        if tick == until {
            travel = rng.within(1, period);
            until = tick + rng.within(1, width);
        }
        travel
    };
    (0..period).map(&mut next).collect()
}

/// Lowered as far as FIFO asks for: who leaves a tick later takes at most a tick less, at the day's end too.
fn settled(mut travels: Vec<usize>) -> Vec<u32> {
    let period = travels.len();
    for tick in (0..period).rev().chain((0..period).rev()) {
        travels[tick] = travels[tick].min(travels[(tick + 1) % period] + 1);
    }
    travels.into_iter().map(|travel| travel as u32).collect()
}

/// One or two roads with the ends of another: as long as that one but at a tick, or longer but about a tick.
fn beside_another(rng: &mut Rng, way: &Way) -> Vec<Way> {
    let period = way.travels.len();
    let some = rng.below(period);
    let tick = rng.pick(&[0, period - 1, some, some]);
    let mut wanted: Vec<usize> = way.travels.iter().map(|&travel| travel as usize).collect();
    let there = wanted[tick];
    if rng.once_in(2) {
        wanted.fill(period);
    }
    wanted[tick] = if rng.once_in(3) { there } else { (there - 1).max(1) };
    let travels = settled(wanted);
    let copies = rng.within(1, 2);
    (0..copies).map(|_| Way { from: way.from, to: way.to, travels: travels.clone() }).collect()
}

/// Two roads out of a place that always take the same: one to where a road begins, one to where it ends, in as
/// long as it takes over there at some tick. Which of them is better changes at ticks at which no road out has
/// a point.
fn over_and_at_once(rng: &mut Rng, nodes: usize, way: &Way) -> Option<[Way; 2]> {
    let period = way.travels.len();
    let (from, first) = (rng.below(nodes), rng.spread(1, period));
    let both = first + way.travels[rng.below(period)] as usize;
    (from != way.from && from != way.to && both <= period).then_some(())?;
    let always = |to: usize, travel: usize| Way { from, to, travels: vec![travel as u32; period] };
    Some([always(way.from, first), always(way.to, both)])
}

fn road(rng: &mut Rng, way: &Way) -> Road {
    let points = match rng.below(3) {
        0 if way.travels.len() <= 60 => at_every_tick(&way.travels),
        1 => even_runs(&way.travels),
        _ => few_points(&way.travels),
    };
    let points = points.into_iter().map(|(tick, travel)| (tick, travel as u16));
    (way.from as u16, way.to as u16, points.collect())
}
