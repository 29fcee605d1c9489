//! Exact plans for valid towns: true least travels worked out backwards from each border (the oracle works
//! forwards), written as profiles with all or with few points, and flags that are enough: as few as a greedy
//! choice leaves, all, or some more.

use crate::draft::{PlanDraft, PlanHeader};
use crate::reference::network::Network;
use crate::reference::plan::{borders, MOST_POINTS};
use crate::reference::NEVER;
use crate::rng::Rng;

/// The least travel to one border, by node and tick (node × P + tick), NEVER where there is no way.
pub struct LeastTravels {
    pub border: usize,
    pub travels: Vec<u32>,
}

/// What is true of a town: each arc's travel at each tick, and the least travels to each border.
pub struct Exact {
    pub arc_travels: Vec<Vec<u32>>,
    pub least: Vec<LeastTravels>,
}

impl Exact {
    pub fn of(network: &Network) -> Exact {
        let arc_travels = arc_travels(network);
        let least = borders(network).into_iter().map(|border| least_travels(network, &arc_travels, border)).collect();
        Exact { arc_travels, least }
    }
}

/// A profile's ticks and travels.
pub type Points = Vec<(u16, u32)>;

/// The work an exact plan of this town takes, in relaxations of one arc at one tick per round.
pub fn work(network: &Network) -> usize {
    borders(network).len() * (network.arcs.len() + network.nodes()) * network.header.period as usize
}

/// An exact plan, or none if its profiles would need more points than a plan may have, be it these or be it
/// those that the engine's planner has to write.
pub fn exact_plan(rng: &mut Rng, network: &Network) -> Option<PlanDraft> {
    let Exact { arc_travels, least } = Exact::of(network);
    let flags = flags(rng, network, &arc_travels, &least);
    let plan = plan_of(network, flags, &profiles(rng, network, &least));
    (plan.ticks.len() <= MOST_POINTS as usize && even_runs_fit(network, &least)).then_some(plan)
}

/// The plan of these flag words and these profiles, by border, then by node.
pub fn plan_of(network: &Network, flags: Vec<u64>, profiles: &[Points]) -> PlanDraft {
    let points = || profiles.iter().flatten();
    PlanDraft {
        header: PlanHeader {
            number: network.header.number,
            period: network.header.period,
            nodes: network.header.nodes,
            arcs: network.header.arcs,
            cells: network.header.cells,
            borders: borders(network).len() as u32,
            zero: 0,
            points: points().count() as u32,
        },
        flags,
        counts: profiles.iter().map(|profile| profile.len() as u16).collect(),
        ticks: points().map(|point| point.0).collect(),
        travels: points().map(|point| point.1).collect(),
    }
}

fn even_runs_fit(network: &Network, least: &[LeastTravels]) -> bool {
    let period = network.header.period as usize;
    let room = MOST_POINTS as usize;
    if least.len() * network.nodes() * period <= room {
        return true;
    }
    let profiles = least.iter().flat_map(|to_border| to_border.travels.chunks(period));
    let numbers = profiles.filter(|travels| travels[0] != NEVER);
    numbers.map(|travels| even_runs(travels).len()).sum::<usize>() <= room
}

fn arc_travels(network: &Network) -> Vec<Vec<u32>> {
    if borders(network).is_empty() {
        return vec![Vec::new(); network.arcs.len()];
    }
    (0..network.arcs.len())
        .map(|arc| (0..network.header.period).map(|tick| network.arc_travel(arc, u64::from(tick)) as u32).collect())
        .collect()
}

/// What taking an arc at a tick gives to the border, or NEVER.
pub fn given(network: &Network, arc_travels: &[Vec<u32>], least: &LeastTravels, arc: usize, tick: usize) -> u32 {
    let period = network.header.period as usize;
    let travel = arc_travels[arc][tick];
    let after = least.travels[network.arcs[arc].to * period + (tick + travel as usize) % period];
    if after == NEVER {
        NEVER
    } else {
        travel + after
    }
}

fn least_travels(network: &Network, arc_travels: &[Vec<u32>], border: usize) -> LeastTravels {
    let period = network.header.period as usize;
    let mut least = LeastTravels { border, travels: vec![NEVER; network.nodes() * period] };
    least.travels[border * period..][..period].fill(0);
    // Only arcs into a node that got less in the last round can give less in this one.
    let mut changed = vec![false; network.nodes()];
    changed[border] = true;
    while changed.iter().any(|&node| node) {
        let mut next = vec![false; network.nodes()];
        for (number, arc) in network.arcs.iter().enumerate() {
            if !changed[arc.to] {
                continue;
            }
            for tick in 0..period {
                let given = given(network, arc_travels, &least, number, tick);
                let kept = &mut least.travels[arc.from * period + tick];
                if given < *kept {
                    *kept = given;
                    next[arc.from] = true;
                }
            }
        }
        changed = next;
    }
    least
}

fn flags(rng: &mut Rng, network: &Network, arc_travels: &[Vec<u32>], least: &[LeastTravels]) -> Vec<u64> {
    let all = all_cells(network);
    if rng.once_in(6) {
        return vec![all; network.arcs.len()];
    }
    let mut flags = few_flags(rng, network, arc_travels, least);
    if rng.once_in(2) {
        for word in &mut flags {
            *word |= rng.next() & rng.next() & all;
        }
    }
    flags
}

pub fn all_cells(network: &Network) -> u64 {
    u64::MAX >> (64 - network.header.cells)
}

/// Rule (a), and for each border, node and tick one arc that starts a least way, chosen only if none of the
/// flagged ones does.
pub fn few_flags(rng: &mut Rng, network: &Network, arc_travels: &[Vec<u32>], least: &[LeastTravels]) -> Vec<u64> {
    let period = network.header.period as usize;
    let mut flags: Vec<u64> = network
        .arcs
        .iter()
        .map(|arc| {
            let cell = network.cell_of[arc.from];
            if cell == network.cell_of[arc.to] {
                1 << cell
            } else {
                0
            }
        })
        .collect();
    let mut arcs_out = vec![Vec::new(); network.nodes()];
    for (number, arc) in network.arcs.iter().enumerate() {
        arcs_out[arc.from].push(number);
    }
    for to_border in least {
        let bit = 1u64 << network.cell_of[to_border.border];
        for (node, arcs_out) in arcs_out.iter().enumerate() {
            for tick in 0..period {
                let wanted = to_border.travels[node * period + tick];
                if node == to_border.border || wanted == NEVER {
                    continue;
                }
                let starts_least = |&arc: &usize| given(network, arc_travels, to_border, arc, tick) == wanted;
                if arcs_out.iter().filter(|arc| starts_least(arc)).all(|&arc| flags[arc] & bit == 0) {
                    let least_arcs: Vec<usize> = arcs_out.iter().copied().filter(|arc| starts_least(arc)).collect();
                    flags[rng.pick(&least_arcs)] |= bit;
                }
            }
        }
    }
    flags
}

fn profiles(rng: &mut Rng, network: &Network, least: &[LeastTravels]) -> Vec<Points> {
    let period = network.header.period as usize;
    let room = MOST_POINTS as usize;
    let every_tick = least.len() * network.nodes() * period;
    let every_tick_fits = every_tick <= room;
    // A plan that can be filled to its last point is.
    let style = if every_tick == room { 0 } else { rng.below(4) };
    let all_travels = least.iter().flat_map(|to_border| to_border.travels.chunks(period));
    let profile = |travels: &[u32]| match style {
        _ if travels[0] == NEVER => Vec::new(),
        0 if every_tick_fits => at_every_tick(travels),
        1 if every_tick_fits && rng.once_in(2) => at_every_tick(travels),
        2 if period <= 64 => few_points(travels),
        _ => even_runs(travels),
    };
    all_travels.map(profile).collect()
}

pub fn at_every_tick(travels: &[u32]) -> Points {
    travels.iter().enumerate().map(|(tick, &travel)| (tick as u16, travel)).collect()
}

/// Points only where the step from tick to tick changes.
pub fn even_runs(travels: &[u32]) -> Points {
    let period = travels.len();
    let step = |tick: usize| i64::from(travels[(tick + 1) % period]) - i64::from(travels[tick]);
    (0..period)
        .filter(|&tick| tick == 0 || step(tick - 1) != step(tick))
        .map(|tick| (tick as u16, travels[tick]))
        .collect()
}

/// Lines that, rounded up, are true at every tick they pass, each as long as can be.
pub fn few_points(travels: &[u32]) -> Points {
    lines_through(travels, &[])
}

/// Points at these ticks, which rise, and at 0. Between two of them each line reaches on as long as, rounded
/// up, it gives the travel at every tick it passes.
pub fn lines_through(travels: &[u32], ticks: &[usize]) -> Points {
    let period = travels.len();
    let mut points = Vec::new();
    let mut start = 0;
    while start < period {
        points.push((start as u16, travels[start]));
        let next = ticks.iter().copied().find(|&tick| tick > start).unwrap_or(period);
        let reaches = |&end: &usize| line_is_true(travels, start, end);
        start = if reaches(&next) { next } else { (start + 1..next).take_while(reaches).last().unwrap_or(start + 1) };
    }
    points
}

fn line_is_true(travels: &[u32], start: usize, end: usize) -> bool {
    let (first, last) = (u64::from(travels[start]), u64::from(travels[end % travels.len()]));
    let run = (end - start) as u64;
    let sum = |tick: usize| first * (end - tick) as u64 + last * (tick - start) as u64;
    (start..end).all(|tick| u64::from(travels[tick]) == sum(tick).div_ceil(run))
}
