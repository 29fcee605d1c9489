//! Document 02's wish 1: a whole plan made from a network alone, and what a call of the planner leaves.
//! A way is its first arc and then a way on from that arc's end, so the least travel is the least that any
//! arc out gives; that is all that is used here.

use super::blocks::{write_file, COUNTS, FLAGS, PLAN_HEADER, PROFILE_POINTS};
use super::line::Point;
use super::network::Network;
use super::plan::{borders, Plan, MOST_POINTS};
use super::{refuse, Refusal};
use std::collections::VecDeque;

/// How many entries the lent lists have.
#[derive(Clone, Copy, Debug, PartialEq, Eq)]
pub struct MakeLengths {
    pub work: usize,
    pub out: usize,
}

/// A call's answer, and how many of the first work entries end as zero (none: the list is untouched).
pub struct MadeCall<'a> {
    pub answer: Result<&'a [u8], Refusal>,
    pub zeroed: usize,
}

/// P × N.
pub fn work_entries(network: &Network) -> usize {
    network.header.period as usize * network.nodes()
}

/// "34 work list shorter than P × N, then 33 profile points above 1,048,576, then 31; all after 10. Past 34
/// the first P × N work entries end as zero; up to it they are untouched." `file` is the whole plan's, none
/// where it has too many points.
pub fn make_plan<'a>(network: &Network, file: Option<&'a [u8]>, lengths: MakeLengths) -> MadeCall<'a> {
    let entries = work_entries(network);
    if lengths.work < entries {
        return MadeCall { answer: refuse(34, 0), zeroed: 0 };
    }
    let answer = match file {
        None => refuse(33, 0),
        Some(file) if lengths.out < file.len() => refuse(31, 0),
        Some(file) => Ok(file),
    };
    MadeCall { answer, zeroed: entries }
}

/// The least travel from a node to one border at each tick below P; none: never.
type Travels = Option<Vec<u32>>;

/// The whole plan, or none if its profiles have more points than a plan may have.
pub fn whole_plan(network: &Network) -> Option<Plan> {
    let borders = borders(network);
    let arcs = Arcs::of(network, !borders.is_empty());
    let mut plan = Plan { borders, flags: flags_of_inner_arcs(network), profiles: Vec::new() };
    let mut points = 0;
    for &border in &plan.borders {
        let least = arcs.least_travels(border);
        let bit = 1 << network.cell_of[border];
        for (arc, word) in plan.flags.iter_mut().enumerate() {
            if arcs.starts_a_least_way(arc, &least) {
                *word |= bit;
            }
        }
        for travels in &least {
            let profile = travels.as_deref().map_or(Vec::new(), profile_of);
            points += profile.len();
            plan.profiles.push(profile);
        }
        // More borders only add to them.
        if points > MOST_POINTS as usize {
            return None;
        }
    }
    Some(plan)
}

/// "A road gets bit c exactly when both ends lie in cell c, or ..": the first half.
fn flags_of_inner_arcs(network: &Network) -> Vec<u64> {
    let cell_of = &network.cell_of;
    let inner = |from: usize, to: usize| if cell_of[from] == cell_of[to] { 1 << cell_of[from] } else { 0 };
    network.arcs.iter().map(|arc| inner(arc.from, arc.to)).collect()
}

/// The network's arcs by where they end, and how long each takes at each tick below P.
struct Arcs<'a> {
    network: &'a Network,
    period: usize,
    into: Vec<Vec<usize>>,
    travels: Vec<Vec<u32>>,
}

impl Arcs<'_> {
    /// Without a border nobody asks for the travels.
    fn of(network: &Network, any_border: bool) -> Arcs<'_> {
        let mut into = vec![Vec::new(); network.nodes()];
        for (number, arc) in network.arcs.iter().enumerate() {
            into[arc.to].push(number);
        }
        let ticks = if any_border { u64::from(network.header.period) } else { 0 };
        let day_of = |arc| (0..ticks).map(|tick| network.arc_travel(arc, tick) as u32).collect();
        let travels = (0..network.arcs.len()).map(day_of).collect();
        Arcs { network, period: network.header.period as usize, into, travels }
    }

    /// An arc taken at each tick, and then a least way on from its end.
    fn gives<'b>(&'b self, arc: usize, from_end: &'b [u32]) -> impl Iterator<Item = u32> + 'b {
        self.travels[arc].iter().enumerate().map(|(tick, &travel)| {
            let ends = (tick as u32 + travel) % self.period as u32;
            travel + from_end[ends as usize]
        })
    }

    /// The least travels to a border from every node. A node whose travels got less is looked at again: what
    /// the arcs into it give may be less now. In the end no arc gives less.
    fn least_travels(&self, border: usize) -> Vec<Travels> {
        let mut least: Vec<Travels> = vec![None; self.network.nodes()];
        least[border] = Some(vec![0; self.period]);
        let mut waiting = VecDeque::from([border]);
        let mut waits = vec![false; self.network.nodes()];
        while let Some(node) = waiting.pop_front() {
            waits[node] = false;
            let from_end = least[node].take().expect("only a node with travels waits");
            for &arc in &self.into[node] {
                let start = self.network.arcs[arc].from;
                if lower(&mut least[start], self.gives(arc, &from_end)) && !waits[start] {
                    waits[start] = true;
                    waiting.push_back(start);
                }
            }
            least[node] = Some(from_end);
        }
        least
    }

    /// "it starts a least way to some border of c at some tick". An arc out of the border itself gives more
    /// than 0, which is the least from there, so it never does.
    fn starts_a_least_way(&self, arc: usize, least: &[Travels]) -> bool {
        let ends = &self.network.arcs[arc];
        match (&least[ends.from], &least[ends.to]) {
            (Some(from_start), Some(from_end)) => {
                self.gives(arc, from_end).zip(from_start).any(|(given, &least)| given == least)
            }
            _ => false,
        }
    }
}

/// Keeps what is less, tick by tick, and says whether anything is.
fn lower(kept: &mut Travels, given: impl Iterator<Item = u32>) -> bool {
    let Some(kept) = kept else {
        *kept = Some(given.collect());
        return true;
    };
    let mut lowered = false;
    for (kept, given) in kept.iter_mut().zip(given) {
        if given < *kept {
            *kept = given;
            lowered = true;
        }
    }
    lowered
}

/// "a point at tick 0, and at each later tick where the step to the next tick differs from the step before
/// it, the period's end counting as the next day's tick 0, and no other".
fn profile_of(travels: &[u32]) -> Vec<Point> {
    let travel = |tick: usize| i64::from(travels[tick % travels.len()]);
    let step = |tick: usize| travel(tick + 1) - travel(tick);
    (0..travels.len())
        .filter(|&tick| tick == 0 || step(tick) != step(tick - 1))
        .map(|tick| Point { tick: tick as u32, travel: travels[tick] })
        .collect()
}

/// A plan's bytes: "one kind 5 (network number at 8; P, N, R, K, borders, then 16 zero bits, from 12; profile
/// points, 32 bits, at 24 ..). Kind 6, flag words .. Kind 7, points of a profile .. Kind 8, tick .. travel".
pub fn plan_file(network: &Network, plan: &Plan) -> Vec<u8> {
    let header = &network.header;
    let borders = plan.borders.len() as u32;
    let points: usize = plan.profiles.iter().map(Vec::len).sum();
    let mut first = header.number.to_le_bytes().to_vec();
    for number in [header.period, header.nodes, header.arcs, header.cells, borders, 0] {
        first.extend_from_slice(&(number as u16).to_le_bytes());
    }
    first.extend_from_slice(&(points as u32).to_le_bytes());
    let mut flags = Vec::new();
    for word in &plan.flags {
        flags.extend_from_slice(&word.to_le_bytes());
    }
    let mut counts = Vec::new();
    let mut entries = Vec::new();
    for profile in &plan.profiles {
        counts.extend_from_slice(&(profile.len() as u16).to_le_bytes());
        for point in profile {
            entries.extend_from_slice(&(point.tick as u16).to_le_bytes());
            entries.extend_from_slice(&point.travel.to_le_bytes());
        }
    }
    write_file(PLAN_HEADER, &first, &[(FLAGS, flags), (COUNTS, counts), (PROFILE_POINTS, entries)])
}
