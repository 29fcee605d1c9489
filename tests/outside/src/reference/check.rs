//! The check's own tests, 20 to 24, straight from their sentences, over a well-formed plan.
//! Each of 21 to 24 is tried at every border, node and tick; the lowest number that fails anywhere wins and
//! its places are where it fails first.

use super::network::Network;
use super::plan::{profile_at, Plan};
use super::{refuse, Refusal};

pub fn check(network: &Network, plan: &Plan) -> Result<(), Refusal> {
    judge_rule_a(network, plan)?;
    for (number, failure) in (21..).zip(first_failures(network, plan)) {
        if let Some(places) = failure {
            return Err(Refusal { number, places });
        }
    }
    Ok(())
}

/// "a road with both ends in cell c has bit c".
pub fn judge_rule_a(network: &Network, plan: &Plan) -> Result<(), Refusal> {
    for (number, arc) in network.arcs.iter().enumerate() {
        let cell = network.cell_of[arc.from];
        if cell == network.cell_of[arc.to] && !plan.has_flag(number, cell) {
            return refuse(20, number);
        }
    }
    Ok(())
}

/// Where each of 21, 22, 23 and 24 fails first: border index, node, tick.
fn first_failures(network: &Network, plan: &Plan) -> [Option<[u32; 3]>; 4] {
    let travels = arc_travels(network, plan);
    let arcs_out = arcs_out_of_nodes(network);
    let mut first = [None; 4];
    for (index, &border) in plan.borders.iter().enumerate() {
        let says = profile_values(network, plan, index);
        for (node, arcs_out) in arcs_out.iter().enumerate() {
            for tick in 0..network.header.period as usize {
                let here = Place { network, plan, border, node, tick, arcs_out };
                let fails = here.fails(&travels, &says);
                for (kept, fails_now) in first.iter_mut().zip(fails) {
                    if fails_now && kept.is_none() {
                        *kept = Some([index as u32, node as u32, tick as u32]);
                    }
                }
            }
        }
    }
    first
}

/// Where a test is tried.
struct Place<'a> {
    network: &'a Network,
    plan: &'a Plan,
    border: usize,
    node: usize,
    tick: usize,
    arcs_out: &'a [usize],
}

impl Place<'_> {
    /// Which of 21, 22, 23, 24 fail here, given all arcs' travels and what this border's profiles say.
    fn fails(&self, travels: &[Vec<u32>], says: &[Vec<Option<u64>>]) -> [bool; 4] {
        let profile = says[self.node][self.tick];
        let at_border = self.node == self.border;
        let cell = self.network.cell_of[self.border];
        let mut some_gives_less = false;
        let mut some_gives_it = false;
        let mut some_flagged_gives_it = false;
        for &arc in self.arcs_out {
            let gives = self.arc_gives(arc, travels, says);
            some_gives_less |= is_less(gives, profile);
            if gives == profile {
                some_gives_it = true;
                some_flagged_gives_it |= self.plan.has_flag(arc, cell);
            }
        }
        let is_number = profile.is_some();
        [
            at_border && profile != Some(0),
            some_gives_less,
            is_number && !at_border && !some_gives_it,
            is_number && some_gives_it && !some_flagged_gives_it,
        ]
    }

    /// "A road gives its travel at that tick plus its end's profile at the tick it ends."
    fn arc_gives(&self, arc: usize, travels: &[Vec<u32>], says: &[Vec<Option<u64>>]) -> Option<u64> {
        let travel = travels[arc][self.tick];
        let ends = (self.tick + travel as usize) % self.network.header.period as usize;
        let end_says = says[self.network.arcs[arc].to][ends]?;
        Some(u64::from(travel) + end_says)
    }
}

/// "never counting as more than any number".
fn is_less(a: Option<u64>, b: Option<u64>) -> bool {
    match (a, b) {
        (Some(a), Some(b)) => a < b,
        (Some(_), None) => true,
        (None, _) => false,
    }
}

/// Every arc's travel at every tick, worked out once; none where there is no border to ask for it.
fn arc_travels(network: &Network, plan: &Plan) -> Vec<Vec<u32>> {
    if plan.borders.is_empty() {
        return Vec::new();
    }
    (0..network.arcs.len())
        .map(|arc| (0..network.header.period).map(|tick| network.arc_travel(arc, u64::from(tick)) as u32).collect())
        .collect()
}

fn arcs_out_of_nodes(network: &Network) -> Vec<Vec<usize>> {
    let mut out = vec![Vec::new(); network.nodes()];
    for (number, arc) in network.arcs.iter().enumerate() {
        out[arc.from].push(number);
    }
    out
}

/// What the profiles to one border say, by node and tick.
fn profile_values(network: &Network, plan: &Plan, border_index: usize) -> Vec<Vec<Option<u64>>> {
    let period = network.header.period;
    (0..network.nodes())
        .map(|node| {
            let profile = &plan.profiles[border_index * network.nodes() + node];
            (0..period).map(|tick| profile_at(profile, u64::from(tick), period)).collect()
        })
        .collect()
}
