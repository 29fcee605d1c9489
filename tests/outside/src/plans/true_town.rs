//! A town with an exact plan, and what is true of it: least travels, and which roads give them when.

use super::towns;
use crate::generate::hours::hours;
use crate::planner::{all_cells, at_every_tick, even_runs, few_flags, few_points, given, lines_through};
use crate::planner::{Exact, Points};
use crate::reference::network::{self, Network};
use crate::reference::NEVER;
use crate::rng::Rng;

pub struct TrueTown {
    pub file: Vec<u8>,
    pub network: Network,
    pub exact: Exact,
    /// The exact plan: flag words by arc, profiles by border, then by node.
    pub flags: Vec<u64>,
    pub profiles: Vec<Points>,
    pub arcs_out: Vec<Vec<usize>>,
    /// By profile and tick: bit i is set where the i-th arc out of the node starts a least way to the border.
    givers: Vec<Vec<u64>>,
    /// The flags of all arcs that start a least way at some tick, and those that rule (a) asks for.
    pub starters: Vec<u64>,
}

impl TrueTown {
    pub fn generate(rng: &mut Rng, number: u64) -> TrueTown {
        let mut draft = towns::town(rng, number);
        if rng.once_in(2) {
            draft.hold_hours(&hours(rng, draft.header.period as usize, draft.header.nodes as usize));
        }
        let file = draft.file();
        let network = network::open(&file).expect("a town made on purpose opens");
        let exact = Exact::of(&network);
        let mut arcs_out = vec![Vec::new(); network.nodes()];
        for (number, arc) in network.arcs.iter().enumerate() {
            arcs_out[arc.from].push(number);
        }
        let mut town = TrueTown {
            file,
            network,
            exact,
            flags: Vec::new(),
            profiles: Vec::new(),
            arcs_out,
            givers: Vec::new(),
            starters: Vec::new(),
        };
        town.profiles = (0..town.profile_count()).map(|profile| written(rng, town.travels(profile))).collect();
        town.givers = (0..town.profile_count()).map(|profile| town.givers_of(profile)).collect();
        town.starters = town.flags_of_starters();
        town.flags = town.enough_flags(rng);
        town
    }

    pub fn period(&self) -> usize {
        self.network.header.period as usize
    }

    pub fn profile_count(&self) -> usize {
        self.exact.least.len() * self.network.nodes()
    }

    /// The border index and the node of a profile.
    pub fn place(&self, profile: usize) -> (usize, usize) {
        (profile / self.network.nodes(), profile % self.network.nodes())
    }

    pub fn is_own(&self, profile: usize) -> bool {
        let (index, node) = self.place(profile);
        self.exact.least[index].border == node
    }

    /// The cell of the border that a profile leads to.
    pub fn cell(&self, profile: usize) -> usize {
        self.network.cell_of[self.exact.least[self.place(profile).0].border]
    }

    /// The least travel at every tick, NEVER where there is no way.
    pub fn travels(&self, profile: usize) -> &[u32] {
        let (index, node) = self.place(profile);
        &self.exact.least[index].travels[node * self.period()..][..self.period()]
    }

    pub fn is_never(&self, profile: usize) -> bool {
        self.travels(profile)[0] == NEVER
    }

    pub fn least(&self, profile: usize, tick: usize) -> Option<u64> {
        let travel = self.travels(profile)[tick];
        (travel != NEVER).then_some(u64::from(travel))
    }

    pub fn givers(&self, profile: usize) -> &[u64] {
        &self.givers[profile]
    }

    /// The arcs out of the profile's node that such bits stand for.
    pub fn arcs_of(&self, profile: usize, bits: u64) -> Vec<usize> {
        let arcs = self.arcs_out[self.place(profile).1].iter().enumerate();
        arcs.filter(|(place, _)| bits >> place & 1 == 1).map(|(_, &arc)| arc).collect()
    }

    /// The bits of the arcs out of the profile's node for which `holds`.
    pub fn bits_of(&self, profile: usize, holds: impl Fn(usize) -> bool) -> u64 {
        let arcs = self.arcs_out[self.place(profile).1].iter().enumerate();
        arcs.map(|(place, &arc)| u64::from(holds(arc)) << place).sum()
    }

    /// "a road with both ends in cell c".
    pub fn is_inner(&self, arc: usize, cell: usize) -> bool {
        let arc = &self.network.arcs[arc];
        self.network.cell_of[arc.from] == cell && self.network.cell_of[arc.to] == cell
    }

    fn givers_of(&self, profile: usize) -> Vec<u64> {
        let (index, _) = self.place(profile);
        let least = &self.exact.least[index];
        let given = |arc, tick| given(&self.network, &self.exact.arc_travels, least, arc, tick);
        let gives = |tick: usize, travel: u32| self.bits_of(profile, |arc| given(arc, tick) == travel);
        let travels = self.travels(profile).iter().enumerate();
        let asks = !self.is_own(profile) && !self.is_never(profile);
        travels.map(|(tick, &travel)| if asks { gives(tick, travel) } else { 0 }).collect()
    }

    fn flags_of_starters(&self) -> Vec<u64> {
        let cell_of = &self.network.cell_of;
        let inner = |arc: usize| u64::from(self.is_inner(arc, cell_of[self.network.arcs[arc].to]));
        let arcs = self.network.arcs.iter().enumerate();
        let mut flags: Vec<u64> = arcs.map(|(number, arc)| inner(number) << cell_of[arc.to]).collect();
        for profile in 0..self.profile_count() {
            let ever = self.givers[profile].iter().fold(0, |all, bits| all | bits);
            for arc in self.arcs_of(profile, ever) {
                flags[arc] |= 1 << self.cell(profile);
            }
        }
        flags
    }

    fn enough_flags(&self, rng: &mut Rng) -> Vec<u64> {
        match rng.below(3) {
            0 => vec![all_cells(&self.network); self.network.arcs.len()],
            1 => few_flags(rng, &self.network, &self.exact.arc_travels, &self.exact.least),
            _ => self.starters.clone(),
        }
    }
}

/// A profile with as few points as lines rounded up need, where the steps change, with some more, or all.
fn written(rng: &mut Rng, travels: &[u32]) -> Points {
    let period = travels.len();
    match rng.below(5) {
        _ if travels[0] == NEVER => Vec::new(),
        0 if period <= 60 || rng.once_in(5) => at_every_tick(travels),
        1 => even_runs(travels),
        2 => {
            let mut ticks: Vec<usize> = (0..rng.below(6)).map(|_| rng.below(period)).collect();
            ticks.sort();
            lines_through(travels, &ticks)
        }
        _ => few_points(travels),
    }
}
