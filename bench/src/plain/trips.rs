//! The trips: validation of the files, the search, and its outcome either in lists or as document 01's answer in bytes.
use super::network::{validate, Network};
use super::plan::{validate_plan, Plan};
use super::search::{reach, Labels, Streets, NEVER};
use super::{refuse, Refusal};

/// What a trip is asked for.
#[derive(Clone, Copy, Debug, PartialEq, Eq)]
pub struct Ask {
    pub from: u32,
    pub to: u32,
    pub departure: u32,
}

impl Ask {
    fn source(&self) -> usize {
        self.from as usize
    }

    fn target(&self) -> usize {
        self.to as usize
    }
}

/// Where a trip ends: the tick of arrival, the count of roads, and the first tick from then on at which the target is open.
#[derive(Clone, Copy, Debug, PartialEq, Eq)]
pub struct Arrived {
    pub tick: u32,
    pub count: usize,
    pub open: u32,
}

/// Refusals 25 to 27.
fn judge_ask(network: &Network, ask: &Ask, room: usize) -> Result<(), Refusal> {
    if let Some(node) = [ask.from, ask.to].into_iter().find(|&node| node >= network.header.nodes) {
        return Err(refuse(25, node as usize));
    }
    if ask.departure >= network.period {
        return Err(refuse(26, 0));
    }
    if room < network.nodes {
        return Err(refuse(27, 0));
    }
    Ok(())
}

/// A search that was made, before its outcome is told.
struct Searched {
    streets: Streets,
    labels: Labels,
    nodes: usize,
    period: u32,
    /// The target's.
    hours: (u16, u16),
}

fn search_plain(network: &Network, ask: &Ask) -> Searched {
    let streets = Streets::new(network);
    let labels = reach(network, &streets, |_| true, ask.source(), ask.target(), ask.departure);
    Searched { streets, labels, nodes: network.nodes, period: network.period, hours: network.hours(ask.target()) }
}

fn search_flagged(network: &Network, plan: &Plan, ask: &Ask) -> Searched {
    let streets = Streets::new(network);
    let cell = network.cell(ask.target());
    let permits = |arc: usize| plan.flags(arc) >> cell & 1 == 1;
    let labels = reach(network, &streets, permits, ask.source(), ask.target(), ask.departure);
    Searched { streets, labels, nodes: network.nodes, period: network.period, hours: network.hours(ask.target()) }
}

fn plain(network: &[u8], ask: &Ask, room: usize) -> Result<Searched, Refusal> {
    let network = validate(network)?;
    judge_ask(&network, ask, room)?;
    Ok(search_plain(&network, ask))
}

fn flagged(network: &[u8], plan: &[u8], ask: &Ask, room: usize) -> Result<Searched, Refusal> {
    let network = validate(network)?;
    let plan = validate_plan(&network, plan)?;
    judge_ask(&network, ask, room)?;
    Ok(search_flagged(&network, &plan, ask))
}

/// The first tick from the arrival on at which the target is open.
fn open_tick(searched: &Searched, arrival: u32) -> u32 {
    let (open, close) = (searched.hours.0 as u32, searched.hours.1 as u32);
    let tick = arrival % searched.period;
    match tick {
        _ if tick < open => arrival - tick + open,
        _ if tick < close => arrival,
        _ => arrival - tick + searched.period + open,
    }
}

/// Where the trip ends, with both lists written.
fn tell(searched: &Searched, ask: &Ask, arrivals: &mut [u32], roads: &mut [u16]) -> Result<Arrived, Refusal> {
    let (source, target) = (ask.source(), ask.target());
    for (v, arrival) in arrivals[..searched.nodes].iter_mut().enumerate() {
        *arrival = searched.labels.shown(v, target);
    }
    let tick = searched.labels.ticks[target];
    if tick == NEVER {
        return Err(refuse(28, 0));
    }
    let count = searched.labels.count(target);
    if roads.len() < count {
        return Err(refuse(29, 0));
    }
    let mut at = count;
    searched.labels.walk_back(&searched.streets, source, target, |arc| {
        at -= 1;
        roads[at] = arc;
    });
    Ok(Arrived { tick, count, open: open_tick(searched, tick) })
}

pub fn plain_trip_lists(network: &[u8], ask: &Ask, arrivals: &mut [u32], roads: &mut [u16]) -> Result<Arrived, Refusal> {
    let searched = plain(network, ask, arrivals.len())?;
    tell(&searched, ask, arrivals, roads)
}

pub fn flagged_trip_lists(network: &[u8], plan: &[u8], ask: &Ask, arrivals: &mut [u32], roads: &mut [u16]) -> Result<Arrived, Refusal> {
    let searched = flagged(network, plan, ask, arrivals.len())?;
    tell(&searched, ask, arrivals, roads)
}

const ANSWER_BYTES: usize = 1032;

/// Document 01's answer: refusal or 0, arrival, count, roads. Returns the refusal or 0.
fn answer(outcome: Result<Arrived, Refusal>, roads: &[u16], out: &mut [u8]) -> u32 {
    let (number, tick, count) = match outcome {
        Ok(arrived) => (0, arrived.tick, arrived.count),
        Err(refusal) => (refusal.number, 0, 0),
    };
    out[0..4].copy_from_slice(&number.to_le_bytes());
    out[4..8].copy_from_slice(&tick.to_le_bytes());
    out[8..10].copy_from_slice(&(count as u16).to_le_bytes());
    for (slot, road) in out[10..].as_chunks_mut::<2>().0.iter_mut().zip(&roads[..count]) {
        *slot = road.to_le_bytes();
    }
    number
}

pub fn plain_trip(network: &[u8], out: &mut [u8], ask: &Ask) -> u32 {
    if out.len() < ANSWER_BYTES {
        return 31;
    }
    let mut roads = [0; 512];
    let outcome = plain_trip_lists(network, ask, &mut [NEVER; 512], &mut roads);
    answer(outcome, &roads, out)
}

pub fn flagged_trip(network: &[u8], plan: &[u8], out: &mut [u8], ask: &Ask) -> u32 {
    if out.len() < ANSWER_BYTES {
        return 31;
    }
    let mut roads = [0; 512];
    let outcome = flagged_trip_lists(network, plan, ask, &mut [NEVER; 512], &mut roads);
    answer(outcome, &roads, out)
}
