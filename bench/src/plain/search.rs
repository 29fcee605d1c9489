//! The earliest arrival over permitted arcs, stopped at the target, and the chosen path. The tables of arcs are filled in one pass over the
//! validated file. The fewest arcs by which a label came, and the lowest last of them, are noted while arcs are relaxed, so the path needs
//! no second look at them.
use super::network::Network;
use super::points::travel_at;
use super::queue::Queue;

pub const NEVER: u32 = u32::MAX;
const NONE: u16 = u16::MAX;

/// Each arc's head, first point and count of points, and the arcs out of each node as chains.
pub struct Streets {
    heads: [u16; 2048],
    tails: [u16; 2048],
    starts: [u16; 2049],
    first: [u16; 512],
    next: [u16; 2048],
}

impl Streets {
    pub fn new(network: &Network) -> Streets {
        let mut streets = Streets { heads: [0; 2048], tails: [0; 2048], starts: [0; 2049], first: [NONE; 512], next: [NONE; 2048] };
        let mut from = 0;
        for (a, arc) in network.each_arc().take(2048).enumerate() {
            streets.heads[a] = arc.head as u16;
            streets.tails[a] = arc.tail as u16;
            streets.starts[a] = from as u16;
            streets.next[a] = streets.first[arc.tail];
            streets.first[arc.tail] = a as u16;
            from += arc.count;
        }
        streets.starts[network.arcs] = from as u16;
        streets
    }

    /// The tick at which an arc, taken at a tick, ends.
    #[inline(always)]
    pub fn ends_at(&self, network: &Network, arc: usize, tick: u32) -> u32 {
        let from = self.starts[arc] as usize;
        let count = self.starts[arc + 1] as usize - from;
        let x = if tick < network.period { tick } else { tick % network.period };
        tick + travel_at(network, from, count, x)
    }

    /// The arcs out of a node.
    #[inline(always)]
    pub fn out_of(&self, u: usize) -> impl Iterator<Item = usize> + '_ {
        let mut a = self.first[u];
        std::iter::from_fn(move || {
            let arc = a as usize;
            if a == NONE {
                return None;
            }
            a = self.next[arc];
            Some(arc)
        })
    }

    pub fn head(&self, arc: usize) -> usize {
        self.heads[arc] as usize
    }
}

/// Labels, and for each labelled node the number of arcs by which its label came and the last of them, in one number: the lesser is kept.
pub struct Labels {
    pub ticks: [u32; 512],
    notes: [u32; 512],
}

/// More than an arc's number.
const ARCS: u32 = 2048;

/// Labels up to the target's, by settling the nearest node first.
pub fn reach(
    network: &Network,
    streets: &Streets,
    permits: impl Fn(usize) -> bool,
    source: usize,
    target: usize,
    departure: u32,
) -> Labels {
    let mut labels = Labels { ticks: [NEVER; 512], notes: [0; 512] };
    let mut queue = Queue::new(departure);
    labels.ticks[source] = departure;
    queue.push(source, departure);
    while let Some(u) = queue.least() {
        if u == target {
            break;
        }
        let tick = labels.ticks[u];
        queue.remove(u, tick);
        let base = (labels.notes[u] / ARCS + 1) * ARCS;
        for arc in streets.out_of(u) {
            let v = streets.head(arc);
            let old = labels.ticks[v];
            // An arc never ends before it is taken.
            if old <= tick || !permits(arc) {
                continue;
            }
            let end = streets.ends_at(network, arc, tick);
            if end < old {
                if old != NEVER {
                    queue.remove(v, old);
                }
                queue.push(v, end);
                labels.ticks[v] = end;
                labels.notes[v] = base + arc as u32;
            } else if end == old {
                labels.notes[v] = labels.notes[v].min(base + arc as u32);
            }
        }
    }
    labels
}

impl Labels {
    /// How many arcs the chosen path to the target has.
    pub fn count(&self, target: usize) -> usize {
        (self.notes[target] / ARCS) as usize
    }

    /// Hands over the arcs of the chosen path from the last to the first.
    pub fn walk_back(&self, streets: &Streets, source: usize, target: usize, mut take: impl FnMut(u16)) {
        let mut v = target;
        while v != source {
            let arc = self.notes[v] % ARCS;
            take(arc as u16);
            v = streets.tails[arc as usize] as usize;
        }
    }

    /// What is shown of a node's label: never where it is not before the target's.
    pub fn shown(&self, v: usize, target: usize) -> u32 {
        let label = self.ticks[v];
        if label < self.ticks[target] || v == target {
            label
        } else {
            NEVER
        }
    }
}
