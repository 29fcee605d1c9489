//! The sheet for a whole day: least travels to the target from every node at every tick, by a search backwards over whole rows that takes
//! the nearest changed node first; then the row of the source, with its ticks added.
use super::network::{validate, Network};
use super::points::{points_of, tick, travel};
use super::{refuse, Refusal};

const NEVER: u32 = u32::MAX;
const NONE: u16 = u16::MAX;

/// All points in one list, each arc's tail, first point and least travel, and the arcs into each node as chains.
struct Streets {
    points: Vec<(u32, u32)>,
    tails: [u16; 2048],
    starts: [u16; 2049],
    least: [u32; 2048],
    into: [u16; 512],
    next: [u16; 2048],
}

impl Streets {
    fn new(network: &Network) -> Streets {
        let points: Vec<(u32, u32)> = network.point_blocks.iter().flat_map(points_of).map(|point| (tick(point), travel(point))).collect();
        let mut streets = Streets { points, tails: [0; 2048], starts: [0; 2049], least: [0; 2048], into: [NONE; 512], next: [NONE; 2048] };
        let mut from = 0;
        for (a, arc) in network.each_arc().take(2048).enumerate() {
            streets.tails[a] = arc.tail as u16;
            streets.starts[a] = from as u16;
            streets.least[a] = streets.points[from..from + arc.count].iter().map(|point| point.1).min().expect("a road has points");
            streets.next[a] = streets.into[arc.head];
            streets.into[arc.head] = a as u16;
            from += arc.count;
        }
        streets.starts[network.arcs] = from as u16;
        streets
    }

    /// Lowers the tail's row by what the arc gives at every tick, where `head` is its head's row. Answers whether an entry fell.
    fn lower(&self, arc: usize, head: &[u32], row: &mut [u32]) -> bool {
        let period = row.len() as u32;
        let points = &self.points[self.starts[arc] as usize..self.starts[arc + 1] as usize];
        let mut fell = false;
        for (k, &(a, v)) in points.iter().enumerate() {
            let (b, w) = points.get(k + 1).copied().unwrap_or((period, points[0].1));
            fell |= if (b - a) / RUN >= v.abs_diff(w) { in_runs((a, v), (b, w), head, row) } else { each_tick((a, v), (b, w), head, row) };
        }
        fell
    }
}

/// Runs of so many ticks of equal travel or more are taken at once.
const RUN: u32 = 4;

/// A piece of long runs of equal travel, by one division for where they end.
fn in_runs((a, v): (u32, u32), (b, w): (u32, u32), head: &[u32], row: &mut [u32]) -> bool {
    let steps = v.abs_diff(w);
    if steps == 0 {
        return level(a, b, v, head, row);
    }
    // The line rounded up changes behind each whole part of the piece where it rises, and at the next tick from it on where it falls.
    let (each, over) = ((b - a) / steps, (b - a) % steps);
    let (mut x, mut travel, mut fell) = (a, v, false);
    let (mut end, mut rest) = (a, if v < w { 0 } else { steps - 1 });
    if v < w {
        fell |= level(a, a + 1, v, head, row);
        (x, travel) = (a + 1, v + 1);
    }
    for _ in 0..steps {
        end += each;
        rest += over;
        if rest >= steps {
            rest -= steps;
            end += 1;
        }
        let until = if v < w { end + 1 } else { end }.min(b);
        fell |= level(x, until, travel, head, row);
        x = until;
        travel = if v < w { travel + 1 } else { travel - 1 };
    }
    fell
}

/// A piece of equal travel: two spans, before and after midnight, that become vector code.
fn level(a: u32, b: u32, travel: u32, head: &[u32], row: &mut [u32]) -> bool {
    let period = row.len() as u32;
    let midnight = (period - travel).clamp(a, b);
    let mut fell = span(&head[(a + travel).min(period) as usize..], travel, &mut row[a as usize..midnight as usize]);
    if midnight < b {
        fell |= span(&head[(midnight + travel - period) as usize..], travel, &mut row[midnight as usize..b as usize]);
    }
    fell
}

#[inline(always)]
fn span(head: &[u32], travel: u32, row: &mut [u32]) -> bool {
    let mut fell = false;
    for (entry, &onward) in row.iter_mut().zip(head) {
        let given = onward + travel;
        fell |= given < *entry;
        *entry = given.min(*entry);
    }
    fell
}

/// A steep piece: the line rounded up, tick by tick, by one division for its steps.
fn each_tick((a, v): (u32, u32), (b, w): (u32, u32), head: &[u32], row: &mut [u32]) -> bool {
    let period = row.len() as u32;
    let wide = b - a;
    let (step, over) = if v < w { ((w - v) / wide, (w - v) % wide) } else { (0, v - w) };
    let (mut travel, mut rest, mut fell) = (v, if v < w { wide - 1 } else { 0 }, false);
    for x in a..b {
        let end = x + travel;
        let given = head[if end < period { end } else { end - period } as usize] + travel;
        fell |= given < row[x as usize];
        row[x as usize] = given.min(row[x as usize]);
        rest += over;
        let carry = rest >= wide;
        rest -= if carry { wide } else { 0 };
        travel = if v < w { travel + step + carry as u32 } else { travel - carry as u32 };
    }
    fell
}

/// The least travels to a node.
fn travels_to(streets: &Streets, to: usize, period: usize, work: &mut [u32]) {
    work.fill(NEVER);
    work[to * period..(to + 1) * period].fill(0);
    // The least entry of a changed node's row, and the greatest entry of every row.
    let (mut near, mut high) = ([NEVER; 512], [NEVER; 512]);
    let mut head = vec![0; period];
    (near[to], high[to]) = (0, 0);
    loop {
        let low = near.iter().copied().min().expect("there are nodes");
        if low == NEVER {
            return;
        }
        let v = near.iter().position(|&entry| entry == low).expect("the least is there");
        near[v] = NEVER;
        head.copy_from_slice(&work[v * period..(v + 1) * period]);
        let mut a = streets.into[v];
        while a != NONE {
            let arc = a as usize;
            a = streets.next[arc];
            let u = streets.tails[arc] as usize;
            let row = &mut work[u * period..(u + 1) * period];
            if low + streets.least[arc] < high[u] && streets.lower(arc, &head, row) {
                near[u] = row.iter().copied().min().expect("a day has ticks");
                high[u] = row.iter().copied().max().expect("a day has ticks");
            }
        }
    }
}

/// Refusals 1 to 10, 25, 34, 31 and 28, or the period with the list filled; past 31 the work list ends as zero.
pub fn day_sheet(network: &[u8], from: u32, to: u32, work: &mut [u32], list: &mut [u32]) -> Result<usize, Refusal> {
    let network = validate(network)?;
    if let Some(node) = [from, to].into_iter().find(|&node| node >= network.header.nodes) {
        return Err(refuse(25, node as usize));
    }
    let period = network.period as usize;
    let Some(work) = work.get_mut(..period * network.nodes) else {
        return Err(refuse(34, 0));
    };
    if list.len() < period {
        return Err(refuse(31, 0));
    }
    travels_to(&Streets::new(&network), to as usize, period, work);
    let row = &work[from as usize * period..][..period];
    let has_way = row[0] != NEVER;
    if has_way {
        for (t, (entry, &travel)) in list.iter_mut().zip(row).enumerate() {
            *entry = t as u32 + travel;
        }
    }
    work.fill(0);
    if has_way {
        Ok(period)
    } else {
        Err(refuse(28, 0))
    }
}
