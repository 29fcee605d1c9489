//! The check of a plan, twice. `check_each_tick` finds a segment and divides at each tick, in one pass over borders, nodes and ticks.
//! `check_swept` unfolds travels and profiles into tables first, so that no tick costs a search or a division.
use super::network::{validate, Network};
use super::plan::{points_of, tick, travel, validate_plan, Plan, POINTS};
use super::points;
use super::search::Streets;
use super::{refuse, Refusal};

/// No way: above every 32-bit number and a travel.
const NEVER: u64 = u64::MAX;

/// The first triple at which each of the tests 21 to 24 fails.
#[derive(Default)]
struct Faults {
    first: [Option<[u32; 3]>; 4],
}

impl Faults {
    fn note(&mut self, number: usize, border: usize, node: usize, tick: usize) {
        let place = [border as u32, node as u32, tick as u32];
        self.first[number - 21].get_or_insert(place);
    }

    fn verdict(&self) -> Result<(), Refusal> {
        match (21..25).zip(self.first).find_map(|(number, first)| first.map(|places| (number, places))) {
            Some((number, places)) => Err(Refusal { number, places }),
            None => Ok(()),
        }
    }
}

/// Test 20.
fn judge_inside(network: &Network, plan: &Plan) -> Result<(), Refusal> {
    for (a, arc) in network.each_arc().enumerate() {
        let cell = network.cell(arc.head);
        if network.cell(arc.tail) == cell && plan.flags(a) >> cell & 1 == 0 {
            return Err(refuse(20, a));
        }
    }
    Ok(())
}

fn border_nodes(network: &Network, plan: &Plan) -> Vec<usize> {
    (0..network.nodes).filter(|&v| plan.border_marks[v]).collect()
}

/// Where the profiles of one border start, and their counts.
struct Profiles {
    starts: [u32; 512],
    counts: [u16; 512],
    end: usize,
}

impl Profiles {
    fn new(plan: &Plan, nodes: usize, border: usize, from: usize) -> Profiles {
        let mut profiles = Profiles { starts: [0; 512], counts: [0; 512], end: from };
        for u in 0..nodes {
            let count = plan.count(border * nodes + u);
            profiles.starts[u] = profiles.end as u32;
            profiles.counts[u] = count as u16;
            profiles.end += count;
        }
        profiles
    }

    /// The value of node u's profile at tick x, by a binary search.
    #[inline(always)]
    fn value_at(&self, plan: &Plan, period: u32, u: usize, x: u32) -> u64 {
        let (from, count) = (self.starts[u] as usize, self.counts[u] as usize);
        if count == 0 {
            return NEVER;
        }
        let mut base = from;
        let mut size = count;
        while size > 1 {
            let half = size / 2;
            base = if tick(plan.point(base + half)) <= x { base + half } else { base };
            size -= half;
        }
        let point = plan.point(base);
        let (b, w) = if base + 1 < from + count {
            let next = plan.point(base + 1);
            (tick(next), travel(next))
        } else {
            (period, travel(plan.point(from)))
        };
        let a = tick(point);
        (travel(point) as u64 * (b - x) as u64 + w as u64 * (x - a) as u64).div_ceil((b - a) as u64)
    }
}

/// What the arcs out of a node give at a tick, against the node's value.
#[derive(Clone, Copy, Default)]
struct Given {
    less: bool,
    same: bool,
    flagged: bool,
}

impl Given {
    #[inline(always)]
    fn add(&mut self, gives: u64, value: u64, is_flagged: bool) {
        self.less |= gives < value;
        self.same |= gives == value;
        self.flagged |= gives == value && is_flagged;
    }

    /// Notes the tests that fail at border number i, node u and tick x.
    #[inline(always)]
    fn judge(&self, faults: &mut Faults, value: u64, is_border: bool, [i, u, x]: [usize; 3]) {
        let is_number = value != NEVER;
        if is_border && value != 0 {
            faults.note(21, i, u, x);
        }
        if self.less {
            faults.note(22, i, u, x);
        }
        if is_number && !is_border && !self.same {
            faults.note(23, i, u, x);
        }
        if is_number && self.same && !self.flagged {
            faults.note(24, i, u, x);
        }
    }
}

/// The check with a search and a division at each tick.
pub fn check_each_tick(network: &[u8], plan: &[u8]) -> Result<(), Refusal> {
    let network = validate(network)?;
    let plan = validate_plan(&network, plan)?;
    judge_inside(&network, &plan)?;
    let streets = Streets::new(&network);
    let mut faults = Faults::default();
    let mut from = 0;
    for (i, border) in border_nodes(&network, &plan).into_iter().enumerate() {
        let profiles = Profiles::new(&plan, network.nodes, i, from);
        from = profiles.end;
        let cell = network.cell(border);
        for u in 0..network.nodes {
            for x in 0..network.period {
                let value = profiles.value_at(&plan, network.period, u, x);
                let mut given = Given::default();
                for arc in streets.out_of(u) {
                    let end = streets.ends_at(&network, arc, x);
                    let day = if end < network.period { end } else { end % network.period };
                    let onward = profiles.value_at(&plan, network.period, streets.head(arc), day);
                    let gives = if onward == NEVER { NEVER } else { (end - x) as u64 + onward };
                    given.add(gives, value, plan.flags(arc) >> cell & 1 == 1);
                }
                if value == NEVER {
                    given.same = false;
                }
                given.judge(&mut faults, value, u == border, [i, u, x as usize]);
            }
        }
    }
    faults.verdict()
}

/// The values of a line from (a, v) up to (b, w), b left out, rounded up: each from the one before, without a division.
#[inline(always)]
fn unfold_line(out: &mut [u32], v: u32, w: u32) {
    let width = out.len() as i64;
    let rise = w as i64 - v as i64;
    let (whole, part) = (rise.div_euclid(width), rise.rem_euclid(width));
    let (mut value, mut rest) = (v as i64, width - 1);
    for slot in out {
        *slot = value as u32;
        value += whole;
        rest += part;
        if rest >= width {
            rest -= width;
            value += 1;
        }
    }
}

/// A day's values by points that come in their order.
#[inline(always)]
fn unfold(day: &mut [u32], points: impl Iterator<Item = (u32, u32)>) {
    let mut before: Option<(u32, u32)> = None;
    let mut first = 0;
    for (b, w) in points {
        match before {
            Some((a, v)) => unfold_line(&mut day[a as usize..b as usize], v, w),
            None => first = w,
        }
        before = Some((b, w));
    }
    if let Some((a, v)) = before {
        unfold_line(&mut day[a as usize..], v, first);
    }
}

/// Each arc's travel at each tick.
fn unfold_arcs(network: &Network) -> Vec<u32> {
    let period = network.period as usize;
    let mut travels = vec![0; network.arcs * period];
    let mut all = network.point_blocks.iter().flat_map(points::points_of);
    for (arc, day) in network.each_arc().zip(travels.chunks_exact_mut(period)) {
        let own = all.by_ref().take(arc.count);
        unfold(day, own.map(|point| (points::tick(point), points::travel(point))));
    }
    travels
}

/// The profiles of one border at each tick.
fn unfold_profiles(plan: &Plan, profiles: &Profiles, nodes: usize, period: usize, values: &mut [u32]) {
    for (u, day) in values.chunks_exact_mut(period).enumerate().take(nodes) {
        let (from, count) = (profiles.starts[u] as usize, profiles.counts[u] as usize);
        let (block, slot) = (from / POINTS.per, from % POINTS.per);
        let blocks = plan.point_blocks.get(block..).unwrap_or(&[]);
        let own = blocks.iter().flat_map(points_of).skip(slot).take(count);
        unfold(day, own.map(|point| (tick(point), travel(point))));
    }
}

/// The check by tables.
pub fn check_swept(network: &[u8], plan: &[u8]) -> Result<(), Refusal> {
    let network = validate(network)?;
    let plan = validate_plan(&network, plan)?;
    judge_inside(&network, &plan)?;
    let streets = Streets::new(&network);
    let (nodes, period) = (network.nodes, network.period as usize);
    let travels = unfold_arcs(&network);
    let mut values = vec![0; nodes * period];
    let mut given = vec![Given::default(); period];
    let mut faults = Faults::default();
    let mut from = 0;
    for (i, border) in border_nodes(&network, &plan).into_iter().enumerate() {
        let profiles = Profiles::new(&plan, nodes, i, from);
        from = profiles.end;
        unfold_profiles(&plan, &profiles, nodes, period, &mut values);
        let cell = network.cell(border);
        for u in 0..nodes {
            let is_number = profiles.counts[u] > 0;
            let own = &values[u * period..(u + 1) * period];
            given.fill(Given::default());
            for arc in streets.out_of(u) {
                let head = streets.head(arc);
                if profiles.counts[head] == 0 {
                    continue;
                }
                let is_flagged = plan.flags(arc) >> cell & 1 == 1;
                let onward = &values[head * period..(head + 1) * period];
                let driven = &travels[arc * period..(arc + 1) * period];
                for (x, ((given, &value), &travel)) in given.iter_mut().zip(own).zip(driven).enumerate() {
                    let end = x + travel as usize;
                    let day = if end < period { end } else { end - period };
                    let value = if is_number { value as u64 } else { NEVER };
                    given.add(travel as u64 + onward[day] as u64, value, is_flagged);
                }
            }
            for (x, (given, &value)) in given.iter().zip(own).enumerate() {
                let value = if is_number { value as u64 } else { NEVER };
                given.judge(&mut faults, value, u == border, [i, u, x]);
            }
        }
    }
    faults.verdict()
}
