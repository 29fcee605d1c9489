//! The points of arcs: rules 9 and 10 over all of them, and the tick at which an arc that is taken at a tick ends.
//! Both work on parts of an arc that lie in one block, where points stand side by side and no division finds them.
use super::blocks::Block;
use super::network::{Network, POINTS};
use super::{refuse, Refusal};

type Point = [u8; 4];

/// The points of a block, side by side.
#[inline(always)]
pub fn points_of(block: &Block) -> &[Point] {
    block[8..508].as_chunks().0
}

/// A point is read as one number, so that loops over points become vector code.
#[inline(always)]
pub fn tick(point: &Point) -> u32 {
    u32::from_le_bytes(*point) & 0xffff
}

#[inline(always)]
pub fn travel(point: &Point) -> u32 {
    u32::from_le_bytes(*point) >> 16
}

/// Rules 9 and 10: first whether all is well, without a jump at each point; only where it is not, the lowest rule and point.
pub fn judge_points(network: &Network) -> Result<(), Refusal> {
    let mut from = 0;
    for arc in network.each_arc() {
        if !is_arc_sound(network, from, arc.count) {
            return Err(first_fault(network));
        }
        from += arc.count;
    }
    Ok(())
}

fn is_arc_sound(network: &Network, from: usize, count: usize) -> bool {
    let (mut block, mut slot) = (from / POINTS.per, from % POINTS.per);
    let first = &points_of(&network.point_blocks[block])[slot];
    if tick(first) != 0 {
        return false;
    }
    let mut left = count;
    let mut before: Option<&Point> = None;
    loop {
        let many = left.min(POINTS.per - slot);
        let part = &points_of(&network.point_blocks[block])[slot..slot + many];
        let is_joined = before.is_none_or(|point| is_part_sound(&[*point, part[0]], network.period));
        if !is_joined || !is_part_sound(part, network.period) {
            return false;
        }
        let last = &part[many - 1];
        left -= many;
        if left == 0 {
            let is_early = tick(last) + travel(last) <= network.period + travel(first);
            return tick(last) < network.period && is_early;
        }
        before = Some(last);
        block += 1;
        slot = 0;
    }
}

/// So many neighbours are compared at once, a width that the compiler turns into vector code.
const LANES: usize = 4;

/// Do ticks rise, is no later point's end before an earlier one's, and is each travel 1 to P?
#[inline(always)]
fn is_part_sound(part: &[Point], period: u32) -> bool {
    let pairs = part.len() - 1;
    let mut bad = [bad_travel(&part[0], period), 0, 0, 0];
    let mut at = 0;
    while at + LANES <= pairs {
        bad_pairs(&mut bad, &part[at..], period);
        at += LANES;
    }
    if at < pairs && pairs >= LANES {
        // Pairs that were seen before do no harm.
        bad_pairs(&mut bad, &part[pairs - LANES..], period);
        at = pairs;
    }
    for i in at..pairs {
        bad[0] |= bad_pair(&part[i], &part[i + 1], period);
    }
    // A difference below 0 shows in the highest bit.
    (bad[0] | bad[1] | bad[2] | bad[3]) >= 0
}

#[inline(always)]
fn bad_pairs(bad: &mut [i32; LANES], part: &[Point], period: u32) {
    let part: &[Point; LANES + 1] = part.first_chunk().expect("a point more than pairs");
    for l in 0..LANES {
        bad[l] |= bad_pair(&part[l], &part[l + 1], period);
    }
}

/// Below 0 where the travel is not 1 to P.
#[inline(always)]
fn bad_travel(point: &Point, period: u32) -> i32 {
    let travel = travel(point) as i32;
    (travel - 1) | (period as i32 - travel)
}

/// Below 0 where the later of two neighbours breaks rule 9, or both break rule 10.
#[inline(always)]
fn bad_pair(one: &Point, next: &Point, period: u32) -> i32 {
    let end = |point: &Point| (tick(point) + travel(point)) as i32;
    let rise = tick(next) as i32 - tick(one) as i32 - 1;
    bad_travel(next, period) | rise | (end(next) - end(one))
}

#[inline(always)]
fn point(network: &Network, q: usize) -> (u32, u32) {
    let point = &points_of(&network.point_blocks[q / POINTS.per])[q % POINTS.per];
    (tick(point), travel(point))
}

/// The lowest of rules 9 and 10 that a point breaks; one does.
#[cold]
fn first_fault(network: &Network) -> Refusal {
    let mut late = None;
    let mut from = 0;
    for arc in network.each_arc() {
        for q in from..from + arc.count {
            let (t, v) = point(network, q);
            let is_misplaced = if q == from { t != 0 } else { t <= point(network, q - 1).0 };
            if is_misplaced || t >= network.period || v < 1 || v > network.period {
                return refuse(9, q);
            }
        }
        for q in from..from + arc.count {
            let (t, v) = point(network, q);
            let is_last = q + 1 == from + arc.count;
            let (next, travel) = if is_last { (network.period, point(network, from).1) } else { point(network, q + 1) };
            if late.is_none() && t + v > next + travel {
                late = Some(q);
            }
        }
        from += arc.count;
    }
    refuse(10, late.expect("some point breaks a rule"))
}

/// The straight line, rounded up.
#[inline(always)]
fn line(x: u32, a: u32, v: u32, b: u32, w: u32) -> u32 {
    (v * (b - x) + w * (x - a)).div_ceil(b - a)
}

/// The last of some points at or before x; the first is.
#[inline(always)]
fn last_at(part: &[Point], x: u32) -> usize {
    let mut base = 0;
    let mut size = part.len();
    while size > 1 {
        let half = size / 2;
        base = if tick(&part[base + half]) <= x { base + half } else { base };
        size -= half;
    }
    base
}

/// The travel of an arc of `count` points from number `from` on, at tick x of the day.
#[inline(always)]
pub fn travel_at(network: &Network, from: usize, count: usize, x: u32) -> u32 {
    let (block, slot) = (from / POINTS.per, from % POINTS.per);
    let points = points_of(&network.point_blocks[block]);
    if slot + count <= POINTS.per {
        let part = &points[slot..slot + count];
        let k = last_at(part, x);
        let (a, v) = (tick(&part[k]), travel(&part[k]));
        return match part.get(k + 1) {
            Some(next) => line(x, a, v, tick(next), travel(next)),
            None => line(x, a, v, network.period, travel(&part[0])),
        };
    }
    travel_across(network, from, count, x)
}

/// The same for an arc whose points lie in several blocks.
fn travel_across(network: &Network, from: usize, count: usize, x: u32) -> u32 {
    let mut base = 0;
    let mut size = count;
    while size > 1 {
        let half = size / 2;
        base = if point(network, from + base + half).0 <= x { base + half } else { base };
        size -= half;
    }
    let (a, v) = point(network, from + base);
    if base + 1 < count {
        let (b, w) = point(network, from + base + 1);
        return line(x, a, v, b, w);
    }
    line(x, a, v, network.period, point(network, from).1)
}
