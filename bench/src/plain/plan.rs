//! Plan files: validation against a network (refusals 11 to 19), flags and profiles read in place.
use super::blocks::{blocks_of, first_bad_sum, first_unformed, is_formed, le16, le32, Block, Kind, BLOCK};
use super::network::Network;
use super::{refuse, Refusal};

pub const FLAGS: Kind = Kind { kind: 6, per: 62, size: 8 };
pub const COUNTS: Kind = Kind { kind: 7, per: 250, size: 2 };
pub const POINTS: Kind = Kind { kind: 8, per: 83, size: 6 };

pub const MOST_POINTS: usize = 1_048_576;
const MOST_BLOCKS: usize = 13_718;

pub type Point = [u8; 6];

#[inline(always)]
pub fn tick(point: &Point) -> u32 {
    le16(point, 0) as u32
}

#[inline(always)]
pub fn travel(point: &Point) -> u32 {
    le32(point, 2)
}

/// The points of a block, side by side.
#[inline(always)]
pub fn points_of(block: &Block) -> &[Point] {
    block[8..506].as_chunks().0
}

/// A well-formed plan, its tables read in place.
pub struct Plan<'a> {
    pub border_marks: [bool; 512],
    flags: &'a [Block],
    counts: &'a [Block],
    pub point_blocks: &'a [Block],
}

impl Plan<'_> {
    #[inline(always)]
    pub fn flags(&self, arc: usize) -> u64 {
        let block = &self.flags[arc / FLAGS.per];
        let at = 8 + 8 * (arc % FLAGS.per);
        le32(block, at) as u64 | (le32(block, at + 4) as u64) << 32
    }

    #[inline(always)]
    pub fn count(&self, profile: usize) -> usize {
        le16(&self.counts[profile / COUNTS.per], 8 + 2 * (profile % COUNTS.per)) as usize
    }

    #[inline(always)]
    pub fn point(&self, q: usize) -> &Point {
        &points_of(&self.point_blocks[q / POINTS.per])[q % POINTS.per]
    }
}

/// Refusals 11 to 19, or the tables.
pub fn validate_plan<'a>(network: &Network, file: &'a [u8]) -> Result<Plan<'a>, Refusal> {
    if file.is_empty() || !file.len().is_multiple_of(BLOCK) || file.len() > MOST_BLOCKS * BLOCK {
        return Err(refuse(11, 0));
    }
    let blocks = blocks_of(file);
    if let Some(block) = first_bad_sum(blocks) {
        return Err(refuse(12, block));
    }
    let first = &blocks[0];
    if !is_formed(first, 0, 5, 1, 28) || le16(first, 22) != 0 {
        return Err(refuse(13, 0));
    }
    let (border_marks, borders) = network.borders();
    let points = le32(first, 24) as usize;
    if !is_matching(network, borders, first) || points > MOST_POINTS {
        return Err(refuse(14, 0));
    }
    let profiles = borders * network.nodes;
    let count_block = 1 + FLAGS.blocks(network.arcs);
    let point_block = count_block + COUNTS.blocks(profiles);
    if blocks.len() != point_block + POINTS.blocks(points) {
        return Err(refuse(15, 0));
    }
    let runs = [(1, FLAGS, network.arcs), (count_block, COUNTS, profiles), (point_block, POINTS, points)];
    for (from, kind, n) in runs {
        if let Some(block) = first_unformed(blocks, from, kind, n) {
            return Err(refuse(16, block));
        }
    }
    let plan = Plan {
        border_marks,
        flags: &blocks[1..count_block],
        counts: &blocks[count_block..point_block],
        point_blocks: &blocks[point_block..],
    };
    judge_flags(network, &plan)?;
    judge_profiles(network, &plan, profiles, points)?;
    Ok(plan)
}

/// The network's number, P, N, R, K and count of borders.
fn is_matching(network: &Network, borders: usize, first: &Block) -> bool {
    let header = &network.header;
    let fields = [header.period, header.nodes, header.arcs, header.cells, borders as u32];
    let is_same = |(k, &field): (usize, &u32)| le16(first, 12 + 2 * k) as u32 == field;
    le32(first, 8) == header.number && fields.iter().enumerate().all(is_same)
}

/// Rule 17.
fn judge_flags(network: &Network, plan: &Plan) -> Result<(), Refusal> {
    let cells = network.header.cells;
    let outside = if cells < 64 { u64::MAX << cells } else { 0 };
    match (0..network.arcs).find(|&a| plan.flags(a) & outside != 0) {
        Some(arc) => Err(refuse(17, arc)),
        None => Ok(()),
    }
}

/// Rules 18 and 19.
fn judge_profiles(network: &Network, plan: &Plan, profiles: usize, points: usize) -> Result<(), Refusal> {
    let counts = || plan.counts.iter().flat_map(|block| block[8..508].as_chunks::<2>().0).take(profiles);
    let mut sum = 0;
    for (k, entry) in counts().enumerate() {
        let count = le16(entry, 0);
        if count as u32 > network.period {
            return Err(refuse(18, k));
        }
        sum += count as usize;
    }
    if sum != points {
        return Err(refuse(18, profiles));
    }
    let mut walk = Walk { blocks: plan.point_blocks, block: 0, slot: 0 };
    let mut from = 0;
    for entry in counts() {
        let count = le16(entry, 0) as usize;
        if !walk.is_profile_sound(count, network.period) {
            return Err(refuse(19, first_misplaced(plan, from, count, network.period)));
        }
        from += count;
    }
    Ok(())
}

/// Where a walk over all points stands.
struct Walk<'a> {
    blocks: &'a [Block],
    block: usize,
    slot: usize,
}

impl Walk<'_> {
    /// Rule 19 over the next profile, of `count` points.
    #[inline(always)]
    fn is_profile_sound(&mut self, count: usize, period: u32) -> bool {
        let mut left = count;
        // Below every tick but the first's, which is to be 0.
        let mut before = -1;
        let mut bad = 0;
        while left > 0 {
            let many = left.min(POINTS.per - self.slot);
            let part = &points_of(&self.blocks[self.block])[self.slot..self.slot + many];
            if left == count && tick(&part[0]) != 0 {
                return false;
            }
            for point in part {
                let t = tick(point) as i32;
                // Below 0 where ticks do not rise.
                bad |= t - before - 1;
                before = t;
            }
            left -= many;
            self.slot += many;
            if self.slot == POINTS.per {
                self.slot = 0;
                self.block += 1;
            }
        }
        bad >= 0 && before < period as i32
    }
}

#[cold]
fn first_misplaced(plan: &Plan, from: usize, count: usize, period: u32) -> usize {
    let is_misplaced = |&q: &usize| {
        let t = tick(plan.point(q));
        t >= period || if q == from { t != 0 } else { t <= tick(plan.point(q - 1)) }
    };
    (from..from + count).find(is_misplaced).expect("a tick is out of its place")
}
