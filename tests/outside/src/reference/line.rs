//! Travel at a tick: "the straight line rounded up, for roads and profiles alike" (wish 5).

#[derive(Clone, Copy, Debug, PartialEq, Eq)]
pub struct Point {
    pub tick: u32,
    pub travel: u32,
}

/// The line through `points` at `tick`, which is first reduced modulo the period. After the last point the
/// line runs on to (P, travel of the first). Each neighbour counts by how far the tick is from the other one;
/// sums stay below 2^32 times 2,880, so 64 bits are exact, and on falling lines nothing is below 0.
pub fn travel_at(points: &[Point], tick: u64, period: u32) -> u64 {
    let tick = tick % u64::from(period);
    let after = points.partition_point(|point| u64::from(point.tick) <= tick);
    let left = points[after - 1];
    let (right_tick, right_travel) = match points.get(after) {
        Some(right) => (right.tick, right.travel),
        None => (period, points[0].travel),
    };
    let gone = tick - u64::from(left.tick);
    let to_go = u64::from(right_tick) - tick;
    (u64::from(left.travel) * to_go + u64::from(right_travel) * gone).div_ceil(gone + to_go)
}
