//! Small towns: what the planner has to make of each is written out.

use super::{draft, Gives, Road, Town};
use crate::draft::NetworkDraft;
use crate::quay;
use crate::reference::line::Point;

/// `profiles` by border, then by place: points of tick and travel, none for never.
fn town(name: &'static str, draft: NetworkDraft, flags: &[u64], profiles: &[&[(u32, u32)]]) -> Town {
    let point = |&(tick, travel): &(u32, u32)| Point { tick, travel };
    let profiles = profiles.iter().map(|profile| profile.iter().map(point).collect());
    let gives = Gives::Plan(flags.to_vec(), profiles.collect());
    Town { name, draft, gives, small: true }
}

fn road(from: u16, to: u16, points: &[(u16, u16)]) -> Road {
    (from, to, points.to_vec())
}

/// The documents' own plan has place 1 in two points, for their line, rounded up, is 3 4 5 .. 5 4 too; the
/// planner puts points where the steps change.
pub fn quay() -> Town {
    town(
        "Quay town",
        quay::drafts().network,
        &[3, 2, 2, 2],
        &[&[(0, 6), (7, 6), (8, 5), (9, 6)], &[(0, 3), (4, 7), (6, 7)], &[(0, 0)], &[]],
    )
}

pub fn one_place() -> Town {
    town("one place", draft(1, 1, &[0], &[]), &[], &[])
}

pub fn no_roads() -> Town {
    town("no roads", draft(7, 3, &[0, 1, 2], &[]), &[], &[])
}

pub fn one_cell() -> Town {
    let roads = [road(0, 1, &[(0, 3), (5, 7)]), road(1, 2, &[(0, 10)]), road(2, 0, &[(0, 1)])];
    town("one cell", draft(10, 1, &[0, 0, 0], &roads), &[1, 1, 1], &[])
}

pub fn no_crossing_road() -> Town {
    let roads = [road(0, 1, &[(0, 1)]), road(1, 0, &[(0, 4)]), road(2, 3, &[(0, 2)]), road(2, 3, &[(0, 3)])];
    let last = 1 << 63;
    town("no crossing road", draft(4, 64, &[0, 0, 63, 63], &roads), &[1, 1, last, last], &[])
}

/// Place 2 cannot reach border 1. Road 1 starts at border 1 and has no bit for it.
pub fn period_1() -> Town {
    let roads = [road(0, 1, &[(0, 1)]), road(1, 2, &[(0, 1)]), road(0, 2, &[(0, 1)])];
    town(
        "a period of 1",
        draft(1, 2, &[0, 1, 0], &roads),
        &[2, 1, 1],
        &[&[(0, 1)], &[(0, 0)], &[], &[(0, 1)], &[(0, 1)], &[(0, 0)]],
    )
}

/// Road 1 is as good as road 0 at tick 1 only.
pub fn period_2() -> Town {
    let roads = [road(0, 1, &[(0, 1), (1, 2)]), road(0, 1, &[(0, 2)]), road(1, 0, &[(0, 1)])];
    town(
        "a period of 2",
        draft(2, 2, &[0, 1], &roads),
        &[2, 2, 1],
        &[&[(0, 0)], &[(0, 1)], &[(0, 1), (1, 2)], &[(0, 0)]],
    )
}

/// Place 1 has no road at all, and none leads on from place 4.
pub fn cut_off_parts() -> Town {
    let roads = [road(0, 2, &[(0, 1)]), road(2, 3, &[(0, 1)]), road(3, 2, &[(0, 2)]), road(0, 4, &[(0, 1)])];
    town(
        "cut-off parts",
        draft(3, 2, &[0, 0, 1, 1, 0], &roads),
        &[2, 2, 2, 1],
        &[&[(0, 1)], &[], &[(0, 0)], &[(0, 2)], &[]],
    )
}

/// Roads 0 and 1 and the way over place 1 take equally long; road 2 crosses and is never least. Road 5 ties
/// with road 4 at tick 0 alone, for it takes 3 as soon as its line leaves 2, and road 6 at tick 2 alone.
pub fn ties() -> Town {
    let roads = [
        road(0, 2, &[(0, 3)]),
        road(0, 2, &[(0, 3)]),
        road(0, 2, &[(0, 4)]),
        road(0, 1, &[(0, 1)]),
        road(1, 2, &[(0, 2)]),
        road(1, 2, &[(0, 2), (3, 3)]),
        road(1, 2, &[(0, 3), (1, 3), (2, 2), (3, 3)]),
    ];
    town("ties", draft(6, 2, &[0, 0, 1], &roads), &[2, 2, 0, 3, 2, 2, 2], &[&[(0, 3)], &[(0, 2)], &[(0, 0)]])
}

/// Road 2 ends at the day's end whenever it is taken, so roads 1 and 3 start least ways though they reach
/// place 1 later than road 0: road 1 at tick 0, road 3, which takes the whole day, at tick 9.
pub fn falling_by_one() -> Town {
    let roads = [
        road(0, 1, &[(0, 1)]),
        road(0, 1, &[(0, 3)]),
        // 10 9 8 .. 1
        road(1, 2, &[(0, 10), (9, 1)]),
        road(0, 1, &[(0, 10)]),
    ];
    town(
        "falling by one a tick",
        draft(10, 2, &[0, 0, 1], &roads),
        &[3, 3, 2, 3],
        &[&[(0, 10), (8, 2), (9, 11)], &[(0, 10), (9, 1)], &[(0, 0)]],
    )
}

/// From place 0 to place 1, back and on arrives no later than going on at once: road 0 starts a least way.
pub fn detour_and_back() -> Town {
    let roads = [road(0, 1, &[(0, 1)]), road(1, 0, &[(0, 1)]), road(0, 2, &[(0, 10), (9, 1)])];
    town(
        "a detour and back",
        draft(10, 3, &[0, 1, 2], &roads),
        &[6, 5, 4],
        &[
            &[(0, 0)],
            &[(0, 1)],
            &[],
            &[(0, 1)],
            &[(0, 0)],
            &[],
            &[(0, 10), (9, 1)],
            &[(0, 10), (8, 2), (9, 11)],
            &[(0, 0)],
        ],
    )
}

/// Travels 2 2 2 2 3: tick 4 turns, for the next day starts with 2.
pub fn turn_at_the_days_end() -> Town {
    let roads = [road(0, 1, &[(0, 2), (3, 2), (4, 3)])];
    let draft = draft(5, 2, &[0, 1], &roads);
    town("a turn at the day's end", draft, &[2], &[&[(0, 2), (3, 2), (4, 3)], &[(0, 0)]])
}

/// Travels 2 2 2 4 4 3: from tick 4 the line falls on into the next day.
pub fn no_turn_at_the_days_end() -> Town {
    let roads = [road(0, 1, &[(0, 2), (2, 2), (3, 4), (4, 4)])];
    town(
        "no turn at the day's end",
        draft(6, 2, &[0, 1], &roads),
        &[2],
        &[&[(0, 2), (2, 2), (3, 4), (4, 4)], &[(0, 0)]],
    )
}

/// A rise of one in two ticks, rounded up 1 2 2 3 3, and 2: the steps change where the road has no point.
pub fn fractions() -> Town {
    let roads = [road(0, 1, &[(0, 1), (4, 3)])];
    let draft = draft(6, 2, &[0, 1], &roads);
    town("fractions", draft, &[2], &[&[(0, 1), (1, 2), (2, 2), (3, 3), (4, 3)], &[(0, 0)]])
}

/// Both roads take 1 2 2 2. Leaving place 0 at 1, one and a half and one and a half make 4: road and profile
/// are each rounded up, and then added.
pub fn each_rounded_up() -> Town {
    let halves = [(0, 1), (2, 2)];
    let draft = draft(4, 2, &[0, 0, 1], &[road(0, 1, &halves), road(1, 2, &halves)]);
    let profiles: &[&[(u32, u32)]] = &[&[(0, 3), (1, 4), (2, 3), (3, 4)], &[(0, 1), (1, 2), (3, 2)], &[(0, 0)]];
    town("each rounded up", draft, &[3, 2], profiles)
}

/// Wish 5's own words: each road takes a little more than 1, that is 2 at any tick but 0. A way over some of
/// them takes a tick less if it leaves a place at tick 0, be it its first or one that it comes to at an even
/// tick. No way does so twice, for then all ticks are odd and the day is long.
pub fn forty_short_roads() -> Town {
    let (day, count) = (100, 40);
    let short: Vec<Road> = (0..count).map(|place| road(place, place + 1, &[(0, 1), (99, 2)])).collect();
    let mut cells = [0; 41];
    cells[40] = 1;
    let mut flags = [3; 40];
    flags[39] = 2;
    let profile = |roads: u32| -> Vec<Point> {
        let first_early = day + 2 - 2 * roads;
        let early = |tick: u32| tick == 0 || tick % 2 == 0 && tick >= first_early;
        let ticks = [0, 1].into_iter().chain(first_early - 1..day);
        ticks.map(|tick| Point { tick, travel: 2 * roads - u32::from(early(tick)) }).collect()
    };
    let of_border = vec![Point { tick: 0, travel: 0 }];
    let profiles = (1..=u32::from(count)).rev().map(profile).chain([of_border]).collect();
    let gives = Gives::Plan(flags.to_vec(), profiles);
    Town { name: "forty short roads", draft: draft(100, 2, &cells, &short), gives, small: false }
}

/// Travels 2 3 5 8 and down to 2 again: the steps +1, +2, +3 differ though all of them rise.
pub fn steeper_and_steeper() -> Town {
    let roads = [road(0, 1, &[(0, 2), (1, 3), (2, 5), (3, 8), (9, 2)])];
    let draft = draft(10, 2, &[0, 1], &roads);
    town("steeper and steeper", draft, &[2], &[&[(0, 2), (1, 3), (2, 5), (3, 8), (9, 2)], &[(0, 0)]])
}

/// Road 1 takes 8 7 6 5 4 8 8 8: a tie with road 0 at tick 3, better at tick 4 alone. Road 2 is never least.
pub fn better_at_one_tick() -> Town {
    let roads = [road(0, 1, &[(0, 5)]), road(0, 1, &[(0, 8), (4, 4), (5, 8)]), road(0, 1, &[(0, 6)])];
    let draft = draft(8, 2, &[0, 1], &roads);
    town("better at one tick", draft, &[2, 2, 0], &[&[(0, 5), (3, 5), (4, 4), (5, 5)], &[(0, 0)]])
}

/// Roads that take the whole period or a tick less.
pub fn whole_days() -> Town {
    let roads = [road(0, 1, &[(0, 7)]), road(1, 2, &[(0, 6)]), road(2, 3, &[(0, 7)])];
    town(
        "whole days",
        draft(7, 2, &[0, 1, 0, 1], &roads),
        &[3, 3, 2],
        &[
            &[(0, 7)],
            &[(0, 0)],
            &[],
            &[],
            &[(0, 13)],
            &[(0, 6)],
            &[(0, 0)],
            &[],
            &[(0, 20)],
            &[(0, 13)],
            &[(0, 7)],
            &[(0, 0)],
        ],
    )
}

/// A road has the bits of the borders it is a least start to, not those of the cells it touches: road 2 leads
/// into cell 1 and has none.
pub fn cells_on_the_way() -> Town {
    let roads = [road(0, 1, &[(0, 1)]), road(1, 2, &[(0, 1)]), road(0, 1, &[(0, 4)])];
    town(
        "cells on the way",
        draft(4, 3, &[0, 1, 2], &roads),
        &[6, 4, 0],
        &[&[(0, 1)], &[(0, 0)], &[], &[(0, 2)], &[(0, 1)], &[(0, 0)]],
    )
}

/// Each road is the only one out of its start and leads to every border but that.
pub fn ring_of_64_cells() -> Town {
    let cells: Vec<u16> = (0..64).collect();
    let roads: Vec<Road> = (0..64).map(|place| road(place, (place + 1) % 64, &[(0, 1)])).collect();
    let flags = (0..64).map(|place| !(1 << place)).collect();
    let profile = |number: u32| vec![Point { tick: 0, travel: (number / 64 + 64 - number % 64) % 64 }];
    let gives = Gives::Plan(flags, (0..64 * 64).map(profile).collect());
    Town { name: "a ring of 64 cells", draft: draft(3, 64, &cells, &roads), gives, small: false }
}
