//! Towns made on purpose for wish 2: in each some other rule than the wish's would take another way. The ways
//! are worked out by hand.

use super::{draft, Road};
use crate::draft::NetworkDraft;
use crate::reference::trips::TripCall;

pub struct TieTown {
    pub name: &'static str,
    pub draft: NetworkDraft,
    /// Ways of plain trips, and of flagged trips under the plan made.
    pub plain: Vec<Way>,
    /// Flag words, and ways of flagged trips under them.
    pub flagged: Vec<(Vec<u64>, Vec<Way>)>,
    /// Small enough for the oracles and for all trips.
    pub small: bool,
}

/// One trip's arrival and chosen way.
pub struct Way {
    pub call: TripCall,
    pub tick: u32,
    pub roads: Vec<u16>,
}

const MAKERS: [fn() -> TieTown; 21] = [
    two_short_roads_or_one,
    three_short_roads_or_two,
    fewer_found_late,
    fewer_known_last,
    back_before_forth,
    late_between,
    late_between_and_looked_at_first,
    late_between_beside_a_tie,
    parallel_roads,
    grid,
    grid_with_diagonals,
    days_later,
    into_the_source_and_out_of_the_target,
    a_road_not_permitted,
    parallel_roads_not_permitted,
    a_shortcut_not_permitted,
    later_over_permitted_roads,
    long_and_short_chain,
    late_again_and_again,
    large_grid,
    longest_way,
];
pub const COUNT: u64 = MAKERS.len() as u64;

/// A town by its number, which is below `COUNT`.
pub fn town(number: u64) -> TieTown {
    MAKERS[number as usize]()
}

fn way(from: u32, to: u32, departure: u32, tick: u32, roads: &[u16]) -> Way {
    Way { call: TripCall { from, to, departure }, tick, roads: roads.to_vec() }
}

/// A road that takes as long at every tick.
fn road(from: u16, to: u16, travel: u16) -> Road {
    (from, to, vec![(0, travel)])
}

/// In a period of 10, a road that ends at the day's end whenever it is taken: 10 9 8 .. 1.
fn falling(from: u16, to: u16) -> Road {
    (from, to, vec![(0, 10), (9, 1)])
}

/// A town with all places in one cell.
fn town_of(name: &'static str, period: u16, places: usize, roads: &[Road], plain: Vec<Way>) -> TieTown {
    let draft = draft(period, 1, &vec![0; places], roads);
    TieTown { name, draft, plain, flagged: Vec::new(), small: places <= 20 }
}

/// A town whose last place alone lies in cell 1, and ways under flags for that cell.
fn flagged_town(
    name: &'static str,
    places: usize,
    roads: &[Road],
    plain: Vec<Way>,
    flagged: Vec<(&[u64], Vec<Way>)>,
) -> TieTown {
    let mut cells = vec![0; places];
    cells[places - 1] = 1;
    let flagged = flagged.into_iter().map(|(flags, ways)| (flags.to_vec(), ways)).collect();
    TieTown { name, draft: draft(10, 2, &cells, roads), plain, flagged, small: true }
}

/// The lowest number first would take roads 0 and 1.
fn two_short_roads_or_one() -> TieTown {
    let roads = [road(0, 1, 1), road(1, 2, 1), road(0, 2, 2), road(2, 3, 1)];
    let plain = vec![way(0, 2, 0, 2, &[2]), way(0, 3, 9, 12, &[2, 3]), way(1, 3, 0, 2, &[1, 3])];
    town_of("two short roads or one", 10, 4, &roads, plain)
}

/// The wish's own words: three short roads where two do.
fn three_short_roads_or_two() -> TieTown {
    let roads = [road(0, 1, 1), road(1, 2, 1), road(2, 3, 1), road(0, 4, 2), road(4, 3, 1)];
    let plain = vec![way(0, 3, 0, 3, &[3, 4]), way(0, 3, 8, 11, &[3, 4]), way(1, 3, 0, 2, &[1, 2])];
    town_of("three short roads or two", 10, 5, &roads, plain)
}

/// Looked at in the order of their numbers, road 3 comes after road 2 has been reached over roads 0 and 1.
/// Who does not look at road 2 again thinks that it ends a way of three roads, as road 6 does.
fn fewer_found_late() -> TieTown {
    let roads = [(0, 1, 1), (1, 2, 1), (2, 3, 1), (0, 2, 2), (0, 4, 1), (4, 5, 1), (5, 3, 1)];
    let roads = roads.map(|(from, to, travel)| road(from, to, travel));
    let plain = vec![way(0, 3, 0, 3, &[3, 2]), way(0, 2, 7, 9, &[3]), way(4, 3, 0, 2, &[5, 6])];
    town_of("fewer roads found late", 10, 6, &roads, plain)
}

/// To place 4 lead six roads, and four that are numbered against their direction, as are the three from there
/// to place 3; eight others lead there at once. Who looks at the roads in the order of their numbers, round
/// by round, knows all arrivals when the four reach place 4, and only then that the way over it has seven.
fn fewer_known_last() -> TieTown {
    let mut roads = vec![road(2, 3, 1), road(1, 2, 1), road(4, 1, 1)];
    roads.extend([road(7, 4, 3), road(6, 7, 3), road(5, 6, 3), road(0, 5, 3)]);
    let chain = |places: &[u16]| places.windows(2).map(|ends| road(ends[0], ends[1], 2)).collect::<Vec<_>>();
    roads.extend(chain(&[0, 8, 9, 10, 11, 12, 4]));
    roads.extend(chain(&[0, 13, 14, 15, 16, 17, 18, 19]));
    roads.push(road(19, 3, 1));
    let plain = vec![way(0, 3, 0, 15, &[6, 5, 4, 3, 2, 1, 0]), way(0, 4, 0, 12, &[6, 5, 4, 3])];
    town_of("fewer roads known last", 10, 20, &roads, plain)
}

/// Two ways of two roads: road 2 is the lowest last one, road 0 the lowest first one.
fn back_before_forth() -> TieTown {
    let roads = [road(0, 1, 1), road(0, 2, 1), road(2, 3, 1), road(1, 3, 1)];
    town_of("back before forth", 10, 4, &roads, vec![way(0, 3, 0, 2, &[1, 2]), way(0, 3, 9, 11, &[1, 2])])
}

/// Road 2 reaches place 2 late, and road 3 makes up for it up to tick 9: two roads, but no way that counts.
fn late_between() -> TieTown {
    let roads = [road(0, 1, 1), road(1, 2, 1), road(0, 2, 4), falling(2, 3)];
    let plain = vec![
        way(0, 3, 0, 10, &[0, 1, 3]),
        way(0, 3, 5, 10, &[0, 1, 3]),
        way(0, 3, 6, 10, &[0, 1, 3]),
        way(0, 3, 8, 20, &[0, 1, 3]),
        way(0, 2, 0, 2, &[0, 1]),
    ];
    town_of("late between", 10, 4, &roads, plain)
}

/// The same with the late road numbered first, and a place behind to which another way has three roads, as
/// many as the late one. Who counts the late one's roads for place 3 takes road 4 to get there.
fn late_between_and_looked_at_first() -> TieTown {
    let mut roads = vec![road(0, 2, 4), falling(2, 3), road(0, 1, 1), road(1, 2, 1), road(3, 4, 1)];
    roads.extend([road(0, 5, 5), road(5, 6, 5), road(6, 4, 1)]);
    let mut plain = vec![way(0, 3, 0, 10, &[2, 3, 1]), way(0, 4, 7, 11, &[2, 3, 1, 4])];
    plain.push(way(0, 4, 0, 11, &[5, 6, 7]));
    town_of("late between and looked at first", 10, 7, &roads, plain)
}

/// Of the ways that are late nowhere one has three roads and one four, with the lower numbers; the late one
/// has two.
fn late_between_beside_a_tie() -> TieTown {
    let roads = [road(4, 1, 1), road(0, 4, 1), road(0, 1, 2), road(1, 2, 2), road(0, 2, 5), falling(2, 3)];
    let plain = vec![way(0, 3, 0, 10, &[2, 3, 5]), way(0, 2, 0, 4, &[2, 3]), way(0, 1, 8, 10, &[2])];
    town_of("late between beside a tie", 10, 5, &roads, plain)
}

/// Road 1 takes 3 at tick 5, as road 0 does, and 2 at any other.
fn parallel_roads() -> TieTown {
    let changing = (0, 1, vec![(0, 2), (4, 2), (5, 3), (6, 2)]);
    let roads = [road(0, 1, 3), changing, road(1, 2, 1), road(1, 2, 1), road(0, 2, 3)];
    let plain = vec![
        way(0, 1, 5, 8, &[0]),
        way(0, 1, 4, 6, &[1]),
        way(0, 1, 6, 8, &[1]),
        way(0, 2, 0, 3, &[4]),
        way(0, 2, 5, 8, &[4]),
        way(1, 2, 9, 10, &[2]),
    ];
    town_of("parallel roads", 10, 3, &roads, plain)
}

/// Roads to the right, row by row, then roads down, row by row; each takes 1.
fn grid_roads(rows: u16, columns: u16) -> Vec<Road> {
    let place = |row: u16, column: u16| row * columns + column;
    let mut roads = Vec::new();
    for row in 0..rows {
        roads.extend((1..columns).map(|column| road(place(row, column - 1), place(row, column), 1)));
    }
    for row in 1..rows {
        roads.extend((0..columns).map(|column| road(place(row - 1, column), place(row, column), 1)));
    }
    roads
}

/// All ways have equally many roads. Back from the target, roads to the right come first as long as there is
/// one on a way.
fn grid() -> TieTown {
    let plain = vec![way(0, 8, 0, 4, &[6, 9, 4, 5]), way(0, 4, 9, 11, &[6, 2]), way(1, 8, 0, 3, &[7, 10, 5])];
    town_of("grid", 10, 9, &grid_roads(3, 3), plain)
}

/// Roads 12 and 13 take 2, each in place of two roads.
fn grid_with_diagonals() -> TieTown {
    let mut roads = grid_roads(3, 3);
    roads.extend([road(4, 8, 2), road(0, 4, 2)]);
    let plain = vec![
        way(0, 8, 0, 4, &[13, 12]),
        way(0, 7, 0, 3, &[13, 10]),
        way(0, 5, 0, 3, &[13, 3]),
        way(3, 8, 9, 12, &[2, 12]),
        way(0, 6, 0, 2, &[6, 9]),
    ];
    town_of("grid with diagonals", 10, 9, &roads, plain)
}

/// Two roads of a whole day, or three that take as long.
fn days_later() -> TieTown {
    let roads = [road(4, 2, 2), road(3, 4, 2), road(0, 3, 2), road(1, 2, 3), road(0, 1, 3), road(2, 5, 1)];
    let plain = vec![way(0, 5, 2, 9, &[4, 3, 5]), way(0, 2, 0, 6, &[4, 3]), way(0, 4, 1, 5, &[2, 1])];
    town_of("days later", 3, 6, &roads, plain)
}

/// No way leads back to its source, or on from its target.
fn into_the_source_and_out_of_the_target() -> TieTown {
    let roads = [road(1, 0, 1), road(0, 1, 1), road(1, 2, 1), road(0, 2, 2), road(2, 0, 1)];
    let plain = vec![
        way(0, 0, 3, 3, &[]),
        way(0, 2, 0, 2, &[3]),
        way(1, 2, 0, 1, &[2]),
        way(2, 1, 0, 2, &[4, 1]),
        way(1, 0, 9, 10, &[0]),
    ];
    town_of("into the source and out of the target", 10, 3, &roads, plain)
}

/// One road is a tie with two, if all three are permitted. The bit of cell 0 does not help.
fn a_road_not_permitted() -> TieTown {
    let roads = [road(0, 1, 1), road(1, 2, 1), road(0, 2, 2)];
    let (one, two) = (|| vec![way(0, 2, 0, 2, &[2])], || vec![way(0, 2, 0, 2, &[0, 1])]);
    let flagged: Vec<(&[u64], Vec<Way>)> = vec![
        (&[2, 2, 2], one()),
        (&[2, 2, 0], two()),
        (&[2, 2, 1], two()),
        (&[0, 2, 2], one()),
        (&[1, 2, 2], one()),
        (&[3, 1, 3], one()),
    ];
    flagged_town("a road not permitted", 3, &roads, one(), flagged)
}

/// Three roads alike, of which the lowest permitted one counts at each step.
fn parallel_roads_not_permitted() -> TieTown {
    let mut roads = vec![road(0, 1, 2); 3];
    roads.extend(vec![road(1, 2, 1); 3]);
    let flagged: Vec<(&[u64], Vec<Way>)> = vec![
        (&[2, 2, 2, 2, 2, 2], vec![way(0, 2, 0, 3, &[0, 3])]),
        (&[0, 2, 2, 1, 3, 2], vec![way(0, 2, 0, 3, &[1, 4])]),
        (&[1, 0, 2, 0, 1, 3], vec![way(0, 2, 9, 12, &[2, 5])]),
    ];
    flagged_town("parallel roads not permitted", 3, &roads, vec![way(0, 2, 0, 3, &[0, 3])], flagged)
}

/// Road 2 would make the way over place 2 one of two roads, with the lower last number. Without it that way
/// has three roads, and the one over place 3 has two.
fn a_shortcut_not_permitted() -> TieTown {
    let roads = [road(0, 1, 1), road(1, 2, 1), road(0, 2, 2), road(2, 4, 2), road(0, 3, 2), road(3, 4, 2)];
    flagged_town(
        "a shortcut not permitted",
        5,
        &roads,
        vec![way(0, 4, 0, 4, &[2, 3])],
        vec![
            (&[2, 2, 2, 2, 2, 2], vec![way(0, 4, 0, 4, &[2, 3])]),
            (&[2, 2, 0, 2, 2, 2], vec![way(0, 4, 0, 4, &[4, 5])]),
            (&[3, 3, 1, 3, 3, 3], vec![way(0, 4, 9, 13, &[4, 5])]),
            (&[2, 2, 0, 2, 0, 2], vec![way(0, 4, 0, 4, &[0, 1, 3])]),
        ],
    )
}

/// Roads 0 and 4 are the quick ones; without their bits, places 1 and 2 are reached later, and the ways that
/// then are in time at each place count.
fn later_over_permitted_roads() -> TieTown {
    let roads = [road(0, 2, 1), road(0, 1, 2), road(1, 2, 2), road(0, 2, 4), road(0, 1, 1)];
    flagged_town(
        "later over permitted roads",
        3,
        &roads,
        vec![way(0, 2, 0, 1, &[0]), way(0, 1, 0, 1, &[4])],
        vec![
            (&[0, 2, 2, 2, 0], vec![way(0, 2, 0, 4, &[3])]),
            (&[1, 2, 2, 1, 1], vec![way(0, 2, 0, 4, &[1, 2])]),
            (&[0, 2, 2, 2, 2], vec![way(0, 2, 0, 3, &[4, 2])]),
            (&[2, 2, 2, 2, 0], vec![way(0, 2, 9, 10, &[0])]),
        ],
    )
}

/// 300 roads of 1 with the lower numbers, or 50 roads of 6: in 8 bits 300 would be 44.
fn long_and_short_chain() -> TieTown {
    let chain = |first: u16, roads: u16, travel: u16| {
        let place = move |step: u16| match step {
            0 => 0,
            _ if step == roads => 349,
            _ => first + step - 1,
        };
        (0..roads).map(move |step| road(place(step), place(step + 1), travel))
    };
    let roads: Vec<Road> = chain(1, 300, 1).chain(chain(300, 50, 6)).collect();
    let short: Vec<u16> = (300..350).collect();
    town_of("a long and a short chain", 6, 350, &roads, vec![way(0, 349, 0, 300, &short)])
}

/// `late_between` 170 times, one behind the other: 510 roads, where ways that are late have 340.
fn late_again_and_again() -> TieTown {
    let mut roads = Vec::new();
    let mut in_time = Vec::new();
    for number in 0..170 {
        let place = 3 * number;
        let first = roads.len() as u16;
        roads.extend([road(place, place + 1, 1), road(place + 1, place + 2, 1), road(place, place + 2, 4)]);
        roads.push(falling(place + 2, place + 3));
        in_time.extend([first, first + 1, first + 3]);
    }
    town_of("late again and again", 10, 511, &roads, vec![way(0, 510, 0, 1_700, &in_time)])
}

/// 16 rows of 32 places and a road of 2 from row 6, column 20 to row 7, column 21: down to row 6 and along
/// it, over that road, and in its column down to the last row and along that.
fn large_grid() -> TieTown {
    let (rows, columns) = (16, 32);
    let mut roads = grid_roads(rows, columns);
    let diagonal = roads.len() as u16;
    roads.push(road(6 * columns + 20, 7 * columns + 21, 2));
    let right = |row: u16, to_column: u16| row * (columns - 1) + to_column - 1;
    let down = |to_row: u16, column: u16| rows * (columns - 1) + (to_row - 1) * columns + column;
    let mut roads_taken: Vec<u16> = (1..=6).map(|row| down(row, 0)).collect();
    roads_taken.extend((1..=20).map(|column| right(6, column)));
    roads_taken.push(diagonal);
    roads_taken.extend((8..=15).map(|row| down(row, 21)));
    roads_taken.extend((22..=31).map(|column| right(15, column)));
    town_of("a large grid", 10, 512, &roads, vec![way(0, 511, 0, 46, &roads_taken)])
}

/// 511 steps of four parallel roads; at each step another one is the lowest that takes 1 and not 2.
fn longest_way() -> TieTown {
    let travel = |step: u16, parallel: u16| if parallel < step % 4 { 2 } else { 1 };
    let step = |step: u16| (0..4).map(move |parallel| road(step, step + 1, travel(step, parallel)));
    let roads: Vec<Road> = (0..511).flat_map(step).collect();
    let lowest: Vec<u16> = (0..511).map(|step| 4 * step + step % 4).collect();
    town_of("the longest way", 2, 512, &roads, vec![way(0, 511, 1, 512, &lowest)])
}
