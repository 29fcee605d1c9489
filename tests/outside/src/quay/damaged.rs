//! Quay town's plan damaged, and what has to come of it by hand. To border 2 place 0 says 6 but for 5 at tick
//! 8, place 1 what road 1 takes (3 4 5 6 7 7 7 6 5 4), place 2 says 0 and place 3 never. Road 0 takes 2 from
//! place 0 to place 1, road 2 takes 6 from place 0 to the border, and road 3 leads from there to place 3.

use super::{altered, drafts, expect};
use crate::library::CHECK;
use crate::reference::finds::{find_bounds, FindBounds};
use crate::reference::{network, plan};

/// What is changed: a place, and its profile's points.
type Change = (usize, &'static [(u16, u32)]);

/// A name, the changes, the flags, and the refusal and its places; 0 is none.
type Row = (&'static str, &'static [Change], [u64; 4], u32, [u32; 3]);

const FLAGS: [u64; 4] = [3, 2, 2, 2];

/// Place 0 in document 01's plan, whose lines are rounded down.
const BEFORE: &[(u16, u32)] = &[(0, 6), (6, 6), (7, 5), (9, 5)];

const ROWS: [Row; 25] = [
    ("0 one more at 3", &[(0, &[(0, 6), (2, 6), (3, 7), (4, 6), (7, 6), (8, 5), (9, 6)])], FLAGS, 22, [0, 0, 3]),
    ("0 one less at 3", &[(0, &[(0, 6), (2, 6), (3, 5), (4, 6), (7, 6), (8, 5), (9, 6)])], FLAGS, 23, [0, 0, 3]),
    ("0 one more at 9", &[(0, &[(0, 6), (7, 6), (8, 5), (9, 7)])], FLAGS, 22, [0, 0, 9]),
    ("0 one less at 0", &[(0, &[(0, 5), (1, 6), (7, 6), (8, 5), (9, 6)])], FLAGS, 23, [0, 0, 0]),
    ("0 as it was rounded down", &[(0, BEFORE)], FLAGS, 23, [0, 0, 7]),
    // From 8 the line runs on to (10, 6): rounded up it is 6 at 9.
    ("0 without its last point", &[(0, &[(0, 6), (7, 6), (8, 5)])], FLAGS, 0, [0, 0, 0]),
    // Down to 8 the line, rounded up, is 6.
    ("0 without its point at 7", &[(0, &[(0, 6), (8, 5), (9, 6)])], FLAGS, 0, [0, 0, 0]),
    ("0 without its point at 8", &[(0, &[(0, 6), (7, 6), (9, 6)])], FLAGS, 22, [0, 0, 8]),
    // Leaving place 0 at 7 road 0 ends at 9 and gives 5.
    ("1 one less at 9", &[(1, &[(0, 3), (5, 7), (6, 7), (8, 5), (9, 3)])], FLAGS, 22, [0, 0, 7]),
    // 3 3 4 5 6 7 6 5 4 3.
    ("1 as it was rounded down", &[(1, &[(0, 3), (1, 3), (5, 7), (9, 3)])], FLAGS, 22, [0, 0, 7]),
    // Leaving at 0 road 0 gives 6, as road 2 does.
    ("1 one less at 2", &[(1, &[(0, 3), (1, 4), (2, 4), (3, 6), (4, 7), (5, 7)])], FLAGS, 23, [0, 1, 2]),
    ("1 one more at 0", &[(1, &[(0, 4), (1, 4), (5, 7), (9, 4)])], FLAGS, 22, [0, 1, 0]),
    ("1 as at 0 all day", &[(1, &[(0, 3)])], FLAGS, 22, [0, 0, 0]),
    ("1 never", &[(1, &[])], FLAGS, 22, [0, 1, 0]),
    ("2 not 0 at 9", &[(2, &[(0, 0), (8, 0), (9, 1)])], FLAGS, 21, [0, 2, 9]),
    // The line leaves 0 and is 1 from then on.
    ("2 on a line to 1 at 9", &[(2, &[(0, 0), (9, 1)])], FLAGS, 21, [0, 2, 1]),
    ("2 not 0 at 0", &[(2, &[(0, 1), (1, 0)])], FLAGS, 21, [0, 2, 0]),
    ("2 never", &[(2, &[])], FLAGS, 21, [0, 2, 0]),
    // Road 3 gives 2^32, which is no less than 0.
    ("3 as much as can be", &[(3, &[(0, 4_294_967_295)])], FLAGS, 23, [0, 3, 0]),
    ("0 as much as can be", &[(0, &[(0, 4_294_967_295)])], FLAGS, 22, [0, 0, 0]),
    ("no flag on road 1", &[], [3, 0, 2, 2], 24, [0, 1, 0]),
    ("no flag out of 0", &[], [1, 2, 0, 2], 24, [0, 0, 0]),
    ("23 and no flag out of 0", &[(0, BEFORE)], [1, 2, 0, 2], 23, [0, 0, 7]),
    ("23 and 22", &[(0, BEFORE), (1, &[])], FLAGS, 22, [0, 1, 0]),
    ("22 and 21", &[(1, &[]), (2, &[(0, 0), (8, 0), (9, 1)])], FLAGS, 21, [0, 2, 9]),
];

pub fn damaged_plans(failures: &mut Vec<String>) {
    for (row, changes, flags, number, places) in ROWS {
        let wanted = (number != 0).then_some((number, places));
        altered(failures, row, CHECK, wanted, |drafts| {
            drafts.plan.flags = flags.to_vec();
            for &(place, points) in changes {
                drafts.plan.replace_profile(place, points);
            }
        });
    }
    let drafts = drafts();
    let network = network::open(&drafts.network.file()).expect("Quay town opens");
    let plan = plan::open(&network, &drafts.plan.file()).expect("its plan is well-formed");
    // 5 points of roads, 7 of profiles; the roads' ends have 2, 1, 1 and none.
    let wanted = FindBounds { least: 7, one_test: 2 * 5 + 2 * 7 + 4 };
    expect(failures, "bounds of the finds", find_bounds(&network, &plan), wanted);
}
