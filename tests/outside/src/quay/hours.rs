//! Quay town with hours, by hand. Leaving 0 for 3 at tick 0 a van arrives at 7, at 1 at 8, at 7 and at 8 at
//! 14; from 0 to 2 at tick 0 at 6, from 0 to 1 at tick 9 at 11.

use super::{altered, drafts, expect, input};
use crate::compare::compare;
use crate::library::{CHECK, OPEN, PACK};
use crate::reference::blocks::BLOCK;
use crate::reference::trips::{flagged_trip, plain_trip, ListLengths, TripCall};

/// The target's hours, the call (from, to, departure), its arrival and the open tick.
type Row = ((u16, u16), (u32, u32, u32), u32, u32);

const OPEN_TICKS: [Row; 20] = [
    // Place 3 opens at 4 and closes at 7: at 7 it is shut, and opens at 4 of the next day.
    ((4, 7), (0, 3, 0), 7, 14),
    ((4, 8), (0, 3, 0), 7, 7),
    ((7, 8), (0, 3, 0), 7, 7),
    ((8, 9), (0, 3, 0), 7, 8),
    ((9, 10), (0, 3, 0), 7, 9),
    ((0, 7), (0, 3, 0), 7, 10),
    ((0, 1), (0, 3, 0), 7, 10),
    ((0, 10), (0, 3, 0), 7, 7),
    ((6, 7), (0, 3, 1), 8, 16),
    // 14 is tick 4 of the next day.
    ((4, 5), (0, 3, 7), 14, 14),
    ((5, 10), (0, 3, 7), 14, 15),
    ((0, 4), (0, 3, 8), 14, 20),
    ((3, 4), (0, 3, 8), 14, 23),
    ((0, 5), (0, 3, 8), 14, 14),
    ((6, 7), (0, 2, 0), 6, 6),
    ((5, 6), (0, 2, 0), 6, 15),
    ((0, 1), (0, 1, 9), 11, 20),
    // A place to itself is asked from the departure on.
    ((4, 5), (3, 3, 4), 4, 4),
    ((3, 4), (3, 3, 4), 4, 13),
    ((9, 10), (3, 3, 4), 4, 9),
];

/// Hours by place, and open's refusal and place; 0 is none.
type Judged = ([(u16, u16); 4], u32, u32);

const JUDGED: [Judged; 12] = [
    ([(0, 10), (0, 10), (0, 10), (0, 10)], 0, 0),
    ([(9, 10), (0, 1), (4, 5), (3, 9)], 0, 0),
    ([(0, 10), (5, 5), (0, 10), (0, 10)], 37, 1),
    ([(0, 10), (0, 10), (6, 5), (0, 10)], 37, 2),
    ([(0, 11), (0, 10), (0, 10), (0, 10)], 37, 0),
    ([(0, 10), (0, 10), (0, 10), (10, 10)], 37, 3),
    ([(0, 10), (0, 10), (0, 10), (10, 11)], 37, 3),
    ([(0, 10), (0, 0), (0, 11), (9, 3)], 37, 1),
    ([(0, 10), (0, 10), (0, 65_535), (0, 0)], 37, 2),
    ([(65_535, 10), (0, 10), (0, 10), (0, 10)], 37, 0),
    ([(9, 1), (9, 1), (9, 1), (9, 1)], 37, 0),
    ([(0, 1), (1, 2), (2, 3), (3, 3)], 37, 3),
];

pub fn hours(failures: &mut Vec<String>) {
    for row in OPEN_TICKS {
        open_tick(failures, row);
    }
    for (hours, number, place) in JUDGED {
        let wanted = (number != 0).then_some((number, [place, 0, 0]));
        for operation in [OPEN, PACK, CHECK] {
            altered(failures, &format!("hours {hours:?}"), operation, wanted, |drafts| {
                drafts.network.hold_hours(&hours);
            });
        }
        altered(failures, "7 at 3 and hours", OPEN, Some((7, [3, 0, 0])), |drafts| {
            drafts.network.hold_hours(&hours);
            drafts.network.tables.cells[3] = 2;
        });
        let wanted = wanted.unwrap_or((8, [0, 0, 0]));
        altered(failures, "hours and 8 at 0", OPEN, Some(wanted), |drafts| {
            drafts.network.hold_hours(&hours);
            drafts.network.tables.to[0] = 0;
        });
    }
    files(failures);
}

/// Places 0 to 2 are open all day, but for the target.
fn open_tick(failures: &mut Vec<String>, (hours, (from, to, departure), tick, open): Row) {
    let mut drafts = drafts();
    let mut all = [(0, 10); 4];
    all[to as usize] = hours;
    drafts.network.hold_hours(&all);
    let call = TripCall { from, to, departure };
    let verdict = compare(&input(&drafts, call));
    failures.extend(verdict.differences);
    let network = verdict.opened.expect("Quay town opens");
    let plan = verdict.planned.expect("its plan is well-formed");
    let any = ListLengths { arrivals: 512, roads: 512 };
    let trips = [plain_trip(&network, call, any), flagged_trip(&network, &plan, call, any)];
    for trip in trips {
        let told = trip.answer.map(|arrived| (arrived.tick, arrived.open));
        expect(failures, &format!("{call:?}, hours {hours:?}"), told, Ok((tick, open)));
    }
}

/// The bytes of its one block of places.
fn files(failures: &mut Vec<String>) {
    let mut drafts = drafts();
    drafts.network.hold_hours(&[(0, 10), (1, 2), (258, 3), (9, 10)]);
    let file = drafts.network.file();
    expect(failures, "byte 24", file[24], 1);
    let block = &file[BLOCK..2 * BLOCK];
    expect(failures, "kind, entries", block[..4].to_vec(), vec![9, 0, 4, 0]);
    let entries = vec![0, 0, 0, 0, 10, 0, 0, 0, 1, 0, 2, 0, 1, 0, 2, 1, 3, 0, 1, 0, 9, 0, 10, 0];
    expect(failures, "places with hours", block[8..32].to_vec(), entries);
}
