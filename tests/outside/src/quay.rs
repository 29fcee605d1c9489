//! Quay town, document 01's own example: built from its words and held to every row of its table, with the
//! ways that wish 2 gives it and the travels and the plan that wish 5 does.

mod damaged;
mod day;
mod hours;

use crate::compare::compare;
use crate::draft::{Drafts, NetworkDraft, PlanDraft, PlanHeader};
use crate::input::Input;
use crate::library::{CHECK, FLAGGED_LISTS, OPEN, PLAIN_LISTS};
use crate::oracle::document_01s_way;
use crate::reference::blocks::BLOCK;
use crate::reference::network::{self, Header, Tables};
use crate::reference::trips::{flagged_trip, plain_trip, Arrived, ListLengths, TripCall};
use crate::reference::{plan, Refusal};

const ANY_LIST: ListLengths = ListLengths { arrivals: 512, roads: 512 };

pub fn drafts() -> Drafts {
    let network = NetworkDraft {
        header: Header { number: 1, period: 10, nodes: 4, arcs: 4, cells: 2, points: 5, hours: 0 },
        tables: Tables {
            cells: vec![0, 0, 1, 1],
            opens: vec![0; 4],
            closes: vec![10; 4],
            from: vec![0, 1, 0, 2],
            to: vec![1, 2, 2, 3],
            counts: vec![1, 2, 1, 1],
            ticks: vec![0, 0, 5, 0, 0],
            travels: vec![2, 3, 7, 6, 1],
        },
    };
    let plan = PlanDraft {
        header: PlanHeader { number: 1, period: 10, nodes: 4, arcs: 4, cells: 2, borders: 1, zero: 0, points: 7 },
        flags: vec![3, 2, 2, 2],
        counts: vec![4, 2, 1, 0],
        ticks: vec![0, 7, 8, 9, 0, 5, 0],
        travels: vec![6, 6, 5, 6, 3, 7, 0],
    };
    Drafts { network, plan }
}

pub fn input(drafts: &Drafts, call: TripCall) -> Input {
    Input::roomy(drafts.network.file(), drafts.plan.file(), call, [4, 4, 4, 4, 4, 4, 5, 5], 2)
}

/// Every row that does not hold, and every difference met on the way.
pub fn failures() -> Vec<String> {
    let mut failures = Vec::new();
    files_and_travels(&mut failures);
    trips(&mut failures);
    changed_ways(&mut failures);
    altered_towns(&mut failures);
    damaged::damaged_plans(&mut failures);
    hours::hours(&mut failures);
    day::days(&mut failures);
    failures
}

fn expect<T: PartialEq + std::fmt::Debug>(failures: &mut Vec<String>, row: &str, found: T, wanted: T) {
    if found != wanted {
        failures.push(format!("Quay town, {row}: {found:?}, the documents say {wanted:?}"));
    }
}

fn files_and_travels(failures: &mut Vec<String>) {
    let drafts = drafts();
    expect(failures, "network blocks", drafts.network.file().len(), 4 * BLOCK);
    expect(failures, "plan blocks", drafts.plan.file().len(), 4 * BLOCK);
    let network = network::open(&drafts.network.file()).expect("Quay town opens");
    expect(failures, "borders", plan::borders(&network), vec![2]);
    let travels: Vec<u64> = (0..10).map(|tick| network.arc_travel(1, tick)).collect();
    expect(failures, "road 1, ticks 0 to 9", travels, vec![3, 4, 5, 6, 7, 7, 7, 6, 5, 4]);
}

/// One trip, plain and flagged, by the reference and through the library.
fn trip(failures: &mut Vec<String>, call: TripCall, wanted: Result<Arrived, Refusal>) {
    let input = input(&drafts(), call);
    let verdict = compare(&input);
    failures.extend(verdict.differences);
    let network = verdict.opened.expect("Quay town opens");
    let plan = verdict.planned.expect("its plan is well-formed");
    expect(failures, &format!("plain {call:?}"), plain_trip(&network, call, ANY_LIST).answer, wanted.clone());
    expect(
        failures,
        &format!("flagged {call:?}"),
        flagged_trip(&network, &plan, call, ANY_LIST).answer,
        wanted.clone(),
    );
    let refused = wanted.err();
    expect(failures, "check", verdict.predicted[CHECK], None);
    expect(failures, "plain refusal", verdict.predicted[PLAIN_LISTS], refused);
    expect(failures, "flagged refusal", verdict.predicted[FLAGGED_LISTS], refused);
}

/// Document 01's rows as wishes 2 and 5 have them, and then all pairs and ticks.
fn trips(failures: &mut Vec<String>) {
    let arrives = |tick, roads: &[u16]| Ok(Arrived { tick, open: tick, roads: roads.to_vec() });
    let no_way = Err(Refusal { number: 28, places: [0; 3] });
    trip(failures, TripCall { from: 0, to: 3, departure: 0 }, arrives(7, &[2, 3]));
    trip(failures, TripCall { from: 0, to: 3, departure: 1 }, arrives(8, &[2, 3]));
    trip(failures, TripCall { from: 0, to: 3, departure: 8 }, arrives(14, &[0, 1, 3]));
    trip(failures, TripCall { from: 0, to: 3, departure: 7 }, arrives(14, &[2, 3]));
    trip(failures, TripCall { from: 3, to: 3, departure: 4 }, arrives(4, &[]));
    for departure in 0..10 {
        for (from, to) in (0..4).flat_map(|from| (0..4).map(move |to| (from, to))) {
            let wanted = way_at(from, to, departure as usize);
            let wanted = wanted.map_or(no_way.clone(), |(travel, roads)| arrives(departure + travel, roads));
            trip(failures, TripCall { from, to, departure }, wanted);
        }
    }
}

/// Travel and roads by hand: road 1 as wish 5 tells it, and from 0 to 2 road 2 takes 6 at any tick, roads 0
/// and 1 take 7 8 9 9 9 8 7 6 5 6.
fn way_at(from: u32, to: u32, tick: usize) -> Option<(u32, &'static [u16])> {
    let road_1 = [3, 4, 5, 6, 7, 7, 7, 6, 5, 4][tick];
    match (from, to) {
        (0, 1) => Some((2, &[0])),
        (0, 2) if tick != 8 => Some((6, &[2])),
        (0, 2) => Some((5, &[0, 1])),
        (0, 3) if tick != 8 => Some((7, &[2, 3])),
        (0, 3) => Some((6, &[0, 1, 3])),
        (1, 2) => Some((road_1, &[1])),
        (1, 3) => Some((road_1 + 1, &[1, 3])),
        (2, 3) => Some((1, &[3])),
        _ => (from == to).then_some((0, &[])),
    }
}

/// Wish 2: "In Quay town the ways that change are from 0 to 2 and from 0 to 3, leaving at 0 and at 6: they
/// now take road 2 in place of roads 0 and 1." The ties that it tells of are those of lines rounded down;
/// rounded up, roads 0 and 1 take as long as road 2 leaving at 7 and at 9.
fn changed_ways(failures: &mut Vec<String>) {
    let drafts = drafts();
    let network = network::open(&drafts.network.file()).expect("Quay town opens");
    let plan = plan::open(&network, &drafts.plan.file()).expect("its plan is well-formed");
    for plan in [None, Some(&plan)] {
        let mut changed = Vec::new();
        for (from, to) in (0..4).flat_map(|from| (0..4).map(move |to| (from, to))) {
            for departure in 0..10 {
                let call = TripCall { from, to, departure };
                let before = document_01s_way(&network, plan, call);
                let now = way_at(from, to, departure as usize).map(|(_, roads)| roads.to_vec());
                if before != now {
                    changed.push((from, to, departure, (before, now)));
                }
            }
        }
        let ways = |before: &[u16], now: &[u16]| (Some(before.to_vec()), Some(now.to_vec()));
        let wanted = vec![
            (0, 2, 7, ways(&[0, 1], &[2])),
            (0, 2, 9, ways(&[0, 1], &[2])),
            (0, 3, 7, ways(&[0, 1, 3], &[2, 3])),
            (0, 3, 9, ways(&[0, 1, 3], &[2, 3])),
        ];
        expect(failures, "ways that change", changed, wanted);
    }
}

/// One altered town: what open and the check give.
fn altered(
    failures: &mut Vec<String>,
    row: &str,
    operation: usize,
    wanted: Option<(u32, [u32; 3])>,
    alter: impl Fn(&mut Drafts),
) {
    let mut drafts = drafts();
    alter(&mut drafts);
    let verdict = compare(&input(&drafts, TripCall { from: 0, to: 3, departure: 0 }));
    failures.extend(verdict.differences);
    let wanted = wanted.map(|(number, places)| Refusal { number, places });
    expect(failures, row, verdict.predicted[operation], wanted);
}

fn altered_towns(failures: &mut Vec<String>) {
    altered(failures, "(5,8)", OPEN, None, |drafts| drafts.network.tables.travels[2] = 8);
    altered(failures, "(5,9)", OPEN, Some((10, [2, 0, 0])), |drafts| drafts.network.tables.travels[2] = 9);
    altered(failures, "flags 1, 2, 2, 2", CHECK, Some((24, [0, 0, 8])), |drafts| drafts.plan.flags[0] = 1);
    altered(failures, "flags 3, 2, 0, 2", CHECK, Some((24, [0, 0, 0])), |drafts| drafts.plan.flags[2] = 0);
    altered(failures, "first travel 5", CHECK, Some((23, [0, 0, 0])), |drafts| drafts.plan.travels[0] = 5);
    altered(failures, "first travel 7", CHECK, Some((22, [0, 0, 0])), |drafts| drafts.plan.travels[0] = 7);
}

#[cfg(test)]
mod tests {
    #[test]
    fn every_row_holds() {
        assert_eq!(super::failures(), Vec::<String>::new());
    }
}
