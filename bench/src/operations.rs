//! Every operation of the C library, as it is called of one library or another in a town, and what is lent
//! to it.
use crate::agree::Opened;
use crate::functions::{DayLists, Functions, TripLists};
use crate::scene::Scene;
use crate::suite::ASKS;

pub struct Operation {
    pub name: &'static str,
    /// The C function.
    pub function: &'static str,
    /// How many asks of the town make a difference to it: 0 where it takes none.
    pub asks: usize,
    /// How many calls make a round; 1 where a call is long.
    pub calls: Calls,
    /// How many bytes are lent for a file.
    pub out: usize,
    /// Whether a work list is lent.
    pub works: bool,
    pub call: Call,
}

type Calls = fn(&Scene) -> usize;
type Call = fn(&Functions, &Scene, usize, &mut Room) -> u32;

/// An operation that takes no ask, and is lent neither bytes for a file nor a work list.
const fn new(name: &'static str, function: &'static str, calls: Calls, call: Call) -> Operation {
    Operation { name, function, asks: 0, calls, out: 0, works: false, call }
}

const fn trips(name: &'static str, function: &'static str, calls: Calls, call: Call) -> Operation {
    Operation { asks: ASKS, ..new(name, function, calls, call) }
}

pub static ALL: [Operation; 10] = [
    new("open", "varnwalnut_open_network", |_| 16, open),
    Operation { out: 285_698, ..new("pack", "varnwalnut_pack_network", |_| 16, pack) },
    trips("plain trip", "varnwalnut_plain_trip", |_| ASKS, plain_trip),
    trips("plain trip, lists", "varnwalnut_plain_trip_lists", |_| ASKS, plain_trip_lists),
    trips("flagged trip", "varnwalnut_flagged_trip", flagged_calls, flagged_trip),
    trips("flagged trip, lists", "varnwalnut_flagged_trip_lists", flagged_calls, flagged_trip_lists),
    new("check plan", CHECK, |_| 1, check_plan),
    Operation { out: 7_023_618, works: true, ..new("make plan", "varnwalnut_make_plan", |_| 1, make_plan) },
    Operation { asks: 8, works: true, ..new("day sheet", "varnwalnut_day_sheet", |_| 8, day_sheet) },
    Operation { out: 30_000, ..new("import", IMPORT, import_calls, import) },
];

pub const CHECK: &str = "varnwalnut_check_plan";
const IMPORT: &str = "varnwalnut_import_dimacs";

/// The operations on a text alone.
pub fn on_texts() -> &'static [Operation] {
    let import = ALL.iter().find(|operation| operation.function == IMPORT);
    std::slice::from_ref(import.expect("the import is one of them"))
}

/// A large plan takes a millisecond, so a round of few calls is long enough.
fn flagged_calls(scene: &Scene) -> usize {
    if scene.plan.len() > 1 << 20 {
        4
    } else {
        ASKS
    }
}

fn import_calls(scene: &Scene) -> usize {
    if scene.text.len() > 1 << 18 {
        4
    } else {
        ASKS
    }
}

fn open(library: &Functions, scene: &Scene, _: usize, room: &mut Room) -> u32 {
    library.open(&scene.network, room.tables.lend(), &mut room.answer)
}

fn pack(library: &Functions, scene: &Scene, _: usize, room: &mut Room) -> u32 {
    library.pack(&scene.header, &scene.tables.lists(), &mut room.out, &mut room.answer)
}

fn plain_trip(library: &Functions, scene: &Scene, call: usize, room: &mut Room) -> u32 {
    library.plain_trip(&scene.network, &scene.asks[call], &mut room.trip)
}

fn plain_trip_lists(library: &Functions, scene: &Scene, call: usize, room: &mut Room) -> u32 {
    library.plain_trip_lists(&scene.network, &scene.asks[call], room.trip_lists())
}

fn flagged_trip(library: &Functions, scene: &Scene, call: usize, room: &mut Room) -> u32 {
    library.flagged_trip(&scene.network, &scene.plan, &scene.asks[call], &mut room.trip)
}

fn flagged_trip_lists(library: &Functions, scene: &Scene, call: usize, room: &mut Room) -> u32 {
    library.flagged_trip_lists(&scene.network, &scene.plan, &scene.asks[call], room.trip_lists())
}

fn check_plan(library: &Functions, scene: &Scene, _: usize, room: &mut Room) -> u32 {
    library.check_plan(&scene.network, &scene.plan, &mut room.answer)
}

fn make_plan(library: &Functions, scene: &Scene, _: usize, room: &mut Room) -> u32 {
    library.make_plan(&scene.network, &mut room.work, &mut room.out, &mut room.answer)
}

fn day_sheet(library: &Functions, scene: &Scene, call: usize, room: &mut Room) -> u32 {
    library.day_sheet(&scene.network, scene.asks[call].from, scene.asks[call].to, room.day_lists())
}

fn import(library: &Functions, scene: &Scene, _: usize, room: &mut Room) -> u32 {
    library.import(&scene.text, 1, &mut room.out, &mut room.answer)
}

/// What is lent to one library, marked beforehand, with some room to spare.
#[derive(Clone, PartialEq)]
pub struct Room {
    pub answer: [u32; 12],
    trip: Vec<u8>,
    arrivals: Vec<u32>,
    roads: Vec<u16>,
    tables: Opened,
    out: Vec<u8>,
    work: Vec<u32>,
    list: Vec<u32>,
}

impl Room {
    pub fn new(operation: &Operation, scene: &Scene) -> Room {
        Room {
            answer: [11; 12],
            trip: vec![3; 1040],
            arrivals: vec![7; 520],
            roads: vec![9; 520],
            tables: Opened::marked(60_001),
            out: vec![5; operation.out],
            work: vec![13; if operation.works { scene.work() + 1 } else { 0 }],
            list: vec![9; scene.header.period as usize + 1],
        }
    }

    fn trip_lists(&mut self) -> TripLists<'_> {
        TripLists { arrivals: &mut self.arrivals, roads: &mut self.roads, answer: &mut self.answer }
    }

    fn day_lists(&mut self) -> DayLists<'_> {
        DayLists { work: &mut self.work, list: &mut self.list, answer: &mut self.answer }
    }
}
