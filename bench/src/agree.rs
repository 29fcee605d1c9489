//! Both contestants give the same answers, or nothing is measured: on the files of a town, and on files with one byte changed.
use crate::files::{header, lists, Files};
use crate::finds;
use crate::library;
use crate::plain::blocks::{sums, BLOCK};
use crate::plain::network::{self, Header, Tables};
use crate::plain::pack::Lists;
use crate::plain::trips::{self, Arrived, Ask};
use crate::plain::{check, day, import, pack, Refusal};
use crate::texts::{self, Text};
use crate::town::{Dice, Town};

/// Refusals are counted by their numbers.
pub type Seen = [usize; 40];

/// Owned tables for Open.
#[derive(Clone, PartialEq, Eq, Debug)]
pub struct Opened {
    cells: Vec<u16>,
    opens: Vec<u16>,
    closes: Vec<u16>,
    tails: Vec<u16>,
    heads: Vec<u16>,
    counts: Vec<u16>,
    ticks: Vec<u16>,
    travels: Vec<u16>,
}

impl Opened {
    pub fn room() -> Opened {
        Opened::marked(0)
    }

    /// With the same number in every entry.
    pub fn marked(mark: u16) -> Opened {
        Opened {
            cells: vec![mark; 512],
            opens: vec![mark; 512],
            closes: vec![mark; 512],
            tails: vec![mark; 2048],
            heads: vec![mark; 2048],
            counts: vec![mark; 2048],
            ticks: vec![mark; 65_535],
            travels: vec![mark; 65_535],
        }
    }

    pub fn lend(&mut self) -> Tables<'_> {
        Tables {
            cells: &mut self.cells,
            opens: &mut self.opens,
            closes: &mut self.closes,
            tails: &mut self.tails,
            heads: &mut self.heads,
            counts: &mut self.counts,
            ticks: &mut self.ticks,
            travels: &mut self.travels,
        }
    }

    /// The same for Pack.
    pub fn lists(&self) -> Lists<'_> {
        Lists {
            cells: &self.cells,
            opens: &self.opens,
            closes: &self.closes,
            tails: &self.tails,
            heads: &self.heads,
            counts: &self.counts,
            ticks: &self.ticks,
            travels: &self.travels,
        }
    }
}

/// What a trip leaves: its outcome, arrivals and roads.
type Left = (Result<Arrived, Refusal>, Vec<u32>, Vec<u16>);

fn leave(trip: impl FnOnce(&mut [u32], &mut [u16]) -> Result<Arrived, Refusal>) -> Left {
    let mut arrivals = vec![7; 520];
    let mut roads = vec![9; 520];
    let outcome = trip(&mut arrivals, &mut roads);
    (outcome, arrivals, roads)
}

pub fn plain_trips(network: &[u8], ask: &Ask) -> Left {
    let left = leave(|arrivals, roads| library::plain_trip_lists(network, ask, arrivals, roads));
    let ours = leave(|arrivals, roads| trips::plain_trip_lists(network, ask, arrivals, roads));
    assert_eq!(left, ours, "plain trip {ask:?}");
    left
}

pub fn flagged_trips(network: &[u8], plan: &[u8], ask: &Ask) -> Left {
    let left = leave(|arrivals, roads| library::flagged_trip_lists(network, plan, ask, arrivals, roads));
    let ours = leave(|arrivals, roads| trips::flagged_trip_lists(network, plan, ask, arrivals, roads));
    assert_eq!(left, ours, "flagged trip {ask:?}");
    left
}

/// The same in document 01's bytes.
fn byte_trips(network: &[u8], plan: &[u8], ask: &Ask) {
    let (mut left, mut ours) = ([3; 1040], [3; 1040]);
    assert_eq!(library::plain_trip(network, &mut left, ask), trips::plain_trip(network, &mut ours, ask));
    assert_eq!(left, ours, "plain trip in bytes {ask:?}");
    assert_eq!(library::flagged_trip(network, plan, &mut left, ask), trips::flagged_trip(network, plan, &mut ours, ask));
    assert_eq!(left, ours, "flagged trip in bytes {ask:?}");
}

fn opens(file: &[u8]) -> (Result<Header, Refusal>, Opened) {
    let (mut left, mut ours) = (Opened::room(), Opened::room());
    let header = library::open(file, left.lend());
    assert_eq!(header, network::open(file, ours.lend()), "open");
    assert!(left == ours, "tables of open");
    (header, left)
}

fn packs(header: &Header, town: &Town) -> Result<usize, Refusal> {
    let (mut left, mut ours) = (vec![5; 285_698], vec![5; 285_698]);
    let long = library::pack(header, &lists(town), &mut left);
    assert_eq!(long, pack::pack(header, &lists(town), &mut ours), "pack");
    assert!(left == ours, "bytes of pack");
    long
}

/// Trips on a valid network and plan: all answers the same, and the flagged arrival the plain one's.
pub fn on_trips(files: &Files, asks: &[Ask]) {
    for ask in asks {
        let plain = plain_trips(&files.network, ask);
        for plan in [&files.plan, &files.light_plan] {
            let flagged = flagged_trips(&files.network, plan, ask);
            assert_eq!(plain.0.map(|arrived| arrived.tick), flagged.0.map(|arrived| arrived.tick), "{ask:?}");
        }
        byte_trips(&files.network, &files.plan, ask);
    }
}

/// What a day sheet leaves: its outcome, the work list and the list.
type LeftDay = (Result<usize, Refusal>, Vec<u32>, Vec<u32>);

fn leave_day(sheet: impl FnOnce(&mut [u32], &mut [u32]) -> Result<usize, Refusal>, work: usize, list: usize) -> LeftDay {
    let (mut work, mut list) = (vec![7; work], vec![9; list]);
    let outcome = sheet(&mut work, &mut list);
    (outcome, work, list)
}

fn day_sheets(network: &[u8], from: u32, to: u32, work: usize, list: usize) -> LeftDay {
    let left = leave_day(|work, list| library::day_sheet(network, from, to, work, list), work, list);
    let ours = leave_day(|work, list| day::day_sheet(network, from, to, work, list), work, list);
    assert!(left == ours, "day sheet from {from} to {to}, {work} and {list} entries");
    left
}

/// Day sheets on a valid network: all answers and lists the same, with lists of every kind, and the entries the plain trips' arrivals.
pub fn on_days(files: &Files, town: &Town, asks: &[Ask]) {
    let (nodes, period) = (town.cells.len(), town.period as usize);
    let size = nodes * period;
    for ask in asks {
        let (outcome, _, list) = day_sheets(&files.network, ask.from, ask.to, size + 1, period + 1);
        assert!(outcome.is_ok_and(|entries| entries == period) && list[period] == 9);
        for departure in (0..period).step_by(61) {
            let ask = Ask { departure: departure as u32, ..*ask };
            let trip = plain_trips(&files.network, &ask).0;
            assert_eq!(trip.map(|arrived| arrived.tick), Ok(list[departure]), "{ask:?}");
        }
    }
    let number = |from, to, work, list| day_sheets(&files.network, from, to, work, list).0.map_err(|refusal| refusal.number);
    let none = nodes as u32;
    assert_eq!(number(none, none, 0, 0), Err(25));
    assert_eq!(number(0, none, 0, 0), Err(25));
    assert_eq!(number(0, 1, size - 1, 0), Err(34));
    assert_eq!(number(0, 1, size, period - 1), Err(31));
    assert_eq!(number(0, 0, size, period), Ok(period));
}

pub fn on_tables(town: &Town, files: &Files) {
    let header = header(town);
    assert_eq!(opens(&files.network).0, Ok(header));
    assert_eq!(packs(&header, town), Ok(files.network.len()));
    assert_eq!(packs(&Header { points: header.points - 1, ..header }, town).map_err(|refusal| refusal.number), Err(8));
}

/// The same town with hours: tables, trips with their open ticks, and damaged files.
pub fn on_hours(town: &Town, files: &Files, asks: &[Ask], cases: usize) -> Seen {
    let town = town.with_hours(&mut Dice::new(6));
    let header = header(&town);
    let mut network = vec![0; BLOCK * header.blocks()];
    pack::pack(&header, &lists(&town), &mut network).expect("hours that are allowed");
    let files = Files { network, ..files.clone() };
    on_tables(&town, &files);
    assert_eq!(packs(&Header { hours: 0, ..header }, &town).map_err(|refusal| refusal.number), Err(37));
    on_trips(&files, asks);
    on_damaged_files(&files, asks, cases)
}

/// A file with one byte changed at random; mostly its block's check is mended, so that later rules speak.
fn damage(file: &[u8], dice: &mut Dice) -> Vec<u8> {
    let mut file = file.to_vec();
    let block = match dice.within(0, 3) {
        0 => dice.within(0, 3.min(file.len() as u64 / BLOCK as u64 - 1)),
        _ => dice.within(0, file.len() as u64 / BLOCK as u64 - 1),
    } as usize;
    let at = BLOCK * block + dice.within(0, 511) as usize;
    file[at] = match dice.within(0, 2) {
        0 => file[at] ^ 1,
        1 => file[at].wrapping_add(1),
        _ => dice.within(0, 255) as u8,
    };
    if dice.within(0, 4) > 0 {
        mend(&mut file, block);
    }
    file
}

pub fn mend(file: &mut [u8], block: usize) {
    let block = &mut file.as_chunks_mut::<BLOCK>().0[block];
    let (a, b) = sums(block);
    block[508..510].copy_from_slice(&a.to_le_bytes());
    block[510..512].copy_from_slice(&b.to_le_bytes());
}

/// The same refusals, of whatever number and places.
pub fn on_damaged_files(files: &Files, asks: &[Ask], cases: usize) -> Seen {
    let mut dice = Dice::new(4);
    let mut seen = [0; 40];
    for case in 0..cases {
        let ask = &asks[case % asks.len()];
        let network = damage(&files.network, &mut dice);
        let outcome = plain_trips(&network, ask).0;
        seen[outcome.err().map_or(0, |refusal| refusal.number as usize)] += 1;
        assert_eq!(opens(&network).0.is_ok(), outcome.is_ok(), "open and trip");
        let plan = damage(if case % 2 == 0 { &files.plan } else { &files.light_plan }, &mut dice);
        let outcome = flagged_trips(&files.network, &plan, ask).0;
        seen[outcome.err().map_or(0, |refusal| refusal.number as usize)] += 1;
    }
    seen
}

/// The verdict of the library's check, the same by both plain checks, and as many finds as document 02 allows.
pub fn checks(network: &[u8], plan: &[u8]) -> Result<(), Refusal> {
    let (verdict, finds) = library::check_plan(network, plan);
    assert_eq!(verdict, check::check_swept(network, plan), "check, swept");
    assert_eq!(verdict, check::check_each_tick(network, plan), "check at each tick");
    let bound = finds::bound(network, plan, verdict);
    assert!(bound.contains(&finds), "{finds} finds beside {verdict:?}, allowed {bound:?}");
    verdict
}

/// The check of a town's plan, and of damaged ones.
pub fn on_checks(files: &Files, cases: usize) -> Seen {
    let mut dice = Dice::new(5);
    let mut seen = [0; 40];
    for case in 0..cases {
        let plan = if case == 0 { files.plan.clone() } else { damage(&files.plan, &mut dice) };
        let verdict = checks(&files.network, &plan);
        seen[verdict.err().map_or(0, |refusal| refusal.number as usize)] += 1;
    }
    seen
}

fn imports(text: &[u8], room: usize) -> Result<usize, Refusal> {
    let (mut left, mut ours) = (vec![5; room], vec![5; room]);
    let long = library::import(text, 20_263, &mut left);
    assert_eq!(long, import::import(text, 20_263, &mut ours), "import");
    assert!(left == ours, "bytes of import");
    long
}

/// The same files of texts, the same refusals of damaged ones, and of too few bytes.
pub fn on_texts(all: &[Text], cases: usize) -> Seen {
    let mut dice = Dice::new(7);
    let mut seen = [0; 40];
    let mut see = |outcome: Result<usize, Refusal>| seen[outcome.err().map_or(0, |refusal| refusal.number as usize)] += 1;
    for text in all {
        let long = imports(&text.bytes, 30_000).expect("a text that is imported");
        see(imports(&text.bytes, long));
        see(imports(&text.bytes, long - 1));
        for _ in 0..8 {
            see(imports(&texts::damage(&text.bytes, &mut dice), 30_000));
        }
    }
    for _ in 0..cases {
        let text = texts::short(&mut dice);
        let room = dice.within(2_900, 3_900) as usize;
        see(imports(&texts::damage(&text, &mut dice), room));
    }
    seen
}
