//! What is measured: each operation on each town, imports of each text, validation and search apart, settled nodes, and stacks.
use crate::agree::{self, Opened};
use crate::files::{self, Files};
use crate::measure::{interleave, spread, Work};
use crate::plain::network::Header;
use crate::plain::trips::{self, Ask};
use crate::plain::{check, day, import, network, pack, Refusal};
use crate::texts::Text;
use crate::town::{self, Dice, Shape, Town};
use crate::{finds, library, stack, table};
use std::hint::black_box;

pub struct Effort {
    pub rounds: usize,
    pub checks: Option<usize>,
    pub only: String,
}

impl Effort {
    /// Rounds of the check of the full town.
    pub fn full_checks(&self) -> usize {
        self.checks.unwrap_or(3)
    }

    /// Rounds of the check and of making a plan, beside another library.
    pub fn long_rounds(&self) -> usize {
        self.checks.unwrap_or(self.rounds.min(9))
    }
}

/// A town with its files and the trips that are asked for.
pub struct Subject {
    name: &'static str,
    town: Town,
    files: Files,
    asks: Vec<Ask>,
}

pub const ASKS: usize = 64;

/// Refused with 25, once all files are validated: validation alone.
pub const NOWHERE: [Ask; 1] = [Ask { from: u32::MAX, to: 0, departure: 0 }];

/// Arrived before anything is settled: a search's own tables alone.
const HOME: [Ask; 1] = [Ask { from: 0, to: 0, departure: 0 }];

/// The trips that are asked for in a town, the same in every run.
pub fn asks(header: &Header) -> Vec<Ask> {
    let mut dice = Dice::new(2);
    let last = header.nodes as u64 - 1;
    let ask = |_| Ask {
        from: dice.within(0, last) as u32,
        to: dice.within(0, last) as u32,
        departure: dice.within(0, header.period as u64 - 1) as u32,
    };
    (0..ASKS).map(ask).collect()
}

impl Subject {
    pub fn new(name: &'static str, shape: &Shape) -> Subject {
        let town = town::make(shape);
        let files = files::make(&town);
        let asks = asks(&files::header(&town));
        Subject { name, town, files, asks }
    }

    pub fn summary(&self) -> String {
        format!(
            "{}: {} nodes, {} arcs, {} points, period {}, {} cells, {} borders\n  network {} bytes; plan {} bytes, {} points",
            self.name,
            self.town.cells.len(),
            self.town.tails.len(),
            self.town.ticks.len(),
            self.town.period,
            self.town.cell_count,
            files::borders(&self.town).len(),
            self.files.network.len(),
            self.files.plan.len(),
            self.files.points,
        )
    }
}

/// Nothing is timed before both have answered alike.
pub fn agree(medium: &Subject, full: &Subject, texts: &[Text]) {
    for subject in [medium, full] {
        agree::on_tables(&subject.town, &subject.files);
        agree::on_trips(&subject.files, &subject.asks);
        agree::on_days(&subject.files, &subject.town, &subject.asks[..8]);
    }
    let trips = agree::on_damaged_files(&medium.files, &medium.asks, 2000);
    let hours = agree::on_hours(&medium.town, &medium.files, &medium.asks, 1000);
    let checks = agree::on_checks(&medium.files, 12);
    let imports = agree::on_texts(texts, 20_000);
    // Each ask of each town, and of the medium one with hours, is a plain and two flagged trips in lists, and a plain and a flagged one in bytes.
    println!("alike: {} trips; on damaged files, in checks and in imports, refusal:times", 5 * ASKS * 3);
    println!("  files {}\n  with hours {}", told(&trips), told(&hours));
    println!("  checks {}\n  imports {}", told(&checks), told(&imports));
}

/// Refusal numbers with how often each occurred.
fn told(seen: &agree::Seen) -> String {
    let numbers = seen.iter().enumerate().filter(|(_, &count)| count > 0);
    numbers.map(|(number, count)| format!("{number}:{count}")).collect::<Vec<_>>().join(" ")
}

/// One town's table.
pub fn run(subject: &Subject, effort: &Effort, checks: usize) {
    let wants = |operation: &str| operation.contains(&effort.only);
    if wants("plain trip") {
        plain_trips(subject, effort.rounds);
    }
    if wants("flagged trip") {
        flagged_trips(subject, effort.rounds);
    }
    if wants("open") {
        opens(subject, effort.rounds);
    }
    if wants("pack") {
        packs(subject, effort.rounds);
    }
    if wants("day sheet") {
        day_sheets(subject, effort.rounds);
    }
    if wants("check") && checks > 0 {
        check_plans(subject, checks);
    }
}

/// A file whose last check is wrong: refused once every block is summed.
fn unsealed(file: &[u8]) -> Vec<u8> {
    let mut file = file.to_vec();
    *file.last_mut().expect("a file has blocks") ^= 1;
    file
}

/// Plain trips on a network by the library, asked in turn.
fn plain_left<'a>(network: &'a [u8], asks: &'a [Ask]) -> Work<'a> {
    let mut answer = [0; 1032];
    Box::new(move |call| _ = black_box(library::plain_trip(network, &mut answer, &asks[call % asks.len()])))
}

/// The same by Rust.
fn plain_ours<'a>(network: &'a [u8], asks: &'a [Ask]) -> Work<'a> {
    let mut answer = [0; 1032];
    Box::new(move |call| _ = black_box(trips::plain_trip(network, &mut answer, &asks[call % asks.len()])))
}

fn flagged_left<'a>(network: &'a [u8], plan: &'a [u8], asks: &'a [Ask]) -> Work<'a> {
    let mut answer = [0; 1032];
    Box::new(move |call| _ = black_box(library::flagged_trip(network, plan, &mut answer, &asks[call % asks.len()])))
}

fn flagged_ours<'a>(network: &'a [u8], plan: &'a [u8], asks: &'a [Ask]) -> Work<'a> {
    let mut answer = [0; 1032];
    Box::new(move |call| _ = black_box(trips::flagged_trip(network, plan, &mut answer, &asks[call % asks.len()])))
}

fn plain_trips(subject: &Subject, rounds: usize) {
    let (town, network, asks) = (subject.name, &subject.files.network, &subject.asks);
    let unsealed = unsealed(network);
    let [sums, our_sums, validation, our_validation, home, our_home, trip, our_trip] = interleave(
        rounds,
        ASKS,
        [
            plain_left(&unsealed, &NOWHERE),
            plain_ours(&unsealed, &NOWHERE),
            plain_left(network, &NOWHERE),
            plain_ours(network, &NOWHERE),
            plain_left(network, &HOME),
            plain_ours(network, &HOME),
            plain_left(network, asks),
            plain_ours(network, asks),
        ],
    );
    table::print("block sums, network", town, &sums, &our_sums);
    table::print_rate(town, network.len(), &sums, &our_sums);
    table::print("validation, network", town, &validation, &our_validation);
    table::print("plain trip", town, &trip, &our_trip);
    table::print("  its search alone", town, &trip.beyond(&validation), &our_trip.beyond(&our_validation));
    table::print("  of it, tables of arcs", town, &home.beyond(&validation), &our_home.beyond(&our_validation));
}

fn flagged_trips(subject: &Subject, rounds: usize) {
    let town = subject.name;
    let Files { network, plan, .. } = &subject.files;
    let unsealed = unsealed(plan);
    // A large plan takes milliseconds, so a round of few calls is long enough.
    let calls = if plan.len() > 1 << 20 { 4 } else { ASKS };
    let [floor, our_floor, sums, our_sums, validation, our_validation, trip, our_trip] = interleave(
        rounds,
        calls,
        [
            plain_left(network, &NOWHERE),
            plain_ours(network, &NOWHERE),
            flagged_left(network, &unsealed, &NOWHERE),
            flagged_ours(network, &unsealed, &NOWHERE),
            flagged_left(network, plan, &NOWHERE),
            flagged_ours(network, plan, &NOWHERE),
            flagged_left(network, plan, &subject.asks),
            flagged_ours(network, plan, &subject.asks),
        ],
    );
    let (sums, our_sums) = (sums.beyond(&floor), our_sums.beyond(&our_floor));
    table::print("block sums, plan", town, &sums, &our_sums);
    table::print_rate(town, plan.len(), &sums, &our_sums);
    table::print("validation, both files", town, &validation, &our_validation);
    table::print("flagged trip", town, &trip, &our_trip);
    flagged_searches(subject, rounds);
}

/// Beside the validation of a large plan the search is lost in noise: it is timed with the same flags in a plan without profiles.
fn flagged_searches(subject: &Subject, rounds: usize) {
    let Files { network, light_plan, .. } = &subject.files;
    let [validation, our_validation, trip, our_trip] = interleave(
        rounds,
        ASKS,
        [
            flagged_left(network, light_plan, &NOWHERE),
            flagged_ours(network, light_plan, &NOWHERE),
            flagged_left(network, light_plan, &subject.asks),
            flagged_ours(network, light_plan, &subject.asks),
        ],
    );
    table::print("  its search alone", subject.name, &trip.beyond(&validation), &our_trip.beyond(&our_validation));
}

fn opens(subject: &Subject, rounds: usize) {
    let network = &subject.files.network;
    let (mut left, mut ours) = (Opened::room(), Opened::room());
    let [library, rust] = interleave(
        rounds,
        16,
        [
            Box::new(|_| _ = black_box(library::open(network, left.lend()))),
            Box::new(|_| _ = black_box(network::open(network, ours.lend()))),
        ],
    );
    table::print("open", subject.name, &library, &rust);
}

fn packs(subject: &Subject, rounds: usize) {
    let (header, lists) = (files::header(&subject.town), files::lists(&subject.town));
    let (mut left, mut ours) = (vec![0; 285_696], vec![0; 285_696]);
    let [library, rust] = interleave(
        rounds,
        16,
        [
            Box::new(|_| _ = black_box(library::pack(&header, &lists, &mut left))),
            Box::new(|_| _ = black_box(pack::pack(&header, &lists, &mut ours))),
        ],
    );
    table::print("pack", subject.name, &library, &rust);
}

/// The sheet for one pair of places, and a plain trip for each tick in its place.
fn day_sheets(subject: &Subject, rounds: usize) {
    let (network, period) = (&subject.files.network, subject.town.period);
    let size = subject.town.cells.len() * period as usize;
    let (mut work, mut our_work) = (vec![0; size], vec![0; size]);
    let (mut list, mut our_list) = (vec![0; period as usize], vec![0; period as usize]);
    let asks = &subject.asks;
    let [library, rust] = interleave(
        rounds,
        8,
        [
            Box::new(|call| _ = black_box(library::day_sheet(network, asks[call].from, asks[call].to, &mut work, &mut list))),
            Box::new(|call| _ = black_box(day::day_sheet(network, asks[call].from, asks[call].to, &mut our_work, &mut our_list))),
        ],
    );
    table::print("day sheet", subject.name, &library, &rust);
    let mut answer = [0; 1032];
    let every: Vec<Ask> = (0..period as u32).map(|departure| Ask { departure, ..asks[0] }).collect();
    let [sheet, trips] = interleave(
        rounds / 10 + 1,
        1,
        [
            Box::new(|_| _ = black_box(library::day_sheet(network, asks[0].from, asks[0].to, &mut work, &mut list))),
            Box::new(|_| every.iter().for_each(|ask| _ = black_box(library::plain_trip(network, &mut answer, ask)))),
        ],
    );
    table::print_factor("  a trip for each tick", subject.name, &trips, &sheet);
}

fn check_plans(subject: &Subject, rounds: usize) {
    let Files { network, plan, .. } = &subject.files;
    let accept = |verdict: Result<(), Refusal>| assert_eq!(black_box(verdict), Ok(()));
    let [library, each_tick, swept] = interleave(
        rounds,
        1,
        [
            Box::new(|_| accept(library::check_plan(network, plan).0)),
            Box::new(|_| accept(check::check_each_tick(network, plan))),
            Box::new(|_| accept(check::check_swept(network, plan))),
        ],
    );
    table::print("check, Rust at each tick", subject.name, &library, &each_tick);
    table::print("check, Rust by tables", subject.name, &library, &swept);
    table::print_finds(subject.name, library::check_plan(network, plan).1, &finds::bound(network, plan, Ok(())));
}

/// One text's rows.
pub fn imports(text: &Text, effort: &Effort) {
    if !"import".contains(&effort.only) {
        return;
    }
    let (mut left, mut ours) = (vec![0; 30_000], vec![0; 30_000]);
    let calls = if text.bytes.len() > 1 << 18 { 4 } else { 64 };
    let [library, rust] = interleave(
        effort.rounds,
        calls,
        [
            Box::new(|_| _ = black_box(library::import(&text.bytes, 1, &mut left))),
            Box::new(|_| _ = black_box(import::import(&text.bytes, 1, &mut ours))),
        ],
    );
    table::print("import", text.name, &library, &rust);
    table::print_text_rate(text.name, text.bytes.len(), &library, &rust);
}

/// How many nodes a trip settles before its target: the arrivals that it shows.
pub fn settled(subject: &Subject) {
    let Files { network, light_plan, .. } = &subject.files;
    let shown = |arrivals: &[u32]| arrivals[..subject.town.cells.len()].iter().filter(|&&tick| tick != u32::MAX).count() as f64;
    let plain: Vec<f64> = subject.asks.iter().map(|ask| shown(&agree::plain_trips(network, ask).1)).collect();
    let flagged: Vec<f64> = subject.asks.iter().map(|ask| shown(&agree::flagged_trips(network, light_plan, ask).1)).collect();
    let (plain, flagged) = (spread(&plain), spread(&flagged));
    println!(
        "settled nodes, {}: plain {} ({} to {}), flagged {} ({} to {})",
        subject.name, plain.median, plain.low, plain.high, flagged.median, flagged.low, flagged.high
    );
}

/// The stack that each call of the library needs, on the full town; the check on the medium one, whose frames are the same.
pub fn stacks(full: &Subject, medium: &Subject, text: &Text) {
    let Files { network, plan, .. } = &full.files;
    let ask = full.asks.iter().find(|ask| ask.from != ask.to).expect("a trip to elsewhere");
    let (header, lists) = (files::header(&full.town), files::lists(&full.town));
    let mut answer = [0; 1032];
    let mut arrivals = [0; 512];
    let mut roads = [0; 512];
    let mut opened = Opened::room();
    let mut out = vec![0; 285_696];
    println!("stack of a library call, bytes ({} is the least that is told):", stack::MARGIN);
    println!("  plain trip          {}", stack::need(|| _ = library::plain_trip(network, &mut answer, ask)));
    println!("  flagged trip        {}", stack::need(|| _ = library::flagged_trip(network, plan, &mut answer, ask)));
    println!("  plain trip, lists   {}", stack::need(|| _ = library::plain_trip_lists(network, ask, &mut arrivals, &mut roads)));
    println!("  flagged trip, lists {}", stack::need(|| _ = library::flagged_trip_lists(network, plan, ask, &mut arrivals, &mut roads)));
    println!("  check               {}", stack::need(|| _ = library::check_plan(&medium.files.network, &medium.files.plan)));
    println!("  open                {}", stack::need(|| _ = library::open(network, opened.lend())));
    println!("  pack                {}", stack::need(|| _ = library::pack(&header, &lists, &mut out)));
    println!("  import              {}", stack::need(|| _ = library::import(&text.bytes, 1, &mut out)));
    let (mut work, mut list) = (vec![0; 512 * 2880], vec![0; 2880]);
    println!("  day sheet           {}", stack::need(|| _ = library::day_sheet(network, ask.from, ask.to, &mut work, &mut list)));
}
