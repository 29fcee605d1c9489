//! Tests of the engine's C functions from outside: documents 01 and 02 written down a second time, and every
//! answer and all lent memory compared with them. `README.md` has the commands.

mod case;
mod compare;
mod corpus;
mod coverage;
mod damage;
mod day;
mod draft;
mod fuzz;
mod generate;
mod hours;
mod import;
mod input;
mod library;
mod made;
mod marked;
mod oracle;
mod planner;
mod plans;
mod planted;
mod quay;
mod reference;
mod rng;
mod runner;
mod towns;
mod watch;

use runner::{CaseName, Runner, Series};
use std::path::PathBuf;
use std::process::ExitCode;
use std::sync::atomic::{AtomicU64, Ordering};
use std::time::Instant;

/// The run without arguments: about 50 seconds of processor time.
const DEFAULT_SEED: u64 = 20_261_115;
const DEFAULT_CASES: u64 = 45_000;
const DEFAULT_LARGE: u64 = 300;
const DEFAULT_IMPORTS: u64 = 10_000;
const DEFAULT_PLANS: u64 = 1_200;
const DEFAULT_HOURS: u64 = 300;
const DEFAULT_DAYS: u64 = 512;
/// Below this many small cases a run may miss a refusal by chance, and is not held to all of them.
const CASES_THAT_MEET_ALL: u64 = 40_000;
/// Below this many towns with damaged plans the same holds of the verdicts on these.
const PLANS_THAT_MEET_ALL: u64 = 1_000;
/// Below this many towns with hours the same holds of how arrivals lie to the hours.
const HOURS_THAT_MEET_ALL: u64 = 100;

enum Mode {
    Cases(Counts),
    Only(CaseName),
    Planted(u64),
    Replay(PathBuf),
    Fuzz { folder: PathBuf, seconds: Option<u64> },
}

/// How many cases of each series that a seed makes.
struct Counts {
    cases: u64,
    large: u64,
    imports: u64,
    plans: u64,
    hours: u64,
    days: u64,
}

struct Arguments {
    seed: u64,
    mode: Mode,
}

fn main() -> ExitCode {
    let Some(arguments) = parse(std::env::args().skip(1)) else {
        println!("usage: outside [--seed S] [--cases N] [--large M] [--imports I] [--plans D] [--hours H]");
        println!("               [--days Y] [--only CASE] [--planted N] [--replay DIR] [--fuzz DIR [--seconds T]]");
        return ExitCode::from(2);
    };
    watch::start(arguments.seed);
    let differences = match arguments.mode {
        Mode::Cases(counts) => run_cases(arguments.seed, &counts),
        Mode::Only(name) => run_only(arguments.seed, name),
        Mode::Planted(cases) => {
            import::planted::run(arguments.seed, cases)
                + plans::planted::run(arguments.seed, cases)
                + hours::planted::run(arguments.seed, cases / 4)
                + day::planted::run(arguments.seed, cases / 8)
        }
        Mode::Replay(folder) => corpus::replay(&folder).expect("the corpus folder can be read"),
        Mode::Fuzz { folder, seconds } => {
            fuzz::fuzz(arguments.seed, &folder, seconds).expect("the corpus folder can be written")
        }
    };
    ExitCode::from(u8::from(differences > 0))
}

fn parse(mut words: impl Iterator<Item = String>) -> Option<Arguments> {
    let mut seed = DEFAULT_SEED;
    let mut cases = None;
    let mut large = None;
    let mut imports = None;
    let mut plans = None;
    let mut hours = None;
    let mut days = None;
    let mut other = None;
    let mut seconds = None;
    while let Some(word) = words.next() {
        let value = words.next()?;
        match word.as_str() {
            "--seed" => seed = value.parse().ok()?,
            "--cases" => cases = Some(value.parse().ok()?),
            "--large" => large = Some(value.parse().ok()?),
            "--imports" => imports = Some(value.parse().ok()?),
            "--plans" => plans = Some(value.parse().ok()?),
            "--hours" => hours = Some(value.parse().ok()?),
            "--days" => days = Some(value.parse().ok()?),
            "--planted" => other = Some(Mode::Planted(value.parse().ok()?)),
            "--only" => other = Some(Mode::Only(CaseName::parse(&value)?)),
            "--replay" => other = Some(Mode::Replay(PathBuf::from(value))),
            "--fuzz" => other = Some(Mode::Fuzz { folder: PathBuf::from(value), seconds: None }),
            "--seconds" => seconds = Some(value.parse().ok()?),
            _ => return None,
        }
    }
    let mode = match other {
        Some(Mode::Fuzz { folder, .. }) => Mode::Fuzz { folder, seconds },
        Some(mode) => mode,
        None => {
            let nothing_said = [cases, large, imports, plans, hours, days].iter().all(Option::is_none);
            let count = |said: Option<u64>, usual| said.unwrap_or(if nothing_said { usual } else { 0 });
            Mode::Cases(Counts {
                cases: count(cases, DEFAULT_CASES),
                large: count(large, DEFAULT_LARGE),
                imports: count(imports, DEFAULT_IMPORTS),
                plans: count(plans, DEFAULT_PLANS),
                hours: count(hours, DEFAULT_HOURS),
                days: count(days, DEFAULT_DAYS),
            })
        }
    };
    Some(Arguments { seed, mode })
}

/// Quay town first: a run that misreads document 01's own example says so before all else.
fn run_quay_town() -> u64 {
    let failures = quay::failures();
    for text in &failures {
        println!("DIFFERENCE {text}");
    }
    println!("Quay town: {} failures", failures.len());
    failures.len() as u64
}

fn run_cases(seed: u64, counts: &Counts) -> u64 {
    let mut differences = run_quay_town();
    let mut runner = Runner::new(seed);
    if library::import_dimacs().is_none() {
        println!("import_dimacs is not linked: the reference alone is held to what is known of the texts");
    }
    let on_purpose = |series: Series| series.made_on_purpose().unwrap_or_default();
    let parts = [
        (Series::Towns, on_purpose(Series::Towns), "towns made on purpose"),
        (Series::Ways, on_purpose(Series::Ways), "towns made for ties"),
        (Series::Texts, on_purpose(Series::Texts), "texts made on purpose"),
        (Series::Small, counts.cases, "small cases"),
        (Series::Large, counts.large, "large cases"),
        (Series::Imports, counts.imports, "imports"),
        (Series::Plans, counts.plans, "towns with damaged plans"),
        (Series::Hours, counts.hours, "towns with hours"),
        (Series::Days, counts.days, "towns with whole days"),
    ];
    for (series, count, what) in parts {
        let started = Instant::now();
        run_in_threads(&mut runner, series, count);
        println!("{count} {what} in {:.1} s", started.elapsed().as_secs_f64());
    }
    runner.coverage.print();
    runner.coverage.plans.print();
    runner.coverage.finds.print();
    runner.coverage.hours.print();
    differences += runner.differences;
    differences += missing(&runner, counts);
    let count: u64 = parts.iter().map(|(_, count, _)| count).sum();
    println!("outside: {count} cases, {differences} differences");
    differences
}

/// How many refusals a run of so many cases should have met and did not; each is printed.
fn missing(runner: &Runner, counts: &Counts) -> u64 {
    let coverage = &runner.coverage;
    let held = [
        (counts.cases >= CASES_THAT_MEET_ALL, "small cases", coverage.missing()),
        (counts.plans >= PLANS_THAT_MEET_ALL, "towns with damaged plans", coverage.plans.missing()),
        (counts.hours >= HOURS_THAT_MEET_ALL, "towns with hours", coverage.hours.missing()),
    ];
    let mut missing = 0;
    for (enough, what, texts) in held {
        if !enough {
            println!("few {what}: not held to meeting every refusal");
            continue;
        }
        missing += texts.len() as u64;
        texts.iter().for_each(|text| println!("DIFFERENCE {text}"));
    }
    missing
}

/// The cases from 0 on, dealt out one by one to as many threads as there are cores. A case depends on its
/// name and the seed alone, so the outcome is the same for any number of threads.
fn run_in_threads(whole: &mut Runner, series: Series, count: u64) {
    let seed = whole.seed;
    let next = &AtomicU64::new(0);
    std::thread::scope(|scope| {
        let start = |thread| scope.spawn(move || run_dealt(seed, thread, series, next, count));
        let parts: Vec<_> = (0..watch::threads()).map(start).collect();
        for part in parts {
            let part = part.join().expect("a case that panicked has said so");
            whole.coverage.add(&part.coverage);
            whole.differences += part.differences;
        }
    });
}

/// One thread's cases: the next one that no thread has taken, again and again.
fn run_dealt(seed: u64, thread: usize, series: Series, next: &AtomicU64, count: u64) -> Runner {
    let mut part = Runner::new(seed);
    loop {
        let number = next.fetch_add(1, Ordering::Relaxed);
        if number >= count {
            watch::rest(thread);
            return part;
        }
        let name = CaseName { series, number };
        watch::case(thread, name);
        part.run(name);
    }
}

fn run_only(seed: u64, name: CaseName) -> u64 {
    let mut runner = Runner::new(seed);
    watch::case(0, name);
    runner.run(name);
    println!("outside: 1 cases, {} differences", runner.differences);
    runner.differences
}
