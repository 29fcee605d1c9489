//! The endless loop: valid Quay-sized inputs and kept ones, mutated byte by byte with and without mended
//! checks, through all functions. Inputs with a difference are written out; so are inputs that reach a
//! combination of operation, refusal and place not met before, or tell other rules for ties than those
//! before, while the folder is small.

use crate::case::generate;
use crate::compare::{compare, Verdict};
use crate::corpus::{read_folder, to_bytes};
use crate::damage::{flip, mend_all, zero_for_all_ones};
use crate::generate::hours::hours;
use crate::generate::Size;
use crate::input::Input;
use crate::library::{FLAGGED_LISTS, ON_NETWORKS, OPEN, PACK, PLAIN_LISTS};
use crate::oracle::unlike;
use crate::quay;
use crate::reference::blocks::BLOCK;
use crate::reference::network::TABLES;
use crate::reference::trips::{plain_trip, ListLengths, TripCall};
use crate::rng::Rng;
use crate::runner::{CaseName, Series};
use crate::watch;
use std::collections::HashMap;
use std::path::{Path, PathBuf};
use std::time::{Duration, Instant};
use std::{fs, io};

/// The folder's files stay below this in all.
const MOST_BYTES: usize = 440_000;
/// Inputs are kept only if their files have at most this many blocks together.
const MOST_BLOCKS: usize = 8;

/// Operation, refusal, and how far on its first two places are; for a trip that arrives, which rules for ties
/// it tells from wish 2's, and how far off its target's open tick is.
type Reached = (usize, u32, u32, u32);

/// An input that was new when it came, and what it reaches.
struct Kept {
    path: PathBuf,
    input: Input,
    bytes: usize,
    reaches: Vec<Reached>,
}

struct Fuzzer<'a> {
    rng: Rng,
    folder: &'a Path,
    kept: Vec<Kept>,
    /// How many kept inputs reach each combination.
    reached: HashMap<Reached, usize>,
    differences: u64,
}

/// Runs until `seconds` have passed, or for ever; returns the number of differences.
pub fn fuzz(seed: u64, folder: &Path, seconds: Option<u64>) -> io::Result<u64> {
    fs::create_dir_all(folder)?;
    let mut fuzzer =
        Fuzzer { rng: Rng::new(seed, u64::MAX), folder, kept: Vec::new(), reached: HashMap::new(), differences: 0 };
    for (path, input) in read_folder(folder)? {
        let reaches = combinations(&input, &compare(&input));
        fuzzer.keep(path, input, reaches);
    }
    let started = Instant::now();
    let mut rounds = 0u64;
    while seconds.is_none_or(|seconds| started.elapsed() < Duration::from_secs(seconds)) {
        watch::case(0, CaseName { series: Series::Small, number: rounds });
        let input = fuzzer.next_input();
        fuzzer.try_input(input)?;
        rounds += 1;
        if rounds.is_multiple_of(200_000) {
            fuzzer.print(rounds);
        }
    }
    fuzzer.drop_needless()?;
    fuzzer.print(rounds);
    println!("outside: {rounds} inputs, {} differences", fuzzer.differences);
    Ok(fuzzer.differences)
}

impl Fuzzer<'_> {
    fn print(&self, rounds: u64) {
        println!("{rounds} inputs, {} kept, {} combinations", self.kept.len(), self.reached.len());
    }

    fn next_input(&mut self) -> Input {
        let rng = &mut self.rng;
        let mut input = match rng.below(4) {
            0 => quay_call(rng),
            1 if !self.kept.is_empty() => self.kept[rng.below(self.kept.len())].input.clone(),
            _ => {
                let case = generate(rng, Size::Small);
                case.input(&case.drafts)
            }
        };
        for _ in 0..rng.spread(1, 8) {
            mutate(rng, &mut input);
        }
        input
    }

    fn try_input(&mut self, input: Input) -> io::Result<()> {
        let verdict = compare(&input);
        if !verdict.differences.is_empty() {
            return self.write_difference(&input, &verdict);
        }
        let reaches = combinations(&input, &verdict);
        let blocks = (input.network.len() + input.plan.len()).div_ceil(BLOCK);
        if blocks > MOST_BLOCKS || reaches.iter().all(|reached| self.reached.contains_key(reached)) {
            return Ok(());
        }
        let bytes = to_bytes(&input);
        if self.bytes() + bytes.len() > MOST_BYTES {
            self.drop_needless()?;
        }
        if self.bytes() + bytes.len() <= MOST_BYTES {
            let path = (0..).map(|number| self.folder.join(format!("kept-{number:03}"))).find(|path| !path.exists());
            let path = path.expect("a number is free");
            fs::write(&path, bytes)?;
            self.keep(path, input, reaches);
        }
        Ok(())
    }

    fn write_difference(&mut self, input: &Input, verdict: &Verdict) -> io::Result<()> {
        self.differences += 1;
        let path = self.folder.join(format!("difference-{:04}", self.differences));
        fs::write(&path, to_bytes(input))?;
        for text in &verdict.differences {
            println!("DIFFERENCE {}: {text}", path.display());
        }
        Ok(())
    }

    fn bytes(&self) -> usize {
        self.kept.iter().map(|kept| kept.bytes).sum()
    }

    fn keep(&mut self, path: PathBuf, input: Input, reaches: Vec<Reached>) {
        for &reached in &reaches {
            *self.reached.entry(reached).or_default() += 1;
        }
        self.kept.push(Kept { path, bytes: to_bytes(&input).len(), input, reaches });
    }

    /// Removes every kept input all of whose combinations others reach too.
    fn drop_needless(&mut self) -> io::Result<()> {
        for kept in std::mem::take(&mut self.kept) {
            if kept.reaches.iter().all(|reached| self.reached[reached] > 1) {
                for reached in &kept.reaches {
                    *self.reached.entry(*reached).or_default() -= 1;
                }
                fs::remove_file(&kept.path)?;
            } else {
                self.kept.push(kept);
            }
        }
        Ok(())
    }
}

fn quay_call(rng: &mut Rng) -> Input {
    let call = TripCall { from: rng.below(4) as u32, to: rng.below(4) as u32, departure: rng.below(10) as u32 };
    let mut drafts = quay::drafts();
    if rng.once_in(2) {
        drafts.network.hold_hours(&hours(rng, 10, 4));
    }
    quay::input(&drafts, call)
}

/// 0, 1 and more are told apart: what matters of a place is whether it was the first.
fn combinations(input: &Input, verdict: &Verdict) -> Vec<Reached> {
    (0..ON_NETWORKS)
        .map(|operation| match verdict.predicted[operation] {
            Some(refusal) => (operation, refusal.number, refusal.places[0].min(2), refusal.places[1].min(1)),
            None => (operation, 0, rules_told(operation, input, verdict), hours_told(operation, input, verdict)),
        })
        .collect()
}

/// Whether hours are held, for open and pack; for the plain trip with lists, whether its target opens at
/// once, later that day or on the next.
fn hours_told(operation: usize, input: &Input, verdict: &Verdict) -> u32 {
    match (operation, &verdict.opened) {
        (OPEN, Ok(network)) => network.header.hours,
        (PACK, _) => input.pack.hours,
        (PLAIN_LISTS, Ok(network)) => {
            let lists = ListLengths { arrivals: network.nodes(), roads: network.nodes() };
            let Ok(arrived) = plain_trip(network, input.call, lists).answer else { return 0 };
            let day = |tick: u32| tick / network.header.period;
            u32::from(arrived.open > arrived.tick) + u32::from(day(arrived.open) > day(arrived.tick))
        }
        _ => 0,
    }
}

/// A bit for each rule that would take another way; 0 where the operation is none of the trips with lists.
fn rules_told(operation: usize, input: &Input, verdict: &Verdict) -> u32 {
    let Ok(network) = &verdict.opened else { return 0 };
    let unlike = match (operation, &verdict.planned) {
        (PLAIN_LISTS, _) => unlike(network, None, input.call),
        (FLAGGED_LISTS, Ok(plan)) => unlike(network, Some(plan), input.call),
        _ => None,
    };
    let rules = unlike.unwrap_or_default().into_iter().enumerate();
    rules.map(|(rule, told)| u32::from(told) << rule).sum()
}

fn mutate(rng: &mut Rng, input: &mut Input) {
    match rng.below(12) {
        0 => mutate_call(rng, input),
        1 => mutate_lengths(rng, input),
        2 => input.pack_what_the_network_says(0),
        choice => {
            let file = if choice % 2 == 0 { &mut input.network } else { &mut input.plan };
            mutate_bytes(rng, file);
            if !rng.once_in(4) {
                mend_all(file);
            }
            if rng.once_in(2) {
                input.pack_what_the_network_says(1);
                input.plan_what_the_network_says(input.lengths.make, 1);
                input.list_what_the_network_says(1);
            }
        }
    }
}

fn mutate_bytes(rng: &mut Rng, file: &mut Vec<u8>) {
    if file.is_empty() {
        file.resize(BLOCK, 0);
    }
    let at = some_byte(rng, file.len());
    match rng.below(9) {
        0 => file[at] = rng.below(256) as u8,
        1 => file[at] = rng.pick(&[0, 1, 2, 10, 127, 128, 254, 255]),
        2 => file[at] = file[at].wrapping_add(1),
        3 => file[at] = file[at].wrapping_sub(1),
        4 => zero_for_all_ones(file, at & !1),
        5 => copy_within(rng, file, at),
        6 if rng.once_in(8) => resize(rng, file),
        _ => flip(file, at, 1 << rng.below(8)),
    }
}

/// Mostly a byte near a block's start, where its form and its first entries are.
fn some_byte(rng: &mut Rng, length: usize) -> usize {
    if rng.once_in(4) {
        return rng.below(length);
    }
    let block = rng.below(length.div_ceil(BLOCK));
    (block * BLOCK + rng.below(48)).min(length - 1)
}

/// Copies a few bytes from one place to another.
fn copy_within(rng: &mut Rng, file: &mut [u8], to: usize) {
    let from = some_byte(rng, file.len());
    let count = rng.within(1, 8).min(file.len() - from.max(to));
    file.copy_within(from..from + count, to);
}

fn resize(rng: &mut Rng, file: &mut Vec<u8>) {
    match rng.below(4) {
        0 => file.truncate(rng.below(file.len() + 1)),
        1 => file.truncate(file.len().saturating_sub(BLOCK)),
        2 => file.extend_from_within(..BLOCK.min(file.len())),
        _ => file.push(0),
    }
}

fn mutate_call(rng: &mut Rng, input: &mut Input) {
    let number = match rng.below(10) {
        0 => &mut input.call.from,
        1 => &mut input.call.to,
        2 => &mut input.call.departure,
        3 => &mut input.pack.number,
        4 => &mut input.pack.period,
        5 => &mut input.pack.nodes,
        6 => &mut input.pack.arcs,
        7 => &mut input.pack.cells,
        8 => &mut input.pack.hours,
        _ => &mut input.pack.points,
    };
    *number = match rng.below(4) {
        0 => number.wrapping_add(1),
        1 => number.wrapping_sub(1),
        2 => rng.below(12) as u32,
        _ => *number ^ 1 << rng.below(32),
    };
}

fn mutate_lengths(rng: &mut Rng, input: &mut Input) {
    let lengths = &mut input.lengths;
    let table = rng.below(TABLES);
    let length = match rng.below(16) {
        0 => &mut lengths.arrivals,
        1 => &mut lengths.roads,
        2 => &mut lengths.trip_answer,
        3 => &mut lengths.lists_answer,
        4 => &mut lengths.check_answer,
        5 => &mut lengths.open_answer,
        6 => &mut lengths.pack_answer,
        7 => &mut lengths.pack_out,
        8 => &mut lengths.open_tables[table],
        9 => &mut lengths.make.work,
        10 => &mut lengths.make.out,
        11 => &mut lengths.make_answer,
        12 => &mut lengths.day.work,
        13 => &mut lengths.day.list,
        14 => &mut lengths.day_answer,
        _ => &mut lengths.pack_tables[table],
    };
    *length = match rng.below(3) {
        0 => 0,
        1 => length.saturating_sub(1),
        _ => *length + 1,
    };
}
