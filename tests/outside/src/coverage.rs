//! Which refusals occurred: for each operation and number, by a fault alone and beside a second one.
//! At the end every refusal that documents 01 and 02 let an operation give must have occurred both ways. And
//! how many trips of valid cases tell wish 2's rule for ties from others: each has to be told from it.

mod finds;
mod hours;
mod plans;

use crate::library::*;
use crate::oracle::{Unlike, RULES};
use finds::Finds;
use hours::Hours;
use plans::DamagedPlans;

/// Refusals up to 37; 32 is the run sheet's.
const NUMBERS: usize = 38;

pub struct Coverage {
    alone: [[u64; NUMBERS]; COUNT],
    second: [[u64; NUMBERS]; COUNT],
    /// By plain and flagged trips: how many there were, and how many take another way by each other rule.
    trips: [u64; 2],
    unlike: [[u64; RULES.len()]; 2],
    pub plans: DamagedPlans,
    pub finds: Finds,
    pub hours: Hours,
}

const TRIPS: [&str; 2] = ["plain", "flagged"];

impl Default for Coverage {
    fn default() -> Coverage {
        Coverage {
            alone: [[0; NUMBERS]; COUNT],
            second: [[0; NUMBERS]; COUNT],
            trips: [0; 2],
            unlike: [[0; RULES.len()]; 2],
            plans: DamagedPlans::default(),
            finds: Finds::default(),
            hours: Hours::default(),
        }
    }
}

impl Coverage {
    pub fn alone(&mut self, operation: usize, refusal: u32) {
        self.alone[operation][refusal as usize] += 1;
    }

    pub fn with_second(&mut self, operation: usize, refusal: u32) {
        self.second[operation][refusal as usize] += 1;
    }

    /// A trip, plain (0) or flagged (1), and which rules would take another way on it.
    pub fn tie(&mut self, trip: usize, unlike: Unlike) {
        self.trips[trip] += 1;
        for (count, unlike) in self.unlike[trip].iter_mut().zip(unlike) {
            *count += u64::from(unlike);
        }
    }

    /// Counts what another run met as well.
    pub fn add(&mut self, other: &Coverage) {
        for operation in 0..COUNT {
            for refusal in 0..NUMBERS {
                self.alone[operation][refusal] += other.alone[operation][refusal];
                self.second[operation][refusal] += other.second[operation][refusal];
            }
        }
        for trip in 0..TRIPS.len() {
            self.trips[trip] += other.trips[trip];
            for rule in 0..RULES.len() {
                self.unlike[trip][rule] += other.unlike[trip][rule];
            }
        }
        self.plans.add(&other.plans);
        self.finds.add(&other.finds);
        self.hours.add(&other.hours);
    }

    pub fn print(&self) {
        println!("refusals by operation: alone / with a second fault");
        print!("{:>4}", "");
        for name in OPERATIONS {
            print!(" {name:>18}");
        }
        println!();
        for refusal in (0..NUMBERS).filter(|&refusal| refusal != 32) {
            print!("{refusal:>4}");
            for operation in 0..COUNT {
                let (alone, second) = (self.alone[operation][refusal], self.second[operation][refusal]);
                let text = if alone + second == 0 { "-".to_string() } else { format!("{alone} / {second}") };
                print!(" {text:>18}");
            }
            println!();
        }
        println!(
            "ways of {} plain and {} flagged trips that another rule would not take",
            self.trips[0], self.trips[1]
        );
        for (rule, name) in RULES.iter().enumerate() {
            println!("{:>8} {:>8}  {name}", self.unlike[0][rule], self.unlike[1][rule]);
        }
    }

    /// The refusals that should have occurred and did not, and the rules for ties that no trip told apart.
    pub fn missing(&self) -> Vec<String> {
        let mut missing = Vec::new();
        for (operation, name) in OPERATIONS.iter().enumerate() {
            for refusal in possible(operation) {
                if self.alone[operation][refusal as usize] == 0 {
                    missing.push(format!("{name}: refusal {refusal} never occurred alone"));
                }
                if can_win_over_a_second(operation, refusal) && self.second[operation][refusal as usize] == 0 {
                    missing.push(format!("{name}: refusal {refusal} never occurred with a second fault"));
                }
            }
        }
        for (trip, trips) in TRIPS.iter().enumerate() {
            for (rule, name) in RULES.iter().enumerate() {
                if self.unlike[trip][rule] == 0 && can_take_another_way(trip, rule) {
                    missing.push(format!("no {trips} trip tells \"{name}\" from the chosen way"));
                }
            }
        }
        missing
    }
}

/// All roads are permitted on a plain trip: that rule, the last, cannot differ there.
fn can_take_another_way(trip: usize, rule: usize) -> bool {
    trip == 1 || rule + 1 < RULES.len()
}

/// The refusals an operation can give. The trips called from C have a fresh list of 512 arrivals, never
/// shorter than N (no 27), and 1,032 answer bytes hold the 511 roads of the longest way there can be (no 29).
/// 31 is an answer list that is too short, for pack, the planner and the import also the out-bytes.
fn possible(operation: usize) -> Vec<u32> {
    let network = (1..=10).chain([37]);
    let plan = 11..=19;
    match operation {
        OPEN => network.chain([30, 31]).collect(),
        PACK => [4].into_iter().chain(7..=10).chain([30, 31, 37]).collect(),
        CHECK => network.chain(plan).chain(20..=24).chain([31]).collect(),
        PLAIN => network.chain([25, 26, 28, 31]).collect(),
        FLAGGED => network.chain(plan).chain([25, 26, 28, 31]).collect(),
        PLAIN_LISTS => network.chain(25..=29).chain([31]).collect(),
        FLAGGED_LISTS => network.chain(plan).chain(25..=29).chain([31]).collect(),
        MAKE => network.chain([31, 33, 34]).collect(),
        DAY => network.chain([25, 28, 31, 34]).collect(),
        _ => vec![31, 35, 36],
    }
}

/// False where nothing that is refused later can stand beside it: 29 is the last of the lists' trips, and 28
/// the last of the day sheet and of the C trips, which have no road list that could be too short as well. All
/// others are tried beside a second fault, if only one of the same number at another place.
fn can_win_over_a_second(operation: usize, refusal: u32) -> bool {
    match operation {
        PLAIN | FLAGGED | DAY => refusal != 28,
        PLAIN_LISTS | FLAGGED_LISTS => refusal != 29,
        _ => true,
    }
}
