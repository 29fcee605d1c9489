//! The tests of the tests: the import's cases against a stand-in, first as it is and then with each error
//! that can be planted in it.

use super::standin::{import_dimacs, plant, Error, ERRORS};
use crate::planted::dealt_out;
use crate::runner::{CaseName, Runner, Series};
use crate::watch;

/// The first case that finds an error: of the texts made on purpose, and of so many generated ones.
struct Found {
    error: Option<Error>,
    by_hand: Option<CaseName>,
    generated: Option<CaseName>,
}

/// Prints what found each error that one of the series did not; returns how often the tests failed: an error
/// that neither found, or a difference without an error.
pub fn run(seed: u64, cases: u64) -> u64 {
    let found = find_all(seed, cases);
    let mut failures = 0;
    for found in &found {
        let fails = match found.error {
            None => found.by_hand.is_some() || found.generated.is_some(),
            Some(_) => found.by_hand.is_none() && found.generated.is_none(),
        };
        failures += u64::from(fails);
        if !fails && (found.error.is_none() || found.by_hand.is_some() && found.generated.is_some()) {
            continue;
        }
        let error = found.error.map_or("nothing".to_string(), |error| format!("{error:?}"));
        let [by_hand, generated] = [found.by_hand, found.generated].map(shown);
        let mark = if fails { "DIFFERENCE " } else { "" };
        println!("{mark}planted {error}: first found by {by_hand} and {generated}");
    }
    let count = |found_by: fn(&Found) -> bool| found.iter().filter(|found| found_by(found)).count();
    let by_hand = count(|found| found.by_hand.is_some());
    let generated = count(|found| found.generated.is_some());
    println!("{by_hand} found by texts made on purpose, {generated} by {cases} generated ones");
    println!("planted: {} errors, {failures} failures", ERRORS.len());
    failures
}

/// No error and then each.
fn find_all(seed: u64, cases: u64) -> Vec<Found> {
    let errors: Vec<Option<Error>> = std::iter::once(None).chain(ERRORS.iter().copied().map(Some)).collect();
    dealt_out(&errors, |&error, thread| find(seed, cases, error, thread))
}

fn shown(name: Option<CaseName>) -> String {
    name.map_or("none".to_string(), |name| name.to_string())
}

fn find(seed: u64, cases: u64, error: Option<Error>, thread: usize) -> Found {
    plant(error);
    let first = |series, count| {
        let mut runner = Runner::new(seed);
        runner.stand_in(import_dimacs);
        let names = (0..count).map(|number| CaseName { series, number });
        names.into_iter().find(|&name| {
            watch::case(thread, name);
            runner.run(name);
            runner.differences > 0
        })
    };
    let by_hand = first(Series::Texts, Series::Texts.made_on_purpose().unwrap_or_default());
    let generated = first(Series::Imports, cases);
    plant(None);
    Found { error, by_hand, generated }
}

#[cfg(test)]
mod tests {
    #[test]
    fn every_planted_error_is_found() {
        assert_eq!(super::run(1, 300), 0);
    }
}
