//! The tests of the tests: the series of days against a stand-in for the day sheet, first as it is and then
//! with each error that can be planted in it.

use super::standin::{day_sheet, plant, Error, ERRORS};
use crate::library::{Functions, LINKED};
use crate::planted::dealt_out;
use crate::runner::{CaseName, Runner, Series};
use crate::watch;

/// Prints the errors that none of so many towns found, and what finds fault without one; returns how many
/// there are.
pub fn run(seed: u64, towns: u64) -> u64 {
    let errors: Vec<Option<Error>> = std::iter::once(None).chain(ERRORS.iter().copied().map(Some)).collect();
    let found = dealt_out(&errors, |&error, thread| first_to_find(seed, towns, error, thread));
    let mut failures = 0;
    for (error, found) in errors.iter().zip(&found) {
        match (error, found) {
            (None, Some(name)) => println!("DIFFERENCE the stand-in for the day sheet differs in {name}"),
            (Some(error), None) => println!("DIFFERENCE planted {error:?}: not found"),
            _ => continue,
        }
        failures += 1;
    }
    let last = found.iter().flatten().map(|name| name.number).max().unwrap_or_default();
    println!("errors in the day sheet found by at most {} of {towns} towns", last + 1);
    println!("planted: {} errors, {failures} failures", errors.len() - 1);
    failures
}

fn first_to_find(seed: u64, towns: u64, error: Option<Error>, thread: usize) -> Option<CaseName> {
    plant(error);
    let mut runner = Runner::new(seed);
    runner.stand_in_for_all(Functions { day_sheet, ..LINKED });
    let mut names = (0..towns).map(|number| CaseName { series: Series::Days, number });
    let found = names.find(|&name| {
        watch::case(thread, name);
        runner.run(name);
        runner.differences > 0
    });
    plant(None);
    found
}

#[cfg(test)]
mod tests {
    #[test]
    fn every_planted_error_is_found() {
        assert_eq!(super::run(1, 60), 0);
    }
}
