//! The lines of the table: an operation, a town, both times with their quartiles, and the ratio of the
//! library's to the other's.
use crate::measure::{spread, Spread, Times};
use std::ops::RangeInclusive;

/// The line above the others, beside an empty one; a town's name takes so many characters.
pub fn print_head(town: usize, other: &str) {
    let other = format!("{other} (quartiles)");
    let library = "library (quartiles)";
    println!("\n{:24} {:town$} {library:26} {other:26} RATIO (quartiles)", "operation", "town");
}

/// Median and quartiles in the unit that suits the median.
fn times(spread: Spread) -> String {
    let (parts, digits, unit) = match spread.median {
        s if s >= 1.0 => (1.0, 2, "s"),
        s if s >= 1e-2 => (1e3, 1, "ms"),
        s if s >= 1e-3 => (1e3, 2, "ms"),
        _ => (1e6, 1, "us"),
    };
    let [median, low, high] = [spread.median, spread.low, spread.high].map(|seconds| format!("{:.digits$}", seconds * parts));
    format!("{median} ({low} to {high}) {unit}")
}

/// A row; its ratio is that of the medians, and is answered too.
pub fn print(operation: &str, town: &str, library: &Times, other: &Times) -> f64 {
    let (left, right) = (spread(&library.0), spread(&other.0));
    let rounds = spread(&library.over(other));
    let ratio = left.median / right.median;
    let (library, other) = (times(left), times(right));
    let Spread { low, high, .. } = rounds;
    println!("{operation:24} {town:6} {library:26} {other:26} {ratio:.2} ({low:.2} to {high:.2})");
    ratio
}

/// A line below an operation that reads some bytes: how fast it does.
pub fn print_rate(town: &str, bytes: usize, library: &Times, rust: &Times) {
    let rate = |times: &Times| format!("{:.1}", bytes as f64 / spread(&times.0).median / 1e9);
    println!("{:24} {town:6} {:26} {}", "  GB/s", rate(library), rate(rust));
}

/// The same for texts.
pub fn print_text_rate(text: &str, bytes: usize, library: &Times, rust: &Times) {
    let rate = |times: &Times| format!("{:.0}", bytes as f64 / spread(&times.0).median / 1e6);
    println!("{:24} {text:6} {:26} {}", "  MB/s", rate(library), rate(rust));
}

/// A line below the check: how many finds the library made, and how many document 02 allows.
pub fn print_finds(town: &str, finds: u64, bound: &RangeInclusive<u64>) {
    println!("{:24} {town:6} {finds}, of {} to {} allowed", "  finds", bound.start(), bound.end());
}

/// A line below an operation: another way to the same, and how many times as long it takes.
pub fn print_factor(way: &str, town: &str, other: &Times, library: &Times) {
    let factors = spread(&other.over(library));
    println!(
        "{way:24} {town:6} {:26} {:.0} ({:.0} to {:.0}) times as long",
        times(spread(&other.0)),
        factors.median,
        factors.low,
        factors.high
    );
}
