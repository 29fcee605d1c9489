//! How close the counts of finds came to their bounds.

use crate::reference::finds::FindBounds;

/// The verdicts beside which finds are told; 0 for accepted.
const VERDICTS: [u32; 5] = [0, 21, 22, 23, 24];

#[derive(Default)]
pub struct Finds {
    /// By verdict: how many checks there were, and the highest share of what one test may come to.
    checks: [u64; VERDICTS.len()],
    highest: [f64; VERDICTS.len()],
    /// On acceptance, the lowest multiple of all profiles' points.
    lowest: Option<f64>,
}

impl Finds {
    pub fn met(&mut self, verdict: u32, finds: u64, bounds: FindBounds) {
        let place = VERDICTS.iter().position(|&known| known == verdict).expect("other verdicts tell none");
        let share = |bound: u64| finds as f64 / bound.max(1) as f64;
        self.checks[place] += 1;
        self.highest[place] = self.highest[place].max(share(bounds.one_test));
        // A plan without points has nothing to fall short of.
        if verdict == 0 && bounds.least > 0 {
            self.lowest = least_of([self.lowest, Some(share(bounds.least))]);
        }
    }

    pub fn add(&mut self, other: &Finds) {
        for place in 0..VERDICTS.len() {
            self.checks[place] += other.checks[place];
            self.highest[place] = self.highest[place].max(other.highest[place]);
        }
        self.lowest = least_of([self.lowest, other.lowest]);
    }

    pub fn print(&self) {
        println!("finds by verdict: checks, and the highest share of what one test may come to");
        for (place, verdict) in VERDICTS.iter().enumerate() {
            println!("{verdict:>4} {:>8} {:>6.3}", self.checks[place], self.highest[place]);
        }
        let lowest = self.lowest.unwrap_or_default();
        println!("on acceptance at least {lowest:.3} of all profiles' points");
    }
}

fn least_of(numbers: [Option<f64>; 2]) -> Option<f64> {
    numbers.into_iter().flatten().reduce(f64::min)
}
