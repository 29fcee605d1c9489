//! Times of works that are run in turns, on a machine that others use too: processor time, many short rounds, and quartiles of them.
use crate::clock;

/// The middle half of some numbers.
#[derive(Clone, Copy)]
pub struct Spread {
    pub low: f64,
    pub median: f64,
    pub high: f64,
}

pub fn spread(numbers: &[f64]) -> Spread {
    let mut numbers = numbers.to_vec();
    numbers.sort_by(f64::total_cmp);
    let at = |part: usize| numbers[(numbers.len() - 1) * part / 4];
    Spread { low: at(1), median: at(2), high: at(3) }
}

/// Seconds of a call, one number for each round.
#[derive(Clone)]
pub struct Times(pub Vec<f64>);

impl Times {
    /// What a call does beyond another, by the difference in each round: a round is short, so a slow moment meets both.
    pub fn beyond(&self, other: &Times) -> Times {
        Times(self.0.iter().zip(&other.0).map(|(this, other)| this - other).collect())
    }

    pub fn over(&self, other: &Times) -> Vec<f64> {
        self.0.iter().zip(&other.0).map(|(this, other)| this / other).collect()
    }
}

/// A work is told the number of the call in its round.
pub type Work<'a> = Box<dyn FnMut(usize) + 'a>;

fn seconds(calls: usize, work: &mut Work) -> f64 {
    let start = clock::seconds();
    for call in 0..calls {
        work(call);
    }
    (clock::seconds() - start) / calls as f64
}

/// The times of some works, which are run in turns; who begins changes with every round. One round more warms up short calls and is not
/// counted; a call that fills a round alone is long enough to need none.
pub fn interleave<const N: usize>(rounds: usize, calls: usize, mut works: [Work; N]) -> [Times; N] {
    let mut times = [(); N].map(|_| Times(Vec::new()));
    let warming = usize::from(calls > 1);
    for round in 0..rounds + warming {
        for turn in 0..N {
            let who = (round + turn) % N;
            let time = seconds(calls, &mut works[who]);
            if round >= warming {
                times[who].0.push(time);
            }
        }
    }
    times
}
