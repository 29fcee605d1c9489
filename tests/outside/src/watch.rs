//! Names the case when a call does not come back: a signal that ends the program, a panic, or a call that does
//! not end. Without it none of them would say which seed and case to repeat.

use crate::runner::{CaseName, Series};
use std::cell::Cell;
use std::io::Write;
use std::sync::atomic::{AtomicU64, Ordering};
use std::time::Duration;

const MOST_THREADS: usize = 64;

static SEED: AtomicU64 = AtomicU64::new(0);
/// What each thread is at: 0 for nothing, else a case as `number_of` tells it.
static CASES: [AtomicU64; MOST_THREADS] = [const { AtomicU64::new(0) }; MOST_THREADS];

thread_local! {
    /// The case of this thread, for a signal or a panic in it.
    static HERE: Cell<u64> = const { Cell::new(0) };
}

const PATIENCE: Duration = Duration::from_secs(300);
/// SIGILL, SIGABRT, SIGBUS, SIGFPE, SIGSEGV.
const ENDING: [i32; 5] = [4, 6, 7, 8, 11];

extern "C" {
    fn signal(number: i32, handler: extern "C" fn(i32)) -> usize;
    fn _exit(status: i32) -> !;
}

pub fn start(seed: u64) {
    SEED.store(seed, Ordering::Relaxed);
    for number in ENDING {
        // SAFETY: `ended` only prints and leaves; it never returns into the broken call.
        unsafe { signal(number, ended) };
    }
    let usual = std::panic::take_hook();
    std::panic::set_hook(Box::new(move |panic| {
        report(HERE.get(), "the program panicked");
        usual(panic);
    }));
    std::thread::spawn(watch);
}

/// As many as there are cores.
pub fn threads() -> usize {
    std::thread::available_parallelism().map_or(1, |cores| cores.get().min(MOST_THREADS))
}

/// A case as one number that is not 0; `name_of` is the way back.
fn number_of(name: CaseName) -> u64 {
    1 + name.number * Series::ALL.len() as u64 + name.series as u64
}

fn name_of(case: u64) -> CaseName {
    let series = Series::ALL.len() as u64;
    CaseName { series: Series::ALL[((case - 1) % series) as usize], number: (case - 1) / series }
}

/// A thread turns to a case.
pub fn case(thread: usize, name: CaseName) {
    let case = number_of(name);
    HERE.set(case);
    CASES[thread].store(case, Ordering::Relaxed);
}

/// A thread has no case left.
pub fn rest(thread: usize) {
    HERE.set(0);
    CASES[thread].store(0, Ordering::Relaxed);
}

/// Also where nobody reads any more: a panic in here would be reported without end.
fn report(case: u64, what: &str) {
    let seed = SEED.load(Ordering::Relaxed);
    let place = match case {
        0 => ", outside of the cases".to_string(),
        _ => format!(" --only {}", name_of(case)),
    };
    let _ = writeln!(std::io::stdout(), "DIFFERENCE --seed {seed}{place}: {what}");
}

extern "C" fn ended(number: i32) {
    report(HERE.get(), &format!("the program was ended by signal {number}"));
    // SAFETY: leaves at once.
    unsafe { _exit(1) }
}

/// A thread that is at the same case after a long time does not end it.
fn watch() {
    let standing = || CASES.each_ref().map(|case| case.load(Ordering::Relaxed));
    loop {
        let before = standing();
        std::thread::sleep(PATIENCE);
        for (was, is) in before.into_iter().zip(standing()) {
            if was != 0 && was == is {
                report(is, "the case does not end");
                std::process::exit(1);
            }
        }
    }
}
