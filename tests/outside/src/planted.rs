//! What the tests of the tests share: errors dealt out to as many threads as there are cores.

use crate::watch;
use std::sync::atomic::{AtomicUsize, Ordering};

/// What `work` makes of each task on some thread, in the order of the tasks.
pub fn dealt_out<Task, Done>(tasks: &[Task], work: impl Fn(&Task, usize) -> Done + Sync) -> Vec<Done>
where
    Task: Sync,
    Done: Send,
{
    let next = AtomicUsize::new(0);
    let share = |thread| {
        let mut done = Vec::new();
        loop {
            let number = next.fetch_add(1, Ordering::Relaxed);
            let Some(task) = tasks.get(number) else { break };
            done.push((number, work(task, thread)));
        }
        watch::rest(thread);
        done
    };
    let mut done: Vec<(usize, Done)> = std::thread::scope(|scope| {
        let share = &share;
        let shares: Vec<_> = (0..watch::threads()).map(|thread| scope.spawn(move || share(thread))).collect();
        shares.into_iter().flat_map(|share| share.join().expect("a case that panicked has said so")).collect()
    });
    done.sort_by_key(|(number, _)| *number);
    done.into_iter().map(|(_, done)| done).collect()
}
