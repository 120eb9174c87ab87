//! Tasks on two threads.
use crate::counts::Counts;
use crate::demand3::Texts;
use crate::difference::Difference;
use crate::layouts::Comparer;
use std::sync::atomic::{AtomicU64, Ordering};
use std::thread;

const THREADS: usize = 2;

/// Runs all tasks, or up to the first difference that a thread finds.
pub fn in_parallel(
    tasks: u64,
    texts: Option<&Texts>,
    run: impl Fn(u64, &mut Comparer) -> Result<(), Difference> + Sync,
) -> Result<Counts, Difference> {
    let next = AtomicU64::new(0);
    let work = || {
        let mut comparer = Comparer::new(texts);
        loop {
            let task = next.fetch_add(1, Ordering::Relaxed);
            if task >= tasks {
                return Ok(comparer.counts);
            }
            if let Err(difference) = run(task, &mut comparer) {
                next.store(tasks, Ordering::Relaxed);
                return Err(difference);
            }
        }
    };
    thread::scope(|scope| {
        let threads: Vec<_> = (0..THREADS).map(|_| scope.spawn(work)).collect();
        let mut counts = Counts::default();
        for thread in threads {
            counts.join(&thread.join().expect("a thread panicked")?);
        }
        Ok(counts)
    })
}
