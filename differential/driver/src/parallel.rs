//! Batches on two threads, in rounds, so that a seed gives the same cases on every machine.
use std::{
    io,
    sync::{
        Mutex,
        atomic::{AtomicU64, Ordering},
    },
    thread,
};

const THREADS: usize = 2;
pub const BATCHES_A_ROUND: u64 = 8;

/// Do the batches of the round that begins with `first`. `batch` gets the number of its thread and its own.
pub fn round<T: Send>(first: u64, batch: impl Fn(usize, u64) -> io::Result<T> + Sync) -> io::Result<Vec<T>> {
    let (next, results) = (AtomicU64::new(first), Mutex::new(Vec::new()));
    let work = |thread: usize| -> io::Result<()> {
        loop {
            let number = next.fetch_add(1, Ordering::Relaxed);
            if number >= first + BATCHES_A_ROUND {
                return Ok(());
            }
            let result = batch(thread, number)?;
            results.lock().expect("no worker panicked").push((number, result));
        }
    };
    thread::scope(|scope| {
        let work = &work;
        let workers: Vec<_> = (0..THREADS).map(|n| scope.spawn(move || work(n))).collect();
        workers.into_iter().try_for_each(|w| w.join().map_err(|_| io::Error::other("a worker panicked"))?)
    })?;
    let mut results = results.into_inner().expect("no worker panicked");
    results.sort_by_key(|(number, _)| *number);
    Ok(results.into_iter().map(|(_, result)| result).collect())
}
