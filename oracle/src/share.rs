//! A list compared in threads that take one of it after another.

use std::sync::atomic::{AtomicUsize, Ordering};
use std::thread;

use crate::met::{Listed, Met};
use crate::steps::THREADS;

/// Compares all of these. `compare` is also given the place in the list. Each thread counts for itself; the counts are joined.
pub fn share<T: Sync, C: Listed + Send + Sync, K: Send>(
    all: &[T],
    new: impl Fn() -> K + Sync,
    join: fn(&mut K, K),
    compare: impl Fn(&T, usize, &mut K, &mut Met<C>) + Sync,
) -> (K, Met<C>) {
    let next = AtomicUsize::new(0);
    let work = || {
        let (mut tally, mut met) = (new(), Met::new());
        loop {
            let at = next.fetch_add(1, Ordering::Relaxed);
            let Some(one) = all.get(at) else {
                return (tally, met);
            };
            compare(one, at, &mut tally, &mut met);
        }
    };
    thread::scope(|scope| {
        let threads: Vec<_> = (0..THREADS).map(|_| scope.spawn(work)).collect();
        let (mut tally, mut met) = (new(), Met::new());
        for thread in threads {
            let (other, more) = thread.join().expect("a thread of the comparison panicked");
            join(&mut tally, other);
            met.join(&more);
        }
        (tally, met)
    })
}
