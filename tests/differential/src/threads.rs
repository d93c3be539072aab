//! Work on a list by several threads.

use std::sync::atomic::{AtomicUsize, Ordering};

const THREADS: usize = 2;

/// What the work makes of each item, in the order of the items.
pub fn each<T: Sync, R: Send>(items: &[T], work: impl Fn(&T) -> R + Sync) -> Vec<R> {
    let next = AtomicUsize::new(0);
    let take = || {
        let i = next.fetch_add(1, Ordering::Relaxed);
        items.get(i).map(|item| (i, item))
    };
    let turns = || {
        let taken = std::iter::from_fn(take);
        taken.map(|(i, item)| (i, work(item))).collect::<Vec<_>>()
    };
    let mut done: Vec<(usize, R)> = std::thread::scope(|scope| {
        let threads: Vec<_> = (0..THREADS).map(|_| scope.spawn(turns)).collect();
        let joined = threads.into_iter().map(|thread| thread.join());
        joined.flat_map(|list| list.expect("no panic")).collect()
    });
    done.sort_by_key(|(i, _)| *i);
    done.into_iter().map(|(_, result)| result).collect()
}
