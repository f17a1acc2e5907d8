//! Work on several cores.

use std::collections::BTreeMap;
use std::sync::atomic::{AtomicUsize, Ordering};
use std::sync::mpsc::{self, Receiver, Sender};
use std::thread;

/// Does `work` for each item, on at most `jobs` threads, and hands the results to `take` in the
/// order of the items, each as soon as its turn comes. The first error of `take` ends all, once
/// what is at work is done.
pub fn in_order<T: Sync, R: Send, E>(
    items: &[T],
    jobs: usize,
    work: impl Fn(&T, &mut Vec<u8>) -> R + Sync,
    take: impl FnMut(&T, R) -> Result<(), E>,
) -> Result<(), E> {
    let next = AtomicUsize::new(0);
    let (sender, results) = mpsc::channel();
    thread::scope(|scope| {
        for _ in 0..jobs.min(items.len()) {
            let sender = sender.clone();
            scope.spawn(|| work_off(items, &next, &work, sender));
        }
        // The results end when the last thread that sends some does.
        drop(sender);
        hand_over(items, results, take)
    })
}

/// What one thread does: item after item, with one buffer for all, until there are no more or
/// nobody takes the results.
fn work_off<T, R>(
    items: &[T],
    next: &AtomicUsize,
    work: impl Fn(&T, &mut Vec<u8>) -> R,
    results: Sender<(usize, R)>,
) {
    let mut buffer = Vec::new();
    while let Some((place, item)) = take_next(items, next) {
        if results.send((place, work(item, &mut buffer))).is_err() {
            return;
        }
    }
}

fn take_next<'a, T>(items: &'a [T], next: &AtomicUsize) -> Option<(usize, &'a T)> {
    let place = next.fetch_add(1, Ordering::Relaxed);
    Some((place, items.get(place)?))
}

fn hand_over<T, R, E>(
    items: &[T],
    results: Receiver<(usize, R)>,
    mut take: impl FnMut(&T, R) -> Result<(), E>,
) -> Result<(), E> {
    let mut waiting = BTreeMap::new();
    let mut turn = 0;
    for (place, result) in results {
        waiting.insert(place, result);
        while let Some(result) = waiting.remove(&turn) {
            take(&items[turn], result)?;
            turn += 1;
        }
    }
    Ok(())
}

#[cfg(test)]
mod tests {
    use super::*;
    use std::time::Duration;

    #[test]
    fn results_come_in_order_from_any_number_of_threads() {
        let items: Vec<u64> = (0..40).collect();
        let work = |item: &u64, _: &mut Vec<u8>| {
            // Later items are done sooner.
            thread::sleep(Duration::from_micros(50 * (40 - item)));
            item * item
        };
        for jobs in [1, 3, 64] {
            let mut taken = Vec::new();
            let take = |item: &u64, square| {
                taken.push((*item, square));
                Ok::<(), ()>(())
            };
            assert_eq!(in_order(&items, jobs, work, take), Ok(()));
            assert!(taken.into_iter().eq(items.iter().map(|item| (*item, item * item))));
        }
    }

    #[test]
    fn an_error_ends_the_work() {
        let items: Vec<usize> = (0..4000).collect();
        let worked = AtomicUsize::new(0);
        let work = |_: &usize, _: &mut Vec<u8>| {
            thread::sleep(Duration::from_millis(1));
            worked.fetch_add(1, Ordering::Relaxed)
        };
        let take = |item: &usize, _| if *item == 3 { Err(*item) } else { Ok(()) };
        assert_eq!(in_order(&items, 2, work, take), Err(3));
        assert!(worked.into_inner() < items.len());
    }
}
