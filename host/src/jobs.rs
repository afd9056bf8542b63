//! Work on the items of a list side by side on threads; what comes of it stands in the list's order.

use std::num::NonZero;
use std::sync::Mutex;
use std::sync::atomic::{AtomicBool, AtomicUsize, Ordering::Relaxed};
use std::thread;

/// As many jobs as the machine has processors for this program.
pub fn processors() -> NonZero<usize> {
    thread::available_parallelism().unwrap_or(NonZero::<usize>::MIN)
}

/// What comes of the items, in their order. Items are begun in that order too, and none once one has failed: all before
/// the first that fails are there. This thread works along; where the system gives no more threads, it does with fewer.
pub fn in_order<T: Sync, R: Send, E: Send>(
    items: &[T],
    jobs: NonZero<usize>,
    work: impl Fn(&T) -> Result<R, E> + Sync,
) -> Vec<Result<R, E>> {
    let (next, failed, done) = (AtomicUsize::new(0), AtomicBool::new(false), Mutex::new(Vec::new()));
    let worker = || {
        while !failed.load(Relaxed) {
            let number = next.fetch_add(1, Relaxed);
            let Some(item) = items.get(number) else { break };
            let result = work(item);
            failed.fetch_or(result.is_err(), Relaxed);
            done.lock().expect("no thread panics with the list").push((number, result));
        }
    };
    thread::scope(|scope| {
        for _ in 1..jobs.get().min(items.len()) {
            if thread::Builder::new().spawn_scoped(scope, worker).is_err() {
                break;
            }
        }
        worker();
    });
    let mut done = done.into_inner().expect("no thread panics with the list");
    done.sort_by_key(|&(number, _)| number);
    done.into_iter().map(|(_, result)| result).collect()
}

#[cfg(test)]
mod tests {
    use super::*;
    use std::time::Duration;

    fn jobs(number: usize) -> NonZero<usize> {
        NonZero::new(number).expect("a number of jobs")
    }

    /// The later an item is, the sooner it is done.
    #[test]
    fn results_keep_the_order() {
        let items: Vec<u64> = (0..12).collect();
        for number in [1, 2, 5, 12, 100] {
            let twice = in_order(&items, jobs(number), |&item| {
                thread::sleep(Duration::from_millis(12 - item));
                Ok::<_, ()>(2 * item)
            });
            assert_eq!(twice, items.iter().map(|item| Ok(2 * item)).collect::<Vec<_>>());
        }
        assert_eq!(in_order(&[], jobs(3), |&item: &u64| Ok::<_, ()>(item)), []);
    }

    /// The second item fails late and the third early: the second is the first failure all the same.
    #[test]
    fn everything_before_a_failure_is_there() {
        let work = |&item: &u64| {
            thread::sleep(Duration::from_millis(if item == 1 { 50 } else { 1 }));
            if item == 1 || item == 2 { Err(item) } else { Ok(item) }
        };
        for number in [1, 2, 3, 4] {
            let done = in_order(&(0..1000).collect::<Vec<_>>(), jobs(number), work);
            assert_eq!(done[..2], [Ok(0), Err(1)], "{number} jobs");
            assert!(done.len() < 1000, "{number} jobs begin every item");
        }
    }

    /// Two items that wait for one another are done only where both are begun.
    #[test]
    fn items_are_done_side_by_side() {
        let met = std::sync::Barrier::new(2);
        let done = in_order(&[0, 1], jobs(2), |&item| {
            met.wait();
            Ok::<_, ()>(item)
        });
        assert_eq!(done, [Ok(0), Ok(1)]);
    }
}
