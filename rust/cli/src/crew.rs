//! Works on several jobs at once and hands the results over in order.

use std::sync::{Condvar, Mutex, MutexGuard, PoisonError};
use std::thread;

/// How far the crew may be ahead of the oldest result not handed over, for
/// each worker: results can be large, so they must not pile up.
const AHEAD: usize = 2;

struct State<R> {
    next: usize,
    delivered: usize,
    stopped: bool,
    done: Vec<Option<R>>,
}

struct Board<R> {
    state: Mutex<State<R>>,
    changed: Condvar,
    window: usize,
}

/// Runs `work` on each job, on as many threads as there are cores, and
/// `deliver` on each result in the order of the jobs. An error from `deliver`
/// ends the run.
pub fn in_order<J: Sync, R: Send, E>(
    jobs: &[J],
    work: impl Fn(&J) -> R + Sync,
    mut deliver: impl FnMut(usize, R) -> Result<(), E>,
) -> Result<(), E> {
    let cores = thread::available_parallelism().map_or(1, usize::from);
    let workers = cores.min(jobs.len());
    let board = Board::new(jobs.len(), workers * AHEAD);
    thread::scope(|scope| {
        for _ in 0..workers {
            scope.spawn(|| {
                let _watch = Watch(&board);
                while let Some(number) = board.take() {
                    board.put(number, work(&jobs[number]));
                }
            });
        }
        let _watch = Watch(&board);
        (0..jobs.len()).try_for_each(|number| {
            let delivery = deliver(number, board.result(number));
            if delivery.is_err() {
                board.stop();
            }
            delivery
        })
    })
}

impl<R> Board<R> {
    fn new(jobs: usize, window: usize) -> Self {
        Board {
            state: Mutex::new(State {
                next: 0,
                delivered: 0,
                stopped: false,
                done: (0..jobs).map(|_| None).collect(),
            }),
            changed: Condvar::new(),
            window,
        }
    }

    fn lock(&self) -> MutexGuard<'_, State<R>> {
        self.state.lock().unwrap_or_else(PoisonError::into_inner)
    }

    /// Waits until the state no longer is as described.
    fn wait_while(&self, so: impl FnMut(&mut State<R>) -> bool) -> MutexGuard<'_, State<R>> {
        self.changed
            .wait_while(self.lock(), so)
            .unwrap_or_else(PoisonError::into_inner)
    }

    /// The next job, once it is not too far ahead.
    fn take(&self) -> Option<usize> {
        let mut state = self.wait_while(|state| {
            !state.stopped
                && state.next < state.done.len()
                && state.next >= state.delivered + self.window
        });
        if state.stopped || state.next == state.done.len() {
            return None;
        }
        state.next += 1;
        Some(state.next - 1)
    }

    fn put(&self, number: usize, result: R) {
        self.lock().done[number] = Some(result);
        self.changed.notify_all();
    }

    fn result(&self, number: usize) -> R {
        let mut state = self.wait_while(|state| !state.stopped && state.done[number].is_none());
        let result = state.done[number].take();
        state.delivered = number + 1;
        self.changed.notify_all();
        result.expect("a worker stopped without a result")
    }

    fn stop(&self) {
        self.lock().stopped = true;
        self.changed.notify_all();
    }
}

/// Stops everybody if its thread panics; otherwise the others would wait for
/// a result that never comes.
struct Watch<'a, R>(&'a Board<R>);

impl<R> Drop for Watch<'_, R> {
    fn drop(&mut self) {
        if thread::panicking() {
            self.0.stop();
        }
    }
}

#[cfg(test)]
mod tests {
    use super::*;
    use std::time::Duration;

    #[test]
    fn results_come_in_order() {
        let jobs: Vec<u64> = (0..50).collect();
        let mut seen = Vec::new();
        // Every seventh job is slow, so that others finish before it.
        let work = |job: &u64| {
            thread::sleep(Duration::from_millis(if job.is_multiple_of(7) {
                5
            } else {
                0
            }));
            job * 2
        };
        let end: Result<(), ()> = in_order(&jobs, work, |number, result| {
            seen.push((number as u64, result));
            Ok(())
        });
        assert_eq!(end, Ok(()));
        assert_eq!(seen, jobs.iter().map(|n| (*n, n * 2)).collect::<Vec<_>>());
    }

    #[test]
    fn an_error_ends_the_run() {
        let jobs = [0; 100];
        let mut delivered = 0;
        let end = in_order(
            &jobs,
            |_| (),
            |number, ()| {
                delivered += 1;
                if number == 3 { Err("full") } else { Ok(()) }
            },
        );
        assert_eq!((end, delivered), (Err("full"), 4));
    }

    #[test]
    #[should_panic]
    fn a_panicking_worker_does_not_hang_the_run() {
        let work = |job: &u32| assert!(*job != 5);
        let _: Result<(), ()> = in_order(&[1, 2, 3, 4, 5, 6], work, |_, ()| Ok(()));
    }

    #[test]
    fn no_jobs() {
        let jobs: [u8; 0] = [];
        let end: Result<(), ()> = in_order(&jobs, |_| (), |_, ()| Err(()));
        assert_eq!(end, Ok(()));
    }
}
