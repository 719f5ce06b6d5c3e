//! A run: seeds of profiles on two threads, until all are done or a difference is found.

use std::path::Path;
use std::sync::atomic::{AtomicBool, AtomicUsize, Ordering};
use std::sync::Mutex;

use crate::failure::Failure;
use crate::profiles::Profile;
use crate::programs::Programs;
use crate::small::Accepted;
use crate::tally::Tally;
use crate::trial::Bench;

/// One seed of a profile.
pub struct Item {
    pub profile: &'static Profile,
    pub seed: u64,
}

/// What a run came to: the counts, and the difference found first in the list.
pub struct Outcome {
    pub tally: Tally,
    pub failed: Option<(usize, Failure)>,
}

/// A bench with programs of its own.
pub fn bench(root: &Path, thread: usize) -> Bench {
    Bench {
        programs: Programs::new(root, thread),
        tally: Tally::default(),
        accepted: Accepted::new(),
    }
}

/// Runs all items on so many threads. Once a difference is found, no more items are begun.
pub fn run(root: &Path, items: &[Item], threads: usize) -> Outcome {
    let next = AtomicUsize::new(0);
    let stop = AtomicBool::new(false);
    let outcome = Mutex::new(Outcome {
        tally: Tally::default(),
        failed: None,
    });
    std::thread::scope(|scope| {
        for thread in 0..threads {
            let (next, stop, outcome) = (&next, &stop, &outcome);
            scope.spawn(move || {
                let mut bench = bench(root, thread);
                while !stop.load(Ordering::SeqCst) {
                    let i = next.fetch_add(1, Ordering::SeqCst);
                    let Some(item) = items.get(i) else {
                        break;
                    };
                    if let Err(failure) =
                        (item.profile.run)(&mut bench, item.profile.name, item.seed)
                    {
                        stop.store(true, Ordering::SeqCst);
                        failed(&outcome, i, failure);
                    }
                }
                outcome
                    .lock()
                    .expect("no thread panics")
                    .tally
                    .add(&bench.tally);
            });
        }
    });
    outcome.into_inner().expect("no thread panics")
}

/// Takes a difference down, if none of an earlier item was found.
fn failed(outcome: &Mutex<Outcome>, item: usize, failure: Failure) {
    let mut outcome = outcome.lock().expect("no thread panics");
    if outcome
        .failed
        .as_ref()
        .is_none_or(|(earlier, _)| item < *earlier)
    {
        outcome.failed = Some((item, failure));
    }
}
