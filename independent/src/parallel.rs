//! Spreads numbered pieces of work over the machine's cores.

use std::sync::atomic::{AtomicUsize, Ordering};

/// Calls `work` once for each number below `pieces`; a panic in one of them
/// is a panic of the whole.
pub fn spread(pieces: usize, work: impl Fn(usize) + Sync) {
    let workers = std::thread::available_parallelism().map_or(1, |count| count.get()).min(8);
    let next = AtomicUsize::new(0);
    std::thread::scope(|scope| {
        let handles: Vec<_> = (0..workers)
            .map(|_| {
                scope.spawn(|| loop {
                    let piece = next.fetch_add(1, Ordering::Relaxed);
                    if piece >= pieces {
                        break;
                    }
                    work(piece);
                })
            })
            .collect();
        for handle in handles {
            if let Err(panic) = handle.join() {
                std::panic::resume_unwind(panic);
            }
        }
    });
}

/// A counter that several workers may add to.
#[derive(Default)]
pub struct Counter(AtomicUsize);

impl Counter {
    pub fn add(&self, count: usize) {
        self.0.fetch_add(count, Ordering::Relaxed);
    }

    pub fn value(&self) -> usize {
        self.0.load(Ordering::Relaxed)
    }
}
