//! Cases shared out to threads.

use judge::count::Counts;
use std::sync::atomic::{AtomicBool, Ordering::Relaxed};
use std::thread;

/// Which cases are made, and by how many threads they are compared.
#[derive(Debug, Clone, Copy)]
pub struct Run {
    pub seed: u64,
    pub jobs: usize,
}

impl Run {
    /// Compares so many cases, each thread at a desk of its own; the counts of all, or the first difference.
    pub fn each<D>(
        self,
        count: u64,
        desk: impl Fn() -> D + Sync,
        compared: impl Fn(u64, &mut D, &mut Counts) -> Result<(), String> + Sync,
    ) -> Result<Counts, String> {
        let is_ended = AtomicBool::new(false);
        let part = |first: u64| -> Result<Counts, String> {
            let (mut desk, mut counts) = (desk(), Counts::default());
            for case in (first..count).step_by(self.jobs) {
                if is_ended.load(Relaxed) {
                    break;
                }
                compared(case, &mut desk, &mut counts)
                    .inspect_err(|_| is_ended.store(true, Relaxed))?;
            }
            Ok(counts)
        };
        let mut all = Counts::default();
        for counts in in_parts(self.jobs as u64, part) {
            all.add_all(counts?);
        }
        Ok(all)
    }
}

/// What each part gives; the first part is done by this thread.
fn in_parts<T: Send>(parts: u64, part: impl Fn(u64) -> T + Sync) -> Vec<T> {
    let part = &part;
    thread::scope(|scope| {
        let others: Vec<_> = (1..parts).map(|other| scope.spawn(move || part(other))).collect();
        let mut all = vec![part(0)];
        all.extend(others.into_iter().map(|other| other.join().expect("no panic")));
        all
    })
}
