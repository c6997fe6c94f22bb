//! Two workers that share out many inputs, and the one who watches their programs' deadline.

use crate::program::Watched;
use std::sync::atomic::{AtomicBool, AtomicUsize, Ordering};
use std::thread;
use std::time::{Duration, Instant};

pub const WORKERS: usize = 2;
/// Trees are walked by calls as deep as the tree.
const STACK_BYTES: usize = 64 << 20;
const PROGRESS: usize = 2000;

pub struct Worker {
    /// 0 or 1.
    pub number: usize,
    pub watched: Watched,
}

/// Tries the inputs 0 to `count - 1`, named by `name`, each by one of the workers.
pub fn share_out(count: usize, name: &str, try_one: impl Fn(usize, &Worker) + Sync) {
    let workers: [Worker; WORKERS] = std::array::from_fn(|number| Worker { number, watched: Watched::default() });
    let next = AtomicUsize::new(0);
    let done = AtomicBool::new(false);
    let began = Instant::now();
    thread::scope(|scope| {
        scope.spawn(|| watch(&workers, &done));
        let (next, try_one) = (&next, &try_one);
        let spawn = |worker| {
            let work = move || take_all(next, count, name, |number| try_one(number, worker));
            thread::Builder::new().stack_size(STACK_BYTES).spawn_scoped(scope, work).expect("a thread")
        };
        let threads: Vec<_> = workers.iter().map(spawn).collect();
        let ended: Vec<_> = threads.into_iter().map(|thread| thread.join()).collect();
        done.store(true, Ordering::Relaxed);
        assert!(ended.iter().all(Result::is_ok), "a worker ended early");
    });
    println!("all {name} in {:.1} s", began.elapsed().as_secs_f64());
}

/// Takes numbers until none is left.
fn take_all(next: &AtomicUsize, count: usize, name: &str, try_one: impl Fn(usize)) {
    loop {
        let number = next.fetch_add(1, Ordering::Relaxed);
        if number >= count {
            return;
        }
        try_one(number);
        if (number + 1) % PROGRESS == 0 {
            println!("{} of {count} {name}", number + 1);
        }
    }
}

fn watch(workers: &[Worker], done: &AtomicBool) {
    while !done.load(Ordering::Relaxed) {
        workers.iter().for_each(|worker| worker.watched.enforce_deadline());
        thread::sleep(Duration::from_millis(50));
    }
}
