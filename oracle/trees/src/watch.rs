//! Runs tests two at a time, and tells when nothing goes on any more: a call that does not end.

use std::collections::BTreeSet;
use std::sync::atomic::{AtomicBool, AtomicU64, AtomicUsize, Ordering};
use std::sync::Mutex;
use std::time::Duration;

/// No call takes so long.
const PATIENCE: Duration = Duration::from_secs(120);

static TURNS: AtomicU64 = AtomicU64::new(0);

/// To be called with each call or piece.
pub fn tick() {
    TURNS.fetch_add(1, Ordering::Relaxed);
}

type Running = Mutex<BTreeSet<usize>>;

/// Does the work of every number below `many`. One that stops leaves the others alone.
pub fn two_at_a_time(many: usize, name: impl Fn(usize) -> String + Sync, work: impl Fn(usize) + Sync) {
    let (next, done) = (AtomicUsize::new(0), AtomicBool::new(false));
    let running = Running::default();
    let thread = || loop {
        let number = next.fetch_add(1, Ordering::Relaxed);
        if number >= many {
            return;
        }
        running.lock().expect("it is held for a moment only").insert(number);
        work(number);
        running.lock().expect("it is held for a moment only").remove(&number);
    };
    std::thread::scope(|scope| {
        scope.spawn(|| watch(&done, &running, &name));
        for thread in [scope.spawn(thread), scope.spawn(thread)] {
            drop(thread.join());
        }
        done.store(true, Ordering::Relaxed);
    });
}

fn watch(done: &AtomicBool, running: &Running, name: &dyn Fn(usize) -> String) {
    let step = Duration::from_millis(100);
    let (mut turns, mut since) = (0, Duration::ZERO);
    while !done.load(Ordering::Relaxed) {
        std::thread::sleep(step);
        let now = TURNS.load(Ordering::Relaxed);
        (turns, since) = if now == turns { (now, since + step) } else { (now, Duration::ZERO) };
        if since > PATIENCE {
            let names: Vec<String> =
                running.lock().expect("it is held for a moment only").iter().map(|i| name(*i)).collect();
            println!("FAILED {}: a call does not end", names.join(" or "));
            std::process::exit(1);
        }
    }
}
