//! Tests a mutex that the crate `lock_api` builds from the lock of qolb.rs. Prints only errors.
#[path = "../rust/qolb.rs"]
mod qolb;
use lock_api::{Mutex, MutexGuard};
use qolb::{Answer, RawQolb};
use std::os::unix::process::ExitStatusExt;
use std::panic::{AssertUnwindSafe, catch_unwind};
use std::process::Command;
use std::time::{Duration, Instant};

static COUNT: Mutex<RawQolb, u64> = Mutex::new(0);
static VISITS: Mutex<RawQolb, u64> = Mutex::const_new(RawQolb::with_barging(1024), 0);

/// Locks a mutex that this thread holds. If the lock ended by a panic, there would be two guards. The process must end before.
fn holds_twice(way: &str) {
    let mut held = COUNT.lock();
    let mut other = None;
    let ended = catch_unwind(AssertUnwindSafe(|| match way {
        "lock" => other = Some(COUNT.lock()),
        _ => MutexGuard::unlocked(&mut held, || other = Some(COUNT.lock())),
    }));
    let two = other.is_some();
    drop((held, other));
    panic!("{way}: {ended:?}, two guards: {two}");
}

/// A shut mutex is refused without a panic: by each `try_*`, and by `Debug`, which calls `try_lock`.
fn is_shut() {
    std::mem::forget(VISITS.lock());
    assert_eq!(unsafe { VISITS.raw() }.shut(), Answer::Done);
    assert!(VISITS.try_lock().is_none() && VISITS.try_lock_for(Duration::from_secs(100)).is_none());
    assert!(VISITS.try_lock_until(Instant::now() + Duration::from_secs(100)).is_none());
    assert_eq!(format!("{VISITS:?}"), "Mutex { data: <locked> }");
    assert_eq!(unsafe { VISITS.raw() }.try_enter(), Answer::Closed);
}

fn main() {
    match std::env::args().nth(1).as_deref() {
        Some("shut") => {
            is_shut();
            drop(VISITS.lock());
            panic!("a shut mutex was locked");
        }
        Some(way) => return holds_twice(way),
        None => (),
    }
    std::thread::scope(|scope| {
        for _ in 0..8 {
            scope.spawn(|| (0..1000).for_each(|_| *COUNT.lock() += 1));
            scope.spawn(|| (0..1000).for_each(|_| *VISITS.lock() += 1));
        }
    });
    let held: MutexGuard<'_, RawQolb, u64> = COUNT.lock();
    assert_eq!((*held, *VISITS.lock()), (8000, 8000));
    assert!(COUNT.is_locked() && COUNT.try_lock().is_none());
    std::thread::scope(|scope| _ = scope.spawn(is_late));
    // In each way, `lock` must end the process: the holder must not wait for itself, and a shut mutex must not be entered.
    let holds = "this thread already holds it";
    for (way, why) in [("lock", holds), ("unlocked", holds), ("shut", "the line is closed, or the lock shut")] {
        let ended = Command::new(std::env::current_exe().unwrap()).arg(way).output().unwrap();
        assert_eq!(ended.status.signal(), Some(6), "{way}: {ended:?}");
        assert_eq!(String::from_utf8_lossy(&ended.stderr), format!("qolb: lock_api's lock is refused: {why}\n"), "{way}");
    }
    // The holder is refused at once and without a panic, and still holds the mutex.
    let since = Instant::now();
    assert!(COUNT.try_lock_for(Duration::from_secs(100)).is_none());
    assert!(COUNT.try_lock_until(Instant::now() + Duration::from_secs(100)).is_none());
    assert!(since.elapsed() < Duration::from_secs(100));
    assert_eq!(format!("{COUNT:?}"), "Mutex { data: <locked> }");
    assert_eq!(*held, 8000);
    MutexGuard::unlock_fair(held);
    assert!(COUNT.try_lock_for(Duration::from_millis(10)).is_some() && !COUNT.is_locked());
    assert_eq!(format!("{COUNT:?}"), "Mutex { data: 8000 }");
    is_shut();
}

fn is_late() {
    let since = Instant::now();
    assert!(COUNT.try_lock_for(Duration::from_millis(10)).is_none());
    assert!(COUNT.try_lock_until(Instant::now() + Duration::from_millis(10)).is_none());
    assert!(since.elapsed() >= Duration::from_millis(20));
}
