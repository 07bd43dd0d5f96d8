//! Threads that start and end add to a count, and to a table that a barging mutex protects.
use qolb::{Mutex, Stopped};
use std::collections::HashMap;
use std::thread;

static COUNT: Mutex<u64> = Mutex::new(0);

fn main() -> Result<(), Stopped> {
    let visits = Mutex::with_barging(HashMap::new(), 1024);
    for _wave in 0..2 {
        thread::scope(|scope| {
            for page in 0..4 {
                let visits = &visits;
                scope.spawn(move || {
                    for _round in 0..500 {
                        *visits.lock().expect("nobody shuts it").entry(page).or_insert(0) += 1;
                        *COUNT.lock().expect("nobody shuts it") += 1;
                    }
                });
            }
        });
    }
    let count = *COUNT.lock()?;
    assert_eq!(count, visits.lock()?.values().sum::<u64>());
    println!("{count}");
    Ok(())
}
