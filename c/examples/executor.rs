//! A small executor for the examples: `block_on` runs one future, and a pool of threads runs many futures. A program that
//! already has an executor does not need this file.
#![allow(dead_code)] // a program uses only the part that it needs

use std::collections::VecDeque;
use std::future::Future;
use std::pin::{Pin, pin};
use std::sync::atomic::{AtomicBool, AtomicUsize, Ordering::*};
use std::sync::{Arc, Condvar, Mutex};
use std::task::{Context, Poll, Wake, Waker};
use std::thread;

struct Parked(thread::Thread, AtomicBool);

impl Wake for Parked {
    fn wake(self: Arc<Self>) {
        self.1.store(true, SeqCst);
        self.0.unpark();
    }
}

/// Runs one future to its end, in this thread.
pub fn block_on<F: Future>(future: F) -> F::Output {
    let parked = Arc::new(Parked(thread::current(), AtomicBool::new(false)));
    let waker = Waker::from(parked.clone());
    let mut future = pin!(future);
    loop {
        if let Poll::Ready(it) = future.as_mut().poll(&mut Context::from_waker(&waker)) {
            return it;
        }
        while !parked.1.swap(false, SeqCst) {
            thread::park();
        }
    }
}

/// Tasks that are ready, and the number of those that have not ended.
#[derive(Default)]
pub struct Pool {
    ready: Mutex<VecDeque<Arc<Task>>>,
    some: Condvar,
    left: AtomicUsize,
}

pub struct Task {
    pool: Arc<Pool>,
    future: Mutex<Option<Pin<Box<dyn Future<Output = ()> + Send>>>>,
    queued: AtomicBool,
}

impl Wake for Task {
    fn wake(self: Arc<Self>) {
        if !self.queued.swap(true, SeqCst) {
            let pool = self.pool.clone();
            pool.ready.lock().unwrap().push_back(self);
            pool.some.notify_one();
        }
    }
}

impl Task {
    fn ended(&self) {
        if self.pool.left.fetch_sub(1, SeqCst) == 1 {
            let _ready = self.pool.ready.lock().unwrap();
            self.pool.some.notify_all();
        }
    }

    /// Drops the future, whatever it waits for.
    pub fn abort(&self) {
        let mut future = self.future.lock().unwrap();
        if future.take().is_some() {
            drop(future);
            self.ended();
        }
    }

    fn step(self: Arc<Self>) {
        self.queued.store(false, SeqCst);
        let waker = Waker::from(self.clone());
        let mut future = self.future.lock().unwrap();
        let Some(it) = future.as_mut() else { return };
        if it.as_mut().poll(&mut Context::from_waker(&waker)).is_ready() {
            *future = None;
            drop(future);
            self.ended();
        }
    }
}

impl Pool {
    pub fn spawn(self: &Arc<Self>, future: impl Future<Output = ()> + Send + 'static) -> Arc<Task> {
        self.left.fetch_add(1, SeqCst);
        let task = Arc::new(Task { pool: self.clone(), future: Mutex::new(Some(Box::pin(future))), queued: AtomicBool::new(false) });
        task.clone().wake();
        task
    }

    pub fn left(&self) -> usize {
        self.left.load(SeqCst)
    }

    fn next(&self) -> Option<Arc<Task>> {
        let mut ready = self.ready.lock().unwrap();
        while ready.is_empty() && self.left() > 0 {
            ready = self.some.wait(ready).unwrap();
        }
        ready.pop_front()
    }

    /// Runs all tasks to their ends, on `threads` threads.
    pub fn run(&self, threads: usize) {
        thread::scope(|scope| {
            for _ in 0..threads {
                scope.spawn(|| while let Some(task) = self.next() { task.step() });
            }
        });
    }
}
