//! Queue locks, strict or barging, and lines, which hand over 64 bytes together with the lock. A [`Mutex`] protects a value, as `std::sync::Mutex` does.
//!
//! ```
//! use qolb::{Condition, Mutex, Stopped};
//! use std::time::Duration;
//!
//! static JOBS: Mutex<Vec<u64>> = Mutex::new(Vec::new());
//! static SOME: Condition = Condition::new();
//!
//! fn main() -> Result<(), Stopped> {
//!     JOBS.lock()?.push(7);
//!     SOME.notify_one();
//!     let (mut jobs, timeout) = SOME.wait_timeout_while(JOBS.lock()?, Duration::from_millis(1), |jobs| jobs.is_empty())?;
//!     assert_eq!(jobs.pop(), Some(7));
//!     assert!(!timeout.timed_out());
//!     Ok(())
//! }
//! ```
//!
//! A program can depend on the installed crate, `qolb = { path = "PREFIX/share/qolb/rust" }`, whose build script finds the library. From edition 2021 on
//! it can instead contain this file as a module, `#[path = ".../qolb.rs"] mod qolb;`, and link the static library with `-L PREFIX/lib -l static=qolb`. If
//! `static=` is left out, `rustc` links the shared library, and the program starts only if the loader finds the shared library. (If a library contains
//! this file as a module, its doc tests try the examples of this file, which name a crate.)
//!
//! # With `lock_api`
//!
//! With the crate's feature `lock_api`, [`RawQolb`] implements the traits `RawMutex`, `RawMutexFair` and `RawMutexTimed` of the crate `lock_api` 0.4. The
//! type `lock_api::Mutex<RawQolb, T>` is then a mutex like those of `parking_lot`. `Mutex::new` of `lock_api` makes a strict mutex, and
//! `Mutex::const_new(RawQolb::with_barging(1024), value)` makes a barging mutex.
//!
//! - `lock` ends the process if the calling thread holds the mutex, or if the mutex was shut.
//! - `try_lock`, `try_lock_for` and `try_lock_until` do not panic. If the calling thread holds the mutex, or if the mutex was shut, they return `None` at
//!   once.
//! - `Debug` shows `<locked>` in place of the value if a thread or a task holds the mutex, and also if the mutex was shut.
//! - A mutex of `lock_api` is shut only by [`RawQolb::shut`]. Once a mutex was shut, a loop that calls `try_lock` until it succeeds never ends. If a
//!   program shuts a mutex, call [`RawQolb::try_enter`] in such a loop instead, which returns [`Answer::Closed`] for a shut mutex.
//!
//! # How it differs from `std::sync::Mutex`
//!
//! - A mutex made by [`Mutex::new`] is strict: a thread that locks it draws a ticket with one atomic step, and the mutex serves tickets in order. If
//!   the thread with the next ticket is not running, all waiting threads wait until it runs.
//! - A mutex made by [`Mutex::with_barging`] lets arriving threads overtake the queue, but only a bounded number of times. Use such a mutex if more
//!   threads, of any program, are ready to run than there are processors.
//! - [`Mutex::lock`] fails with [`Stopped`] if the mutex was shut ([`MutexGuard::shut`]) or the calling thread holds it. A mutex is never poisoned.
//! - [`Mutex::try_lock_for`] has a timeout, and [`Mutex::lock_async`] is for tasks.
//! - The 320 bytes of the lock are put into a box at the first use. If there is no memory for the box, the process ends, as it does after any failed
//!   allocation.
//!
//! # What is proved
//!
//! The proofs about a lock are proofs about its core, which is the part that decides which thread is next:
//!
//! - The core has at most one holder.
//! - It serves tickets in order.
//! - A barging lock contains a counter, which is at most B - 1 if the barging limit is B. A barging thread, which has no ticket, adds 1 to the counter
//!   when it enters the lock, and the first waiter sets the counter to 0 when it enters the lock. It is argued, but not proved, that nothing else sets
//!   the counter to 0.
//! - It tells a releasing thread whether the next waiter has announced that it is about to sleep. For the first waiter in the queue of a barging lock,
//!   this covers only announcements that were made while the releasing thread held the lock.
//!
//! Of a line it is proved that it has at most one holder, that its requests end in the order of the queue, and which bytes each holder receives.
//!
//! This file is not proved. The C code below it, which puts threads to sleep, wakes them, and implements timeouts, conditions and tasks, is not proved
//! either. Both are tested. The C code was also model-checked, at the commit that PROVED names, in small scenes: two or three threads, at most two
//! switches for a lock and three for a line (a context switch, an expired timeout and a delayed store each count), and stand-ins for the core and the
//! lines. For two more claims there is only an informal argument: how
//! many threads may overtake one waiter, and that a holder sees what earlier holders wrote. Nothing is proved about the protected value itself. It is not
//! proved either that a waiting thread is ever granted the lock.
//!
//! # Nodes
//!
//! A line is 64 bytes that 1 to 200 nodes share. A node that is granted the line is handed its bytes. A [`Node`] is moved and never copied.
//!
//! ```
//! use qolb::{Answer, Bytes, Kind};
//!
//! fn main() -> Result<(), Answer> {
//!     let mut nodes = qolb::open(Kind::DEFAULT, 1, 2, None, &Bytes([0; 64]))?;
//!     nodes[0].lock()?.add_to_lane(0, 1); // lock() waits; the guard releases the line when it is dropped
//!     let mut turn = nodes[1].lock()?;
//!     assert_eq!(turn.lane(0), 1);
//!     turn.shut();
//!     assert_eq!(nodes[0].acquire(), Answer::Closed);
//!     Ok(())
//! }
//! ```
//!
//! # Tasks
//!
//! A task of an executor waits without blocking a thread: `node.turn().await` returns a guard of a node's line ([`Node::turn`]), and
//! `mutex.lock_async().await` returns a guard of a [`Mutex`]. These futures work with any executor. They make their request when they are first polled,
//! and tasks and threads wait in one queue. A future that is dropped withdraws its request. A guard of `lock_async` may move to another thread if the
//! value may move there.
//!
//! The releasing thread calls the task's waker. If the waker panics in `wake`, the process ends. A waker that polls the task at once, and keeps the
//! guard that it gets, may keep the lock from the thread in whose release or wait the waker is called.
//!
//! # A panic while a line or a mutex is held
//!
//! While the thread unwinds, the guard is dropped, and this releases the line or the mutex. If the guard of a node was leaked, the node releases the line
//! when it is dropped. The writes of the holder stay, and no other thread is told of the panic. If no other thread may see an unfinished change, make the
//! change in a copy and write the copy back at the end. With `panic = "abort"` the process ends, and its lines end with it.
//!
//! # The thread sanitizer
//!
//! The thread sanitizer does not see into the library. If `--cfg qolb_tsan` is given in addition to `-Zsanitizer=thread`, this file tells the sanitizer
//! of each acquisition and each release of a [`Mutex`] and of a [`RawQolb`]. The sanitizer then reports no race between accesses that these locks
//! protect.
#![allow(dead_code, unexpected_cfgs)]

use std::cell::UnsafeCell;
use std::ffi::c_void;
use std::fmt;
use std::future::Future;
use std::marker::{PhantomData, PhantomPinned};
use std::ops::{Deref, DerefMut};
use std::os::fd::{AsRawFd, BorrowedFd};
use std::panic::{RefUnwindSafe, UnwindSafe};
use std::pin::Pin;
use std::ptr::{NonNull, null_mut};
use std::sync::PoisonError;
use std::sync::atomic::{AtomicPtr, Ordering};
use std::task::{Context, Poll, Waker};
use std::time::{Duration, Instant};

/// The kind of a line.
#[derive(Clone, Copy, Debug, PartialEq, Eq)]
#[repr(u32)]
pub enum Kind {
    /// A ring, whose nodes draw a ticket and wait on a cell of their own.
    Ring = 0,
    /// A link line, whose nodes link themselves to the node before them. Only this kind has requests in two calls, `prepend` and `link`.
    Link = 1,
    /// A ticket line (partitioned tickets), whose nodes wait on numbered cells. A release that passes no withdrawn request takes one atomic step on shared
    /// words, where that of a ring takes two.
    Ticket = 2,
}

impl Kind {
    /// The kind to use unless memory is short: a ticket line.
    pub const DEFAULT: Kind = Kind::Ticket;
    /// All kinds, in the order of their numbers.
    pub const ALL: [Kind; 3] = [Kind::Ring, Kind::Link, Kind::Ticket];

    /// Returns the name of the kind, as the program `qolb` takes it.
    pub const fn name(self) -> &'static str {
        match self {
            Kind::Ring => "ring",
            Kind::Link => "link",
            Kind::Ticket => "ticket",
        }
    }
}

impl fmt::Display for Kind {
    fn fmt(&self, f: &mut fmt::Formatter<'_>) -> fmt::Result {
        f.pad(self.name())
    }
}

impl Default for Kind {
    fn default() -> Kind {
        Kind::DEFAULT
    }
}

/// The result of a call.
#[derive(Clone, Copy, Debug, PartialEq, Eq)]
pub enum Answer {
    /// The call did what it says.
    Done,
    /// The node holds the line, or the thread or the task holds the lock.
    Granted,
    /// The request waits in the queue.
    Queued,
    /// The request still waits.
    Waiting,
    /// The request is behind another one, and must be linked.
    Linking,
    /// The request is withdrawn.
    Withdrawn,
    /// The line is closed or the lock is shut, and the request has ended.
    Closed,
    /// The call would have to wait, or the node's last request is still in the queue.
    Busy,
    /// The node or lock does not allow the call, and nothing changed.
    Misuse,
    /// The library could not allocate memory, and nothing changed.
    NoMemory,
    /// The number of nodes is not 1 to 200.
    BadNodes,
    /// The lease is 0.
    BadLease,
    /// There is no such kind of line.
    BadKind,
    /// There are fewer handles than nodes.
    TooFew,
    /// A handle that the call would fill has a node.
    Occupied,
    /// The timeout expired, and the request is withdrawn.
    TimedOut,
}

impl fmt::Display for Answer {
    fn fmt(&self, f: &mut fmt::Formatter<'_>) -> fmt::Result {
        f.write_str(match self {
            Answer::Done => "done",
            Answer::Granted => "the line or the lock is granted",
            Answer::Queued => "the request waits",
            Answer::Waiting => "the request waits still",
            Answer::Linking => "the request stands behind another, and is not linked yet",
            Answer::Withdrawn => "the request is withdrawn",
            Answer::Closed => "the line is closed, or the lock shut",
            Answer::Busy => "the call would have to wait, or the node's last request is still in the queue",
            Answer::Misuse => "the node or lock does not allow the call",
            Answer::NoMemory => "out of memory",
            Answer::BadNodes => "a line has 1 to 200 nodes",
            Answer::BadLease => "a lease has at least one turn",
            Answer::BadKind => "no such kind of line",
            Answer::TooFew => "fewer handles than nodes",
            Answer::Occupied => "one of the handles has a node",
            Answer::TimedOut => "the time is over, and the request is withdrawn",
        })
    }
}

/// An `Answer` is an error, so that a function with any error type can call [`open`] with `?`.
impl std::error::Error for Answer {}

/// Converts the error of a lock, so that `?` works in a function that returns the error of [`open`].
impl From<Stopped> for Answer {
    fn from(stopped: Stopped) -> Answer {
        match stopped {
            Stopped::Closed => Answer::Closed,
            Stopped::Misuse => Answer::Misuse,
        }
    }
}

/// The reason why a line or a lock cannot be acquired.
#[derive(Clone, Copy, Debug, PartialEq, Eq)]
pub enum Stopped {
    /// The line is closed, or the lock is shut.
    Closed,
    /// The node has already requested the line, or the thread already holds the lock. Nothing changed.
    Misuse,
}

impl fmt::Display for Stopped {
    fn fmt(&self, f: &mut fmt::Formatter<'_>) -> fmt::Result {
        f.write_str(match self {
            Stopped::Closed => "the line is closed, or the lock shut",
            Stopped::Misuse => "the node waits or holds already, or the thread holds the lock",
        })
    }
}

impl std::error::Error for Stopped {}

/// The state of a node.
#[derive(Clone, Copy, Debug, PartialEq, Eq)]
pub enum State {
    /// There is no node.
    Empty,
    /// The node has made no request, or has released the line.
    Idle,
    /// The node has made a request by `prepend`, and must link it.
    Linking,
    /// The node's request waits.
    Queued,
    /// The node holds the line.
    Holding,
    /// The node has released a link line to which its successor had not linked itself.
    Left,
    /// The node's request was withdrawn.
    Rolled,
    /// The node was told that the line is closed.
    Shut,
}

#[repr(C)]
struct Handle {
    own: *mut c_void,
}

/// The bytes of a line.
#[derive(Clone, Copy, Debug, PartialEq, Eq)]
#[repr(C)]
pub struct Bytes(pub [u8; 64]);

unsafe extern "C" {
    fn qolb_open(kind: u32, label: u64, nodes: u64, lease: u64, opening: &Bytes, out: *mut Handle, handles: usize) -> u32;
    safe fn qolb_memory(kind: u32, nodes: u64) -> u64;
    fn qolb_enqolb(node: &mut Handle) -> u32;
    fn qolb_settle_node(node: &mut Handle) -> u32;
    fn qolb_poll(node: &mut Handle) -> u32;
    fn qolb_spin(node: &mut Handle, polls: u64) -> u32;
    fn qolb_acquire(node: &mut Handle) -> u32;
    fn qolb_acquire_within(node: &mut Handle, nanoseconds: u64) -> u32;
    fn qolb_withdraw(node: &mut Handle) -> u32;
    fn qolb_prepend(node: &mut Handle) -> u32;
    fn qolb_link(node: &mut Handle) -> u32;
    fn qolb_read(node: &mut Handle, out: *mut Bytes) -> u32;
    fn qolb_write(node: &mut Handle, mask: u64, bytes: *const Bytes) -> u32;
    fn qolb_read_lane(node: &mut Handle, lane: u64, out: &mut u64) -> u32;
    fn qolb_write_lane(node: &mut Handle, lane: u64, value: u64) -> u32;
    fn qolb_add_lane(node: &mut Handle, lane: u64, by: u64, was: &mut u64) -> u32;
    fn qolb_turns_left(node: &mut Handle) -> u64;
    fn qolb_deqolb(node: &mut Handle) -> u32;
    fn qolb_shut(node: &mut Handle) -> u32;
    fn qolb_node_free(node: &mut Handle) -> u32;
    fn qolb_number(node: &mut Handle) -> u64;
    fn qolb_label(node: &mut Handle) -> u64;
    fn qolb_state(node: &mut Handle) -> u32;
    safe fn qolb_version() -> u32;
    fn qolb_notify(node: &mut Handle, call: unsafe extern "C" fn(*mut c_void), arg: *mut c_void) -> u32;
    fn qolb_notify_fd(node: &mut Handle, fd: i32) -> u32;
    fn qolb_notify_off(node: &mut Handle) -> u32;
    safe fn qolb_notify_done();
    fn qolb_task_enter(task: *mut RawTask, lock: *mut RawLock, call: unsafe extern "C" fn(*mut c_void), arg: *mut c_void) -> u32;
    fn qolb_task_poll(task: *mut RawTask) -> u32;
    fn qolb_task_cancel(task: *mut RawTask) -> u32;
    fn qolb_task_leave(task: *mut RawTask) -> u32;
    fn qolb_task_shut(task: *mut RawTask) -> u32;
    fn qolb_lock_enter(lock: *mut RawLock) -> u32;
    fn qolb_lock_try(lock: *mut RawLock) -> u32;
    fn qolb_lock_enter_within(lock: *mut RawLock, nanoseconds: u64) -> u32;
    fn qolb_lock_leave(lock: *mut RawLock) -> u32;
    fn qolb_lock_shut(lock: *mut RawLock) -> u32;
    fn qolb_lock_destroy(lock: *mut RawLock) -> u32;
    fn qolb_lock_is_mine(lock: *const RawLock) -> std::ffi::c_int;
    fn qolb_lock_is_held(lock: *const RawLock) -> std::ffi::c_int;
    fn qolb_cond_wait(cond: *mut RawCond, lock: *mut RawLock) -> u32;
    fn qolb_cond_wait_within(cond: *mut RawCond, lock: *mut RawLock, nanoseconds: u64) -> u32;
    fn qolb_cond_signal(cond: *mut RawCond) -> u32;
    fn qolb_cond_broadcast(cond: *mut RawCond) -> u32;
}

/// Returns the version of the library: 10,000 times the major version, plus 100 times the minor version, plus the patch version.
pub fn version() -> u32 {
    qolb_version()
}

/// A node of a line. A node that is dropped withdraws its request, or releases the line if it holds it.
pub struct Node(UnsafeCell<Handle>);

// SAFETY: a handle may go to another thread (qolb_node(3), RULES FOR CALLERS). For the proved part this is proved, as `send` of `Handle` in
// crates/qolb_nodes. The C code around it keeps what it has of a node in the node's block. No call takes a `&Node`, so nothing is shared.
unsafe impl Send for Node {}

/// Opens a line and returns its nodes in order.
///
/// `lease` is the number of acquisitions after which the line closes; a line without a lease has no such limit. `label` is any number, which
/// [`Node::label`] returns.
///
/// # Errors
///
/// Returns the first that applies of `BadKind`, `BadNodes`, `BadLease` and `NoMemory`.
pub fn open(kind: Kind, label: u64, nodes: u64, lease: Option<u64>, opening: &Bytes) -> Result<Vec<Node>, Answer> {
    let mut handles: Vec<Handle> = (0..200).map(|_| Handle { own: null_mut() }).collect();
    // 2^64 - 1 means that there is no lease. As a lease it would never be used up.
    let lease = lease.unwrap_or(u64::MAX);
    // SAFETY: the pointer leads to this number of handles, which are all empty.
    let answer = unsafe { qolb_open(kind as u32, label, nodes, lease, opening, handles.as_mut_ptr(), handles.len()) };
    match told(answer) {
        Answer::Done => {
            handles.truncate(nodes as usize);
            Ok(handles.into_iter().map(|handle| Node(UnsafeCell::new(handle))).collect())
        }
        refused => Err(refused),
    }
}

/// Returns the bytes of heap memory that an open line of this kind and number of nodes keeps, as the library requests them from `malloc`.
///
/// Returns `None` if [`open`] would refuse the number of nodes. The `Vec` that [`open`] returns is not counted.
pub fn memory(kind: Kind, nodes: u64) -> Option<u64> {
    Some(qolb_memory(kind as u32, nodes)).filter(|bytes| *bytes != 0)
}

/// Shows the number of the node, the label of its line, and its state.
impl fmt::Debug for Node {
    fn fmt(&self, f: &mut fmt::Formatter<'_>) -> fmt::Result {
        // SAFETY: no call uses the handle now, because each call borrows the node until it returns. No other thread does, because a node is not `Sync`.
        let handle = unsafe { &mut *self.0.get() };
        let (number, label, state) = unsafe { (qolb_number(handle), qolb_label(handle), qolb_state(handle)) };
        f.debug_struct("Node").field("number", &number).field("label", &label).field("state", &state_told(state)).finish()
    }
}

// SAFETY of all calls: only this node has the handle, by `&mut self`, and the other references do not overlap it.
impl Node {
    /// Requests the line, and does not wait.
    ///
    /// Returns `Granted`, `Queued`, `Closed`, `Busy` (the last request is still in the queue), or `Misuse` (the node has already requested the line).
    #[must_use]
    pub fn enqolb(&mut self) -> Answer {
        told(unsafe { qolb_enqolb(self.0.get_mut()) })
    }

    /// Polls whether the node is busy, and makes no request.
    ///
    /// Returns `Done` (it is not busy), `Busy`, or `Misuse` (the node has already requested the line).
    #[must_use]
    pub fn settle(&mut self) -> Answer {
        told(unsafe { qolb_settle_node(self.0.get_mut()) })
    }

    /// Polls once whether the request is at its turn.
    ///
    /// Returns `Granted`, `Waiting`, `Closed`, or `Misuse` (no request waits).
    #[must_use]
    pub fn poll(&mut self) -> Answer {
        told(unsafe { qolb_poll(self.0.get_mut()) })
    }

    /// Polls at most `polls` times, with a short pause between two polls, until the request is at its turn.
    ///
    /// Returns `Granted`, `Waiting`, `Closed`, or `Misuse` (no request waits, or `polls` is 0). It does not sleep.
    #[must_use]
    pub fn spin(&mut self, polls: u64) -> Answer {
        told(unsafe { qolb_spin(self.0.get_mut(), polls) })
    }

    /// Withdraws the request, unless it is at its turn.
    ///
    /// Returns `Withdrawn`, `Granted` (it was at its turn), `Closed`, or `Misuse` (no request waits).
    #[must_use]
    pub fn withdraw(&mut self) -> Answer {
        told(unsafe { qolb_withdraw(self.0.get_mut()) })
    }

    /// Makes the first half of a request for a link line: takes a place in the queue.
    ///
    /// Returns `Granted`, `Linking` (call [`Node::link`]), `Closed`, `Busy`, or `Misuse` (also for a line of another kind).
    #[must_use]
    pub fn prepend(&mut self) -> Answer {
        told(unsafe { qolb_prepend(self.0.get_mut()) })
    }

    /// Makes the second half of a request for a link line: tells the predecessor which node is its successor.
    ///
    /// Returns `Granted`, `Queued`, `Closed`, or `Misuse` (the node is not in the state `Linking`).
    #[must_use]
    pub fn link(&mut self) -> Answer {
        told(unsafe { qolb_link(self.0.get_mut()) })
    }

    /// Returns the bytes of the line, or `None` if the node does not hold the line.
    pub fn read(&mut self) -> Option<Bytes> {
        let mut out = Bytes([0; 64]);
        match told(unsafe { qolb_read(self.0.get_mut(), &mut out) }) {
            Answer::Done => Some(out),
            _ => None,
        }
    }

    /// Writes byte k of `bytes` to the line if bit k of `mask` is set.
    ///
    /// Returns `Done`, or `Misuse` if the node does not hold the line.
    pub fn write(&mut self, mask: u64, bytes: &Bytes) -> Answer {
        told(unsafe { qolb_write(self.0.get_mut(), mask, bytes) })
    }

    /// Returns one lane of the line, or `None` if the node does not hold the line or `lane` is above 7.
    pub fn read_lane(&mut self, lane: u64) -> Option<u64> {
        let mut out = 0;
        match told(unsafe { qolb_read_lane(self.0.get_mut(), lane, &mut out) }) {
            Answer::Done => Some(out),
            _ => None,
        }
    }

    /// Writes one lane of the line.
    ///
    /// Returns `Done`, or `Misuse` if the node does not hold the line or `lane` is above 7.
    pub fn write_lane(&mut self, lane: u64, value: u64) -> Answer {
        told(unsafe { qolb_write_lane(self.0.get_mut(), lane, value) })
    }

    /// Adds `by` to one lane modulo 2^64, and returns the number that the lane had before.
    ///
    /// Returns `None` if the node does not hold the line or `lane` is above 7.
    pub fn add_lane(&mut self, lane: u64, by: u64) -> Option<u64> {
        let mut was = 0;
        match told(unsafe { qolb_add_lane(self.0.get_mut(), lane, by, &mut was) }) {
            Answer::Done => Some(was),
            _ => None,
        }
    }

    /// Releases the line, and hands it over to the oldest request.
    ///
    /// Returns `Done`, or `Misuse` if the node does not hold the line.
    pub fn deqolb(&mut self) -> Answer {
        told(unsafe { qolb_deqolb(self.0.get_mut()) })
    }

    /// Releases the line and closes it: no later request is served.
    ///
    /// Returns `Done`, or `Misuse` if the node does not hold the line.
    pub fn shut(&mut self) -> Answer {
        told(unsafe { qolb_shut(self.0.get_mut()) })
    }

    /// Returns the number of the node, from 1 on.
    pub fn number(&mut self) -> u64 {
        unsafe { qolb_number(self.0.get_mut()) }
    }

    /// Returns the state of the node after its last call.
    pub fn state(&mut self) -> State {
        state_told(unsafe { qolb_state(self.0.get_mut()) })
    }

    /// Returns the number of acquisitions that the lease still allows, the holder's own among them.
    ///
    /// Returns `u64::MAX` if the line has no lease, and 0 if the node does not hold the line.
    pub fn turns_left(&mut self) -> u64 {
        unsafe { qolb_turns_left(self.0.get_mut()) }
    }

    /// Returns the label of the node's line.
    pub fn label(&mut self) -> u64 {
        unsafe { qolb_label(self.0.get_mut()) }
    }

    /// Frees the node. A node that has requested the line is not freed but returned.
    pub fn free(mut self) -> Result<(), Node> {
        match told(unsafe { qolb_node_free(self.0.get_mut()) }) {
            Answer::Done => Ok(()),
            _ => Err(self),
        }
    }

    /// Requests the line, and waits until the node holds it, also while the node is busy.
    ///
    /// Returns `Granted`, `Closed`, or `Misuse` (the node has already requested the line).
    #[must_use]
    pub fn acquire(&mut self) -> Answer {
        told(unsafe { qolb_acquire(self.0.get_mut()) })
    }

    /// Requests the line, and withdraws the request if it is not granted at once.
    ///
    /// Returns `Granted`, `Busy`, `Closed`, or `Misuse` (the node has already requested the line).
    #[must_use]
    pub fn try_acquire(&mut self) -> Answer {
        match self.enqolb() {
            Answer::Queued => match self.withdraw() {
                Answer::Withdrawn => Answer::Busy,
                got => got,
            },
            got => got,
        }
    }

    /// Requests the line, and waits until the node holds it, but for at most `time`. Time in which the node is busy counts.
    ///
    /// Returns `Granted`, `TimedOut` (the request is withdrawn), `Closed`, or `Misuse` (the node has already requested the line). A request that waits is
    /// polled at least once.
    ///
    /// ```
    /// use qolb::{Answer, Bytes, Kind};
    /// use std::time::Duration;
    ///
    /// let mut nodes = qolb::open(Kind::DEFAULT, 1, 2, None, &Bytes([0; 64])).unwrap();
    /// let (first, second) = nodes.split_at_mut(1);
    /// assert_eq!(first[0].acquire(), Answer::Granted);
    /// assert_eq!(second[0].acquire_for(Duration::from_millis(1)), Answer::TimedOut);
    /// assert_eq!(first[0].deqolb(), Answer::Done);
    /// ```
    #[must_use]
    pub fn acquire_for(&mut self, time: Duration) -> Answer {
        told(unsafe { qolb_acquire_within(self.0.get_mut(), nanoseconds(time)) })
    }

    /// Waits until the node holds the line, and returns a guard that releases the line when it is dropped.
    ///
    /// # Errors
    ///
    /// Fails with [`Stopped::Closed`] if the line is closed, and with [`Stopped::Misuse`] if the node has already requested the line, as after a guard that was
    /// leaked.
    pub fn lock(&mut self) -> Result<Guard<'_>, Stopped> {
        match self.acquire() {
            Answer::Granted => Ok(Guard(self)),
            answer => Err(stopped(answer)),
        }
    }

    /// Returns a guard if the line is granted at once, and `None` otherwise.
    ///
    /// # Errors
    ///
    /// Fails with [`Stopped::Closed`] if the line is closed, and with [`Stopped::Misuse`] if the node has already requested the line.
    pub fn try_lock(&mut self) -> Result<Option<Guard<'_>>, Stopped> {
        match self.try_acquire() {
            Answer::Granted => Ok(Some(Guard(self))),
            Answer::Busy => Ok(None),
            answer => Err(stopped(answer)),
        }
    }

    /// Returns a guard if the line is granted within `time`, and `None` if the timeout expires.
    ///
    /// # Errors
    ///
    /// Fails with [`Stopped::Closed`] if the line is closed, and at once with [`Stopped::Misuse`] if the node has already requested the line.
    pub fn try_lock_for(&mut self, time: Duration) -> Result<Option<Guard<'_>>, Stopped> {
        match self.acquire_for(time) {
            Answer::Granted => Ok(Some(Guard(self))),
            Answer::TimedOut => Ok(None),
            answer => Err(stopped(answer)),
        }
    }

    /// Returns a guard if the line is granted before `end`, and `None` if the timeout expires.
    ///
    /// # Errors
    ///
    /// Fails with [`Stopped::Closed`] if the line is closed, and at once with [`Stopped::Misuse`] if the node has already requested the line.
    pub fn try_lock_until(&mut self, end: Instant) -> Result<Option<Guard<'_>>, Stopped> {
        self.try_lock_for(from_now_to(end))
    }
}

/// A guard of a line that a node holds.
///
/// A guard that is dropped releases the line, also while a panic unwinds the stack ([above](crate#a-panic-while-a-line-or-a-mutex-is-held)). It writes no
/// bytes by itself.
#[derive(Debug)]
#[must_use]
pub struct Guard<'a>(&'a mut Node);

impl Guard<'_> {
    /// Returns the bytes of the line.
    pub fn read(&mut self) -> Bytes {
        self.0.read().expect("a guard's node holds the line")
    }

    /// Writes byte k of `bytes` to the line if bit k of `mask` is set.
    pub fn write(&mut self, mask: u64, bytes: &Bytes) {
        assert_eq!(self.0.write(mask, bytes), Answer::Done);
    }

    /// Returns lane `k` of the line.
    ///
    /// # Panics
    ///
    /// Panics if `k` is above 7.
    pub fn lane(&mut self, k: u64) -> u64 {
        self.0.read_lane(k).expect("a line has eight lanes")
    }

    /// Writes lane `k` of the line.
    ///
    /// # Panics
    ///
    /// Panics if `k` is above 7.
    pub fn set_lane(&mut self, k: u64, value: u64) {
        assert_eq!(self.0.write_lane(k, value), Answer::Done, "a line has eight lanes");
    }

    /// Adds `by` to lane `k` of the line modulo 2^64, and returns the number that the lane had before.
    ///
    /// # Panics
    ///
    /// Panics if `k` is above 7.
    pub fn add_to_lane(&mut self, k: u64, by: u64) -> u64 {
        self.0.add_lane(k, by).expect("a line has eight lanes")
    }

    /// Returns the number of acquisitions that the lease still allows, this one among them, or `None` if the line has no lease.
    pub fn turns_left(&mut self) -> Option<u64> {
        Some(self.0.turns_left()).filter(|turns| *turns != u64::MAX)
    }

    /// Releases the line and closes it: no later request is served.
    pub fn shut(self) {
        // The drop of `self` follows, and finds nothing to release.
        self.0.shut();
    }
}

impl Drop for Guard<'_> {
    fn drop(&mut self) {
        self.0.deqolb();
    }
}

fn stopped(answer: Answer) -> Stopped {
    match answer {
        Answer::Closed => Stopped::Closed,
        _ => Stopped::Misuse,
    }
}

impl Drop for Node {
    /// Frees the node in whatever state it is. A call that this state does not allow is misuse and does nothing.
    fn drop(&mut self) {
        unsafe {
            qolb_link(self.0.get_mut());
            qolb_withdraw(self.0.get_mut());
            qolb_deqolb(self.0.get_mut());
            qolb_node_free(self.0.get_mut());
        }
    }
}

fn told(answer: u32) -> Answer {
    match answer {
        0 => Answer::Done,
        1 => Answer::Granted,
        2 => Answer::Queued,
        3 => Answer::Waiting,
        4 => Answer::Linking,
        5 => Answer::Withdrawn,
        6 => Answer::Closed,
        7 => Answer::Busy,
        9 => Answer::NoMemory,
        10 => Answer::BadNodes,
        11 => Answer::BadLease,
        12 => Answer::BadKind,
        13 => Answer::TooFew,
        14 => Answer::Occupied,
        15 => Answer::TimedOut,
        _ => Answer::Misuse,
    }
}

fn state_told(state: u32) -> State {
    match state {
        1 => State::Idle,
        2 => State::Linking,
        3 => State::Queued,
        4 => State::Holding,
        5 => State::Left,
        6 => State::Rolled,
        7 => State::Shut,
        _ => State::Empty,
    }
}

// ---- Locks ----

/// The bytes of a lock, which must not move once the lock has been used.
#[repr(C, align(16))]
struct RawLock {
    own: *mut c_void,
    limit: u64,
    more: [u64; 38],
}

#[repr(C)]
struct RawCond {
    own: *mut c_void,
}

fn nanoseconds(time: Duration) -> u64 {
    u64::try_from(time.as_nanos()).unwrap_or(u64::MAX)
}

/// Returns the time from now until `end`, or zero if `end` has passed.
fn from_now_to(end: Instant) -> Duration {
    end.saturating_duration_since(Instant::now())
}

/// A lock that protects no value by itself, like a `RawMutex` of `lock_api`. A [`Mutex`] consists of it and a value.
///
/// It can be made at compile time. From its first use on it is in a box, because a value in Rust may move and a lock must not. The thread that entered the
/// lock must leave it. If the lock is dropped while a thread holds it or waits for it, which a leaked guard can cause, its box is not freed.
pub struct RawQolb {
    boxed: AtomicPtr<RawLock>,
    limit: u16,
}

// SAFETY: the library lets any threads call for one lock at the same time, and only the library reads or changes its contents.
unsafe impl Sync for RawQolb {}
unsafe impl Send for RawQolb {}

impl RawQolb {
    /// Makes a strict lock, which is first come, first served.
    pub const fn new() -> RawQolb {
        RawQolb::with_barging(0)
    }

    /// Makes a lock with this barging limit, for threads that enter again and again. A lock with a limit of 0 or 1 is strict.
    ///
    /// A waiter with `p` threads before it is overtaken by at most `(p + 1) * (limit - 1)` barging threads, which enter without waiting in the queue.
    pub const fn with_barging(limit: u16) -> RawQolb {
        RawQolb { boxed: AtomicPtr::new(null_mut()), limit }
    }

    fn at(&self) -> *mut RawLock {
        let at = self.boxed.load(Ordering::Acquire);
        if at.is_null() { self.put_in_box() } else { at }
    }

    /// Puts the lock into a box. If several threads do so at the same time, all of them use the first box.
    #[cold]
    fn put_in_box(&self) -> *mut RawLock {
        let made = Box::into_raw(Box::new(RawLock { own: null_mut(), limit: self.limit.into(), more: [0; 38] }));
        match self.boxed.compare_exchange(null_mut(), made, Ordering::AcqRel, Ordering::Acquire) {
            Ok(_) => made,
            Err(at) => {
                // SAFETY: no other thread has seen this box.
                drop(unsafe { Box::from_raw(made) });
                at
            }
        }
    }

    /// Enters the lock, waiting if necessary.
    ///
    /// Returns `Granted`, `Closed`, or `Misuse` (the calling thread already holds the lock).
    #[must_use]
    pub fn enter(&self) -> Answer {
        self.took(unsafe { qolb_lock_enter(self.at()) })
    }

    /// Enters the lock if this needs no waiting.
    ///
    /// Returns `Granted`, `Busy` (also if the calling thread itself holds the lock), or `Closed`.
    #[must_use]
    pub fn try_enter(&self) -> Answer {
        self.took(unsafe { qolb_lock_try(self.at()) })
    }

    /// Enters the lock, waiting if necessary, but for at most `time`.
    ///
    /// Returns `Granted`, `TimedOut`, `Closed`, or at once `Misuse` (the calling thread already holds the lock).
    #[must_use]
    pub fn enter_for(&self, time: Duration) -> Answer {
        self.took(unsafe { qolb_lock_enter_within(self.at(), nanoseconds(time)) })
    }

    /// Leaves the lock.
    ///
    /// Returns `Done`, or `Misuse` if the calling thread does not hold the lock.
    pub fn leave(&self) -> Answer {
        self.gives();
        told(unsafe { qolb_lock_leave(self.at()) })
    }

    /// Leaves the lock and shuts it, which takes the lock out of service.
    ///
    /// All threads and tasks that wait for the lock, and all later callers, are told that the lock is shut.
    ///
    /// Returns `Done`, or `Misuse` if the calling thread does not hold the lock.
    pub fn shut(&self) -> Answer {
        self.gives();
        told(unsafe { qolb_lock_shut(self.at()) })
    }

    /// Checks whether the calling thread holds the lock.
    pub fn is_mine(&self) -> bool {
        unsafe { qolb_lock_is_mine(self.at()) == 1 }
    }

    /// Checks whether a thread or a task holds the lock, or is about to hold it.
    ///
    /// The call reads the lock and does not try to enter it, so another call may have changed the answer when this one returns.
    pub fn is_held(&self) -> bool {
        let at = self.boxed.load(Ordering::Acquire);
        // SAFETY: the box lives as long as `self`.
        !at.is_null() && unsafe { qolb_lock_is_held(at) == 1 }
    }

    /// Tells the thread sanitizer that the thread may have entered, and converts the result.
    fn took(&self, answer: u32) -> Answer {
        let answer = told(answer);
        if let Answer::Granted | Answer::Closed = answer {
            tsan::acquire(self.at());
        }
        answer
    }

    /// Tells the thread sanitizer that the holder is about to leave.
    fn gives(&self) {
        if cfg!(qolb_tsan) && self.is_mine() {
            tsan::release(self.at());
        }
    }
}

/// What the thread sanitizer is told of a lock.
#[cfg(qolb_tsan)]
mod tsan {
    use super::RawLock;

    unsafe extern "C" {
        fn __tsan_acquire(at: *mut RawLock);
        fn __tsan_release(at: *mut RawLock);
    }

    pub fn acquire(lock: *mut RawLock) {
        unsafe { __tsan_acquire(lock) };
    }

    pub fn release(lock: *mut RawLock) {
        unsafe { __tsan_release(lock) };
    }
}

#[cfg(not(qolb_tsan))]
mod tsan {
    use super::RawLock;

    pub fn acquire(_lock: *mut RawLock) {}

    pub fn release(_lock: *mut RawLock) {}
}

impl Default for RawQolb {
    fn default() -> RawQolb {
        RawQolb::new()
    }
}

impl fmt::Debug for RawQolb {
    fn fmt(&self, f: &mut fmt::Formatter<'_>) -> fmt::Result {
        f.debug_struct("RawQolb").field("is_held", &self.is_held()).field("is_mine", &self.is_mine()).finish()
    }
}

impl Drop for RawQolb {
    fn drop(&mut self) {
        let at = *self.boxed.get_mut();
        if !at.is_null() && told(unsafe { qolb_lock_destroy(at) }) == Answer::Done {
            // SAFETY: the pointer comes from a box, and the lock is destroyed, so nobody uses it any more.
            drop(unsafe { Box::from_raw(at) });
        }
    }
}

/// Returns whether the lock was entered. If there is no memory, the process ends, as for any failed allocation.
fn entered(answer: Answer) -> Result<bool, Stopped> {
    match answer {
        Answer::Granted => Ok(true),
        Answer::Busy | Answer::TimedOut => Ok(false),
        Answer::NoMemory => no_memory(),
        answer => Err(stopped(answer)),
    }
}

fn no_memory() -> ! {
    std::alloc::handle_alloc_error(std::alloc::Layout::new::<[Handle; 200]>())
}

/// A mutex for a value of any size, strict ([`Mutex::new`]) or barging ([`Mutex::with_barging`]).
///
/// A mutex is never poisoned: a panic while it is held releases it, and the writes that the holder has made stay. A thread that locks a mutex which it
/// already holds gets [`Stopped::Misuse`], and still holds the mutex. If a task of this thread holds the mutex, the thread waits, and waits for ever if it
/// would have to drop the guard of the task.
///
/// ```
/// use qolb::{Mutex, Stopped};
/// use std::time::Duration;
///
/// struct Page {
///     visits: u64,
/// }
///
/// fn main() -> Result<(), Stopped> {
///     let page = Mutex::new(Page { visits: 0 });
///     page.lock()?.visits += 1;
///     if let Some(mut page) = page.try_lock_for(Duration::from_millis(1))? {
///         page.visits += 1;
///     }
///     assert_eq!(page.into_inner().visits, 2);
///     Ok(())
/// }
/// ```
pub struct Mutex<T: ?Sized> {
    raw: RawQolb,
    value: UnsafeCell<T>,
}

// SAFETY: only one thread at a time can use the value.
unsafe impl<T: ?Sized + Send> Send for Mutex<T> {}
unsafe impl<T: ?Sized + Send> Sync for Mutex<T> {}

impl<T> Mutex<T> {
    /// Makes a strict mutex, which is first come, first served.
    pub const fn new(value: T) -> Mutex<T> {
        Mutex::with_barging(value, 0)
    }

    /// Makes a mutex with this barging limit, for threads that lock it again and again ([`RawQolb::with_barging`]).
    ///
    /// A mutex with a limit of 0 or 1 is strict.
    ///
    /// ```
    /// static VISITS: qolb::Mutex<u64> = qolb::Mutex::with_barging(0, 1024);
    /// *VISITS.lock().unwrap() += 1;
    /// assert_eq!(*VISITS.lock().unwrap(), 1);
    /// ```
    pub const fn with_barging(value: T, limit: u16) -> Mutex<T> {
        Mutex { raw: RawQolb::with_barging(limit), value: UnsafeCell::new(value) }
    }

    /// Returns the value of a mutex that is no longer used.
    pub fn into_inner(self) -> T {
        self.value.into_inner()
    }
}

impl<T: ?Sized> Mutex<T> {
    /// Waits until the calling thread holds the mutex, and returns a guard that releases it when it is dropped.
    ///
    /// The first call on a mutex puts its lock into a box, and ends the process if there is no memory for that.
    ///
    /// # Errors
    ///
    /// Fails with [`Stopped::Misuse`] if the calling thread already holds the mutex, and with [`Stopped::Closed`] once the mutex is shut.
    pub fn lock(&self) -> Result<MutexGuard<'_, T>, Stopped> {
        entered(self.raw.enter()).map(|_| self.guard())
    }

    /// Returns a guard if the mutex is free, and `None` if it is held, also if the calling thread itself holds the mutex.
    ///
    /// # Errors
    ///
    /// Fails with [`Stopped::Closed`] once the mutex is shut.
    pub fn try_lock(&self) -> Result<Option<MutexGuard<'_, T>>, Stopped> {
        entered(self.raw.try_enter()).map(|had| had.then(|| self.guard()))
    }

    /// Returns a guard if the mutex is granted within `time`, and `None` if the timeout expires.
    ///
    /// # Errors
    ///
    /// Fails at once with [`Stopped::Misuse`] if the calling thread already holds the mutex, and with [`Stopped::Closed`] once the mutex is shut.
    pub fn try_lock_for(&self, time: Duration) -> Result<Option<MutexGuard<'_, T>>, Stopped> {
        entered(self.raw.enter_for(time)).map(|had| had.then(|| self.guard()))
    }

    /// Returns a guard if the mutex is granted before `end`, and `None` if the timeout expires.
    ///
    /// # Errors
    ///
    /// Fails at once with [`Stopped::Misuse`] if the calling thread already holds the mutex, and with [`Stopped::Closed`] once the mutex is shut.
    pub fn try_lock_until(&self, end: Instant) -> Result<Option<MutexGuard<'_, T>>, Stopped> {
        self.try_lock_for(from_now_to(end))
    }

    /// Returns the value without locking, because `&mut self` shows that no other thread uses the mutex.
    pub fn get_mut(&mut self) -> &mut T {
        self.value.get_mut()
    }

    /// Returns the lock.
    ///
    /// # Safety
    ///
    /// The caller must neither leave nor shut the lock while a guard of this mutex exists.
    pub unsafe fn raw(&self) -> &RawQolb {
        &self.raw
    }

    fn guard(&self) -> MutexGuard<'_, T> {
        MutexGuard { mutex: self, stays: PhantomData }
    }
}

impl<T: Default> Default for Mutex<T> {
    fn default() -> Mutex<T> {
        Mutex::new(T::default())
    }
}

impl<T> From<T> for Mutex<T> {
    fn from(value: T) -> Mutex<T> {
        Mutex::new(value)
    }
}

/// Shows the value if the mutex is free, `<locked>` if the mutex is held, and `<closed>` if it was shut. While `Debug` shows the value, it holds the mutex.
/// It does not wait for a mutex that is held.
impl<T: ?Sized + fmt::Debug> fmt::Debug for Mutex<T> {
    fn fmt(&self, f: &mut fmt::Formatter<'_>) -> fmt::Result {
        shown(f, "Mutex", self.try_lock())
    }
}

/// A panic while the mutex is held releases it, and the holder's writes stay ([above](crate#a-panic-while-a-line-or-a-mutex-is-held)).
impl<T: ?Sized> UnwindSafe for Mutex<T> {}
impl<T: ?Sized> RefUnwindSafe for Mutex<T> {}

fn shown<G: Deref<Target: fmt::Debug>>(f: &mut fmt::Formatter<'_>, name: &str, got: Result<Option<G>, Stopped>) -> fmt::Result {
    let mut shown = f.debug_struct(name);
    match got {
        Ok(Some(held)) => shown.field("data", &&*held),
        Ok(None) => shown.field("data", &format_args!("<locked>")),
        Err(_) => shown.field("data", &format_args!("<closed>")),
    };
    shown.finish()
}

/// A guard of a mutex, which releases the mutex when it is dropped. It stays with its thread, because this thread must leave the lock.
#[must_use]
pub struct MutexGuard<'a, T: ?Sized> {
    mutex: &'a Mutex<T>,
    stays: PhantomData<*mut ()>,
}

// SAFETY: a shared guard gives only shared values.
unsafe impl<T: ?Sized + Sync> Sync for MutexGuard<'_, T> {}

impl<'a, T: ?Sized> MutexGuard<'a, T> {
    /// Releases the mutex and shuts it, which takes the mutex out of service.
    ///
    /// All threads and tasks that wait for the mutex, all threads that wait at a [`Condition`] with the mutex, and all later callers are told
    /// [`Stopped::Closed`].
    pub fn shut(self) {
        // The drop of `self` follows, and finds nothing to leave.
        self.mutex.raw.shut();
    }

    /// Returns a guard of a part of the value: `MutexGuard::map(guard, |it| &mut it.part)`. A thread cannot wait at a condition with such a guard.
    pub fn map<U: ?Sized>(mut guard: Self, part: impl FnOnce(&mut T) -> &mut U) -> MappedMutexGuard<'a, U> {
        let value = NonNull::from(part(&mut guard));
        let raw = &guard.mutex.raw;
        std::mem::forget(guard);
        MappedMutexGuard { raw, value, borrows: PhantomData }
    }
}

impl<T: ?Sized + fmt::Debug> fmt::Debug for MutexGuard<'_, T> {
    fn fmt(&self, f: &mut fmt::Formatter<'_>) -> fmt::Result {
        (**self).fmt(f)
    }
}

impl<T: ?Sized + fmt::Display> fmt::Display for MutexGuard<'_, T> {
    fn fmt(&self, f: &mut fmt::Formatter<'_>) -> fmt::Result {
        (**self).fmt(f)
    }
}

// SAFETY of both: the guard's thread holds the lock.
impl<T: ?Sized> Deref for MutexGuard<'_, T> {
    type Target = T;
    fn deref(&self) -> &T {
        unsafe { &*self.mutex.value.get() }
    }
}

impl<T: ?Sized> DerefMut for MutexGuard<'_, T> {
    fn deref_mut(&mut self) -> &mut T {
        unsafe { &mut *self.mutex.value.get() }
    }
}

impl<T: ?Sized> Drop for MutexGuard<'_, T> {
    fn drop(&mut self) {
        self.mutex.raw.leave();
    }
}

/// A guard of a part of a mutex's value (`MutexGuard::map`), which releases the mutex when it is dropped. It stays with its thread.
#[must_use]
pub struct MappedMutexGuard<'a, T: ?Sized> {
    raw: &'a RawQolb,
    value: NonNull<T>,
    borrows: PhantomData<&'a mut T>,
}

// SAFETY: a shared guard gives only shared values.
unsafe impl<T: ?Sized + Sync> Sync for MappedMutexGuard<'_, T> {}

impl<'a, T: ?Sized> MappedMutexGuard<'a, T> {
    /// Returns a guard of a part of this guard's part.
    pub fn map<U: ?Sized>(mut guard: Self, part: impl FnOnce(&mut T) -> &mut U) -> MappedMutexGuard<'a, U> {
        let value = NonNull::from(part(&mut guard));
        let raw = guard.raw;
        std::mem::forget(guard);
        MappedMutexGuard { raw, value, borrows: PhantomData }
    }
}

// SAFETY of both: the guard's thread holds the lock, and nothing else refers to the part.
impl<T: ?Sized> Deref for MappedMutexGuard<'_, T> {
    type Target = T;
    fn deref(&self) -> &T {
        unsafe { self.value.as_ref() }
    }
}

impl<T: ?Sized> DerefMut for MappedMutexGuard<'_, T> {
    fn deref_mut(&mut self) -> &mut T {
        unsafe { self.value.as_mut() }
    }
}

impl<T: ?Sized> Drop for MappedMutexGuard<'_, T> {
    fn drop(&mut self) {
        self.raw.leave();
    }
}

impl<T: ?Sized + fmt::Debug> fmt::Debug for MappedMutexGuard<'_, T> {
    fn fmt(&self, f: &mut fmt::Formatter<'_>) -> fmt::Result {
        (**self).fmt(f)
    }
}

impl<T: ?Sized + fmt::Display> fmt::Display for MappedMutexGuard<'_, T> {
    fn fmt(&self, f: &mut fmt::Formatter<'_>) -> fmt::Result {
        (**self).fmt(f)
    }
}

/// Tells whether a wait at a condition timed out, like the type of `std::sync::Condvar` that has the same name.
#[derive(Clone, Copy, Debug, PartialEq, Eq)]
pub struct WaitTimeoutResult(bool);

impl WaitTimeoutResult {
    /// Returns `true` if no signal came in time.
    #[must_use]
    pub fn timed_out(&self) -> bool {
        self.0
    }
}

/// A condition at which holders of a [`Mutex`] wait, like a `std::sync::Condvar`.
///
/// There are no spurious wake-ups, and the thread that has waited longest is woken first. Nevertheless, a woken thread must test again what it waited for,
/// because another thread may lock the mutex, and change the value, before the woken thread locks the mutex. [`Condition::wait_while`] and
/// [`Condition::wait_timeout_while`] test it again. A condition may be used with several mutexes.
///
/// ```
/// use qolb::{Condition, Mutex, Stopped};
/// use std::thread;
///
/// static IS_READY: Mutex<bool> = Mutex::new(false);
/// static CHANGED: Condition = Condition::new();
///
/// fn main() -> Result<(), Stopped> {
///     let other = thread::spawn(|| CHANGED.wait_while(IS_READY.lock()?, |is_ready| !*is_ready).map(|guard| *guard));
///     *IS_READY.lock()? = true;
///     CHANGED.notify_one();
///     assert_eq!(other.join().unwrap(), Ok(true));
///     Ok(())
/// }
/// ```
pub struct Condition(UnsafeCell<RawCond>);

// SAFETY: as for `RawQolb`.
unsafe impl Sync for Condition {}
unsafe impl Send for Condition {}

impl UnwindSafe for Condition {}
impl RefUnwindSafe for Condition {}

impl fmt::Debug for Condition {
    fn fmt(&self, f: &mut fmt::Formatter<'_>) -> fmt::Result {
        f.debug_struct("Condition").finish_non_exhaustive()
    }
}

impl Default for Condition {
    fn default() -> Condition {
        Condition::new()
    }
}

impl Condition {
    /// Makes a condition, at which no thread waits.
    pub const fn new() -> Condition {
        Condition(UnsafeCell::new(RawCond { own: null_mut() }))
    }

    /// Wakes the thread that has waited longest, if a thread waits. The caller need not hold the mutex.
    pub fn notify_one(&self) {
        unsafe { qolb_cond_signal(self.0.get()) };
    }

    /// Wakes all threads that wait. The caller need not hold the mutex.
    pub fn notify_all(&self) {
        unsafe { qolb_cond_broadcast(self.0.get()) };
    }

    /// Releases the mutex, waits for a signal, and locks the mutex again.
    ///
    /// # Errors
    ///
    /// Fails with [`Stopped::Closed`] if the mutex was shut meanwhile.
    pub fn wait<'a, T: ?Sized>(&self, guard: MutexGuard<'a, T>) -> Result<MutexGuard<'a, T>, Stopped> {
        self.waited(guard, None).map(|(guard, _)| guard)
    }

    /// Waits for a signal for at most `time`, and returns whether a signal came.
    ///
    /// The timeout limits only the wait for the signal. After that, the thread locks the mutex again, however long it has to wait for the mutex.
    ///
    /// # Errors
    ///
    /// Fails with [`Stopped::Closed`] if the mutex was shut meanwhile.
    pub fn wait_for<'a, T: ?Sized>(&self, guard: MutexGuard<'a, T>, time: Duration) -> Result<(MutexGuard<'a, T>, bool), Stopped> {
        self.waited(guard, Some(time))
    }

    /// Waits as [`Condition::wait_for`] does, and returns the same as the call of `std::sync::Condvar`.
    ///
    /// # Errors
    ///
    /// Fails with [`Stopped::Closed`] if the mutex was shut meanwhile.
    pub fn wait_timeout<'a, T: ?Sized>(&self, guard: MutexGuard<'a, T>, time: Duration) -> Result<(MutexGuard<'a, T>, WaitTimeoutResult), Stopped> {
        self.wait_for(guard, time).map(|(guard, told)| (guard, WaitTimeoutResult(!told)))
    }

    /// Waits until `is_so` returns `false` for the value.
    ///
    /// # Errors
    ///
    /// Fails with [`Stopped::Closed`] if the mutex was shut meanwhile.
    pub fn wait_while<'a, T: ?Sized>(&self, mut guard: MutexGuard<'a, T>, mut is_so: impl FnMut(&mut T) -> bool) -> Result<MutexGuard<'a, T>, Stopped> {
        while is_so(&mut guard) {
            guard = self.wait(guard)?;
        }
        Ok(guard)
    }

    /// Waits for at most `time` until `is_so` returns `false` for the value. The wait has timed out if `is_so` still returns `true` at the end.
    ///
    /// # Errors
    ///
    /// Fails with [`Stopped::Closed`] if the mutex was shut meanwhile.
    pub fn wait_timeout_while<'a, T: ?Sized>(
        &self,
        mut guard: MutexGuard<'a, T>,
        time: Duration,
        mut is_so: impl FnMut(&mut T) -> bool,
    ) -> Result<(MutexGuard<'a, T>, WaitTimeoutResult), Stopped> {
        let since = Instant::now();
        while is_so(&mut guard) {
            let Some(left) = time.checked_sub(since.elapsed()) else {
                return Ok((guard, WaitTimeoutResult(true)));
            };
            guard = self.wait_for(guard, left)?.0;
        }
        Ok((guard, WaitTimeoutResult(false)))
    }

    fn waited<'a, T: ?Sized>(&self, guard: MutexGuard<'a, T>, time: Option<Duration>) -> Result<(MutexGuard<'a, T>, bool), Stopped> {
        let mutex = guard.mutex;
        std::mem::forget(guard);
        let (cond, lock) = (self.0.get(), mutex.raw.at());
        mutex.raw.gives();
        let answer = match time {
            None => unsafe { qolb_cond_wait(cond, lock) },
            Some(time) => unsafe { qolb_cond_wait_within(cond, lock, nanoseconds(time)) },
        };
        tsan::acquire(lock);
        match told(answer) {
            Answer::Granted => Ok((mutex.guard(), true)),
            Answer::TimedOut => Ok((mutex.guard(), false)),
            answer => Err(stopped(answer)),
        }
    }
}

/// Another name of [`Mutex`].
pub type Lock<T> = Mutex<T>;

// ---- Tasks ----

/// The waker of a task that waits. It must not move, because the notification has a pointer to it.
#[derive(Default)]
struct Slot(std::sync::Mutex<Option<Waker>>, PhantomPinned);

impl Slot {
    fn lock(&self) -> std::sync::MutexGuard<'_, Option<Waker>> {
        self.0.lock().unwrap_or_else(PoisonError::into_inner)
    }

    /// Stores the waker. To clone or drop a waker runs code of its owner, which may wake this very task, so neither happens while the slot is locked.
    fn set(&self, waker: &Waker) {
        let is_set = self.lock().as_ref().is_some_and(|it| it.will_wake(waker));
        if !is_set {
            let new = waker.clone();
            let old = self.lock().replace(new);
            drop(old);
        }
    }

    fn arg(&self) -> *mut c_void {
        (&raw const *self).cast_mut().cast()
    }
}

/// The function of a notification: takes the waker out of the slot, and then wakes. It does not use the slot while it wakes, so the task may be dropped
/// meanwhile, also under a lock that the waker takes.
unsafe extern "C" fn wake(slot: *mut c_void) {
    // SAFETY: the slot exists until `qolb_notify_off` or `qolb_task_cancel` has returned, and these wait for `qolb_notify_done`.
    let waker = unsafe { &*slot.cast::<Slot>() }.lock().take();
    qolb_notify_done();
    if let Some(waker) = waker {
        waker.wake();
    }
}

impl Node {
    /// Returns a future that requests the line when it is first polled, and is ready when the line is granted or closed.
    ///
    /// A future that is dropped before it is ready withdraws the request. While the node is busy, the future wakes its task again and again. A node is busy
    /// after a request that was withdrawn, and in a link line also for a moment after it has released the line. Therefore let tasks that often give up use
    /// a [`Mutex`].
    pub fn turn(&mut self) -> TurnFuture<'_> {
        TurnFuture { node: Some(self), waits: false, slot: Slot::default() }
    }

    /// Requests a notification that adds 1 to an eventfd when the node's request is at its turn.
    ///
    /// Returns `Waiting` if the notification will be made, and what `poll` returns otherwise.
    ///
    /// # Safety
    ///
    /// The caller must keep the descriptor open until `notify_off` has returned, or until the node has been freed.
    #[must_use]
    pub unsafe fn notify_fd(&mut self, fd: BorrowedFd<'_>) -> Answer {
        told(unsafe { qolb_notify_fd(self.0.get_mut(), fd.as_raw_fd()) })
    }

    /// Takes back the notification that `notify_fd` requested.
    ///
    /// Returns `Withdrawn`, or `Done` if none was requested or it has been made.
    pub fn notify_off(&mut self) -> Answer {
        told(unsafe { qolb_notify_off(self.0.get_mut()) })
    }
}

/// The future that [`Node::turn`] returns.
#[must_use = "a future does nothing unless it is awaited"]
pub struct TurnFuture<'a> {
    node: Option<&'a mut Node>,
    waits: bool,
    slot: Slot,
}

impl<'a> Future for TurnFuture<'a> {
    type Output = Result<Guard<'a>, Stopped>;

    fn poll(self: Pin<&mut Self>, context: &mut Context<'_>) -> Poll<Self::Output> {
        // SAFETY: this function does not move the slot.
        let this = unsafe { self.get_unchecked_mut() };
        let node = this.node.as_mut().expect("a future that was ready is not polled again");
        let mut answer = if this.waits { Answer::Queued } else { node.enqolb() };
        if answer == Answer::Queued {
            this.waits = true;
            this.slot.set(context.waker());
            // SAFETY: the slot stays in its place until this future is dropped, and the drop takes the notification back.
            answer = told(unsafe { qolb_notify(node.0.get_mut(), wake, this.slot.arg()) });
        }
        match answer {
            Answer::Waiting => return Poll::Pending,
            Answer::Busy => {
                context.waker().wake_by_ref();
                return Poll::Pending;
            }
            _ => this.waits = false,
        }
        let node = this.node.take().expect("it was there");
        Poll::Ready(if answer == Answer::Granted { Ok(Guard(node)) } else { Err(stopped(answer)) })
    }
}

impl Drop for TurnFuture<'_> {
    fn drop(&mut self) {
        if let (true, Some(node)) = (self.waits, self.node.as_mut()) {
            node.notify_off();
            if node.withdraw() == Answer::Granted {
                node.deqolb();
            }
        }
    }
}

#[repr(C)]
struct RawTask([*mut c_void; 16]);

impl RawTask {
    const fn new() -> RawTask {
        RawTask([null_mut(); 16])
    }
}

/// The task by which a future enters a lock.
struct Entering<'a> {
    raw: &'a RawQolb,
    task: RawTask,
    waits: bool,
    slot: Slot,
}

impl<'a> Entering<'a> {
    fn new(raw: &'a RawQolb) -> Entering<'a> {
        Entering { raw, task: RawTask::new(), waits: false, slot: Slot::default() }
    }

    /// Enters the lock, or polls, and is ready with the task once the task holds the lock. This task may be moved.
    ///
    /// # Safety
    ///
    /// The caller must not move `self` from the first call until it is ready or dropped.
    unsafe fn poll(&mut self, context: &mut Context<'_>) -> Poll<Result<RawTask, Stopped>> {
        self.slot.set(context.waker());
        // SAFETY: the task and the slot stay in their places while the task waits.
        let answer = unsafe {
            match self.waits {
                true => qolb_task_poll(&raw mut self.task),
                false => qolb_task_enter(&raw mut self.task, self.raw.at(), wake, self.slot.arg()),
            }
        };
        let answer = self.raw.took(answer);
        self.waits = answer == Answer::Waiting;
        match answer {
            Answer::Waiting => Poll::Pending,
            Answer::NoMemory if is_memory_left() => {
                context.waker().wake_by_ref();
                Poll::Pending
            }
            answer => Poll::Ready(entered(answer).map(|_| std::mem::replace(&mut self.task, RawTask::new()))),
        }
    }
}

/// Checks whether memory can be allocated. If so, a task that was answered `NoMemory` has found more than 12,280 open requests.
fn is_memory_left() -> bool {
    Vec::<Handle>::new().try_reserve(1).is_ok()
}

impl Drop for Entering<'_> {
    fn drop(&mut self) {
        if self.waits {
            // SAFETY: the task waits, and was not moved.
            unsafe { qolb_task_cancel(&raw mut self.task) };
        }
    }
}

/// Leaves the lock for a task that holds it, and shuts it if `shuts`.
fn leave_by(raw: &RawQolb, task: &mut RawTask, shuts: bool) {
    tsan::release(raw.at());
    // SAFETY: the task holds the lock.
    unsafe {
        match shuts {
            true => qolb_task_shut(task),
            false => qolb_task_leave(task),
        }
    };
}

impl<T: ?Sized> Mutex<T> {
    /// Returns a future that requests the mutex when it is first polled, and is ready when the mutex is granted or shut.
    ///
    /// A future that is dropped before it is ready withdraws its request. A strict mutex serves tasks and threads in the order in which they asked. While more
    /// than 12,280 requests are open, a task is in no queue: it wakes itself, and asks again whenever it is polled. Any thread may drop the guard.
    pub fn lock_async(&self) -> MutexFuture<'_, T> {
        MutexFuture { mutex: self, entering: Some(Entering::new(&self.raw)) }
    }
}

/// The future that [`Mutex::lock_async`] returns.
#[must_use = "a future does nothing unless it is awaited"]
pub struct MutexFuture<'a, T: ?Sized> {
    mutex: &'a Mutex<T>,
    entering: Option<Entering<'a>>,
}

// SAFETY: a task belongs to no thread, and only `&mut self` uses it. The guard that the future returns gives access to the value.
unsafe impl<T: ?Sized + Send> Send for MutexFuture<'_, T> {}
unsafe impl<T: ?Sized + Send> Sync for MutexFuture<'_, T> {}

impl<'a, T: ?Sized> Future for MutexFuture<'a, T> {
    type Output = Result<MutexTaskGuard<'a, T>, Stopped>;

    fn poll(self: Pin<&mut Self>, context: &mut Context<'_>) -> Poll<Self::Output> {
        // SAFETY: `entering` is not moved before it is ready.
        let this = unsafe { self.get_unchecked_mut() };
        let entering = this.entering.as_mut().expect("a future that was ready is not polled again");
        let Poll::Ready(got) = (unsafe { entering.poll(context) }) else { return Poll::Pending };
        // The guard is made first, because `entering` drops a waker, which may panic.
        let got = got.map(|task| MutexTaskGuard { mutex: this.mutex, task });
        this.entering = None;
        Poll::Ready(got)
    }
}

/// A guard of a mutex that a task holds, which releases the mutex when it is dropped. Any thread may drop it.
#[must_use]
pub struct MutexTaskGuard<'a, T: ?Sized> {
    mutex: &'a Mutex<T>,
    task: RawTask,
}

// SAFETY: a task belongs to no thread, so its guard may go to another thread if the value may. A shared guard gives only shared access to the value.
unsafe impl<T: ?Sized + Send> Send for MutexTaskGuard<'_, T> {}
unsafe impl<T: ?Sized + Sync> Sync for MutexTaskGuard<'_, T> {}

impl<T: ?Sized> MutexTaskGuard<'_, T> {
    /// Releases the mutex and shuts it, which takes the mutex out of service, as [`MutexGuard::shut`] does.
    pub fn shut(mut self) {
        // The drop of `self` follows, and finds nothing to leave.
        leave_by(&self.mutex.raw, &mut self.task, true);
    }
}

// SAFETY of both: the task holds the lock.
impl<T: ?Sized> Deref for MutexTaskGuard<'_, T> {
    type Target = T;
    fn deref(&self) -> &T {
        unsafe { &*self.mutex.value.get() }
    }
}

impl<T: ?Sized> DerefMut for MutexTaskGuard<'_, T> {
    fn deref_mut(&mut self) -> &mut T {
        unsafe { &mut *self.mutex.value.get() }
    }
}

impl<T: ?Sized> Drop for MutexTaskGuard<'_, T> {
    fn drop(&mut self) {
        leave_by(&self.mutex.raw, &mut self.task, false);
    }
}

#[cfg(feature = "lock_api")]
mod api {
    use super::{Answer, RawQolb};
    use lock_api::{GuardNoSend, RawMutex, RawMutexFair, RawMutexTimed};
    use std::io::Write;
    use std::time::{Duration, Instant};

    /// Ends the process if the lock was not granted. A panic would not do: a guard that `unlocked` or `bump` has released is used again when `lock` ends,
    /// even if it ends by a panic.
    fn surely_had(answer: Answer) {
        if answer != Answer::Granted {
            let why = if answer == Answer::Misuse { "this thread already holds it".into() } else { answer.to_string() };
            _ = writeln!(std::io::stderr(), "qolb: lock_api's lock is refused: {why}");
            std::process::abort();
        }
    }

    // SAFETY: only one thread at a time holds the lock. A `try_lock` of a shut lock returns false and does not panic, because `Debug` of a mutex calls it.
    unsafe impl RawMutex for RawQolb {
        const INIT: RawQolb = RawQolb::new();
        type GuardMarker = GuardNoSend;

        fn lock(&self) {
            surely_had(self.enter());
        }
        fn try_lock(&self) -> bool {
            self.try_enter() == Answer::Granted
        }
        unsafe fn unlock(&self) {
            self.leave();
        }
        fn is_locked(&self) -> bool {
            self.is_held()
        }
    }

    // SAFETY: every release is as fair as the lock is, strict or barging.
    unsafe impl RawMutexFair for RawQolb {
        unsafe fn unlock_fair(&self) {
            self.leave();
        }
    }

    // SAFETY: as for `RawMutex`.
    unsafe impl RawMutexTimed for RawQolb {
        type Duration = Duration;
        type Instant = Instant;

        fn try_lock_for(&self, timeout: Duration) -> bool {
            self.enter_for(timeout) == Answer::Granted
        }
        fn try_lock_until(&self, timeout: Instant) -> bool {
            self.enter_for(super::from_now_to(timeout)) == Answer::Granted
        }
    }
}
