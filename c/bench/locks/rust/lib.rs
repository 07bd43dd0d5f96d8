//! The mutex of Rust's standard library, for peers.c. With the feature `parking_lot`, this file also has the mutex of the crate parking_lot. While a
//! thread holds the mutex, the guard is stored in a slot of the lock that belongs to this thread.
#![allow(non_upper_case_globals)]

use std::ffi::{c_char, c_int, c_void};
use std::ptr;

/// The same as `struct lock_type` of lock.h.
#[repr(C)]
pub struct LockType {
    name: *const c_char,
    open: Option<unsafe extern "C" fn(*mut c_void, *const *mut c_void, c_int)>,
    enter: Option<unsafe extern "C" fn(*mut c_void, *mut c_void)>,
    leave: Option<unsafe extern "C" fn(*mut c_void, *mut c_void)>,
    add: Option<unsafe extern "C" fn(*mut c_void, *mut c_void) -> u64>,
    close: Option<unsafe extern "C" fn(*mut c_void, *const *mut c_void, c_int)>,
}

unsafe impl Sync for LockType {}

/// The end of a table.
const NONE: LockType = LockType { name: ptr::null(), open: None, enter: None, leave: None, add: None, close: None };

macro_rules! lock_type {
    ($name:literal, $made:ident, $mutex:ty, $guard:ty, $lock:expr) => {{
        unsafe extern "C" fn open(lock: *mut c_void, _own: *const *mut c_void, _threads: c_int) {
            unsafe { lock.cast::<$mutex>().write(<$mutex>::new(())) }
        }
        unsafe extern "C" fn enter(lock: *mut c_void, own: *mut c_void) {
            let $made: &'static $mutex = unsafe { &*lock.cast() };
            unsafe { own.cast::<$guard>().write($lock) }
        }
        unsafe extern "C" fn leave(_lock: *mut c_void, own: *mut c_void) {
            drop(unsafe { own.cast::<$guard>().read() });
        }
        LockType { name: concat!($name, "\0").as_ptr().cast(), open: Some(open), enter: Some(enter), leave: Some(leave), add: None, close: None }
    }};
}

const STD: LockType = lock_type!("Rust std", mutex, std::sync::Mutex<()>, std::sync::MutexGuard<'static, ()>, mutex.lock().unwrap());
#[cfg(feature = "parking_lot")]
const PARKING_LOT: LockType = lock_type!("parking_lot", mutex, parking_lot::Mutex<()>, parking_lot::MutexGuard<'static, ()>, mutex.lock());

#[cfg(not(feature = "parking_lot"))]
#[no_mangle]
pub static rust_locks: [LockType; 2] = [STD, NONE];
#[cfg(feature = "parking_lot")]
#[no_mangle]
pub static rust_locks: [LockType; 3] = [PARKING_LOT, STD, NONE];
