//! Tests nodes in Rust: two threads add to one lane of a line, and a third node reads the sum. Prints only errors.
#[path = "../rust/qolb.rs"]
mod qolb;

use qolb::{Answer, Bytes, Kind, Node, State, Stopped};
use std::panic;
use std::thread;
use std::time::{Duration, Instant};

const ROUNDS: u64 = 20_000;

fn add(mut node: Node) -> Node {
    for _ in 0..ROUNDS {
        let mut turn = node.lock().unwrap();
        let count = turn.lane(5);
        turn.set_lane(5, count + 1);
    }
    node
}

fn count(kind: Kind) {
    let mut nodes = qolb::open(kind, 1, 3, Some(2 * ROUNDS + 1), &Bytes([0; 64])).unwrap();
    let mut last = nodes.pop().unwrap();
    let threads: Vec<_> = nodes.into_iter().map(|node| thread::spawn(move || add(node))).collect();
    let back: Vec<Node> = threads.into_iter().map(|thread| thread.join().unwrap()).collect();
    assert_eq!(last.acquire(), Answer::Granted);
    assert_eq!(last.turns_left(), 1);
    let bytes = last.read().unwrap();
    assert_eq!(u64::from_le_bytes(bytes.0[40..48].try_into().unwrap()), 2 * ROUNDS);
    assert_eq!(last.deqolb(), Answer::Done);
    for (k, mut node) in back.into_iter().enumerate() {
        assert_eq!(node.number(), k as u64 + 1);
        assert_eq!(node.acquire(), Answer::Closed, "the lease is used up");
        assert_eq!(node.lock().err(), Some(Stopped::Closed));
        assert_eq!(node.try_lock().err(), Some(Stopped::Closed));
        assert_eq!(node.try_lock_for(Duration::from_millis(1)).err(), Some(Stopped::Closed));
        assert_eq!(node.state(), State::Shut);
        assert_eq!(node.read(), None);
        assert_eq!(node.deqolb(), Answer::Misuse);
    }
}

/// Acquires the line in one of three ways. A node that gives up does not hold the line, also if it was granted at that moment: otherwise the line would stay
/// with it.
fn take(node: &mut Node, round: u64) {
    loop {
        let got = match round % 3 {
            0 => node.try_acquire(),
            1 => node.acquire_for(Duration::from_micros(1)),
            _ => node.acquire(),
        };
        match got {
            Answer::Granted => return,
            Answer::Busy | Answer::TimedOut => assert_ne!(node.state(), State::Holding, "{got:?}"),
            other => panic!("{other:?}"),
        }
    }
}

fn races(kind: Kind) {
    let nodes = qolb::open(kind, 1, 4, None, &Bytes([0; 64])).unwrap();
    let turns = |mut node: Node| {
        for round in 0..ROUNDS {
            take(&mut node, round);
            assert_eq!(node.deqolb(), Answer::Done);
        }
    };
    let threads: Vec<_> = nodes.into_iter().map(|node| thread::spawn(move || turns(node))).collect();
    for thread in threads {
        thread.join().unwrap();
    }
}

/// A holder that panics releases the line. Its writes stay, nothing is poisoned, and the next holder is granted the line.
fn panics_while_holding(kind: Kind) {
    let mut nodes = qolb::open(kind, 1, 3, None, &Bytes([0; 64])).unwrap();
    let mut first = nodes.remove(0);
    let by_guard = thread::spawn(move || {
        let mut turn = first.lock().unwrap();
        turn.set_lane(1, 5);
        panic!("a holder's panic");
    });
    assert!(by_guard.join().is_err());
    let mut second = nodes.remove(0);
    let by_node = thread::spawn(move || {
        assert_eq!(second.acquire(), Answer::Granted);
        panic!("a holder's panic, with no guard");
    });
    assert!(by_node.join().is_err());
    let mut turn = nodes[0].lock().unwrap();
    assert_eq!(turn.lane(1), 5);
    assert_eq!(turn.turns_left(), None);
}

/// Tests guards that wait for a while or not at all, and what freeing a node returns.
fn guards(kind: Kind) {
    let mut nodes = qolb::open(kind, 9, 2, None, &Bytes([7; 64])).unwrap();
    let mut b = nodes.pop().unwrap();
    let mut a = nodes.pop().unwrap();
    assert_eq!((a.label(), a.turns_left()), (9, 0));
    let mut turn = a.lock().unwrap();
    assert!(b.try_lock().unwrap().is_none());
    assert_eq!(b.state(), State::Rolled);
    let since = Instant::now();
    assert!(b.try_lock_for(Duration::from_millis(5)).unwrap().is_none());
    assert!(since.elapsed() >= Duration::from_millis(5));
    assert_eq!(turn.read(), Bytes([7; 64]));
    turn.write(1, &Bytes([1; 64]));
    drop(turn);
    assert_eq!(b.try_lock_for(Duration::from_secs(3600)).unwrap().unwrap().lane(0), 0x0707_0707_0707_0701);
    assert_eq!(b.acquire(), Answer::Granted);
    assert_eq!(b.lock().err(), Some(Stopped::Misuse));
    // A node that holds the line is not freed.
    let Err(mut b) = b.free() else { panic!("a holder was closed") };
    assert_eq!(b.deqolb(), Answer::Done);
    assert!(b.free().is_ok());
    a.lock().unwrap().shut();
    assert_eq!(a.state(), State::Shut);
    assert_eq!(a.try_acquire(), Answer::Closed);
}

/// A node that is dropped while it waits is withdrawn, also if it has not linked itself yet. A node that was granted the line meanwhile releases it.
fn waiter_is_dropped(kind: Kind) {
    let mut nodes = qolb::open(kind, 1, 4, None, &Bytes([0; 64])).unwrap();
    let mut last = nodes.pop().unwrap();
    let mut third = nodes.pop().unwrap();
    let mut second = nodes.pop().unwrap();
    let mut first = nodes.pop().unwrap();
    assert_eq!(first.acquire(), Answer::Granted);
    assert_eq!(second.enqolb(), Answer::Queued);
    if kind == Kind::Link {
        assert_eq!(third.prepend(), Answer::Linking);
    } else {
        assert_eq!(third.enqolb(), Answer::Queued);
    }
    drop(third);
    drop(second);
    assert_eq!(first.deqolb(), Answer::Done);
    assert_eq!(last.try_acquire(), Answer::Granted);
    assert_eq!(first.enqolb(), Answer::Queued);
    assert_eq!(last.deqolb(), Answer::Done);
    drop(first); // its turn has come, but it has not polled
    assert_eq!(last.try_acquire(), Answer::Granted);
}

unsafe extern "C" {
    safe fn alarm(seconds: u32) -> u32;
}

fn main() {
    alarm(300); // if a grant is lost, the thread that waits for it does not end
    assert_eq!(qolb::open(Kind::Ring, 1, 0, None, &Bytes([0; 64])).err(), Some(Answer::BadNodes));
    assert_eq!(qolb::open(Kind::Link, 1, 2, Some(0), &Bytes([0; 64])).err(), Some(Answer::BadLease));
    for kind in Kind::ALL {
        count(kind);
        races(kind);
    }
    // The expected panics print nothing.
    panic::set_hook(Box::new(|told| {
        if !told.to_string().contains("a holder's panic") {
            eprintln!("{told}");
        }
    }));
    for kind in Kind::ALL {
        panics_while_holding(kind);
        guards(kind);
        waiter_is_dropped(kind);
    }
    assert_eq!(qolb::version(), 30000);
}
