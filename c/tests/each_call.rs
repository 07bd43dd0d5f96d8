//! Tests each call on a node in each state of the node, for every kind of line: the result, and the state after the call. It also tests the futures of a mutex
//! that is free, held or shut, the text form of nodes and results, and that a thread which is cancelled while it waits completes the wait. Prints only errors.
#[path = "../rust/qolb.rs"]
mod qolb;

use qolb::{Answer, Bytes, Guard, Kind, Mutex, Node, State, Stopped};
use std::error::Error;
use std::future::Future;
use std::io::{ErrorKind, Read};
use std::os::fd::AsFd;
use std::os::unix::net::UnixStream;
use std::os::unix::thread::JoinHandleExt;
use std::pin::pin;
use std::sync::mpsc;
use std::task::{Context, Poll, Waker};
use std::thread;
use std::time::{Duration, Instant};

const LABEL: u64 = 7;
const LEASE: u64 = 9;
const SHORT: Duration = Duration::from_micros(50);
/// The states of a node, in the order of the columns below. Only a link line has `Linking` and `Left`.
const STATES: [State; 7] = [State::Idle, State::Linking, State::Queued, State::Holding, State::Left, State::Rolled, State::Shut];

/// A line of three nodes. The second is `node`, in the wanted state. If its request waits or was withdrawn, the first node holds the line. If it has left, the
/// third node has not linked itself yet.
struct Line {
    node: Node,
    first: Node,
    third: Node,
}

impl Line {
    fn new(kind: Kind, state: State) -> Line {
        let mut nodes = qolb::open(kind, LABEL, 3, Some(LEASE), &Bytes([0; 64])).unwrap();
        let (mut third, mut node, mut first) = (nodes.pop().unwrap(), nodes.pop().unwrap(), nodes.pop().unwrap());
        match state {
            State::Empty | State::Idle => {}
            State::Linking => {
                assert_eq!(first.acquire(), Answer::Granted);
                assert_eq!(node.prepend(), Answer::Linking);
            }
            State::Queued => {
                assert_eq!(first.acquire(), Answer::Granted);
                assert_eq!(node.enqolb(), Answer::Queued);
            }
            State::Holding => assert_eq!(node.acquire(), Answer::Granted),
            State::Left => {
                assert_eq!(node.acquire(), Answer::Granted);
                assert_eq!(third.prepend(), Answer::Linking);
                assert_eq!(node.deqolb(), Answer::Done);
            }
            State::Rolled => {
                assert_eq!(first.acquire(), Answer::Granted);
                assert_eq!(node.enqolb(), Answer::Queued);
                assert_eq!(node.withdraw(), Answer::Withdrawn);
            }
            State::Shut => {
                assert_eq!(node.acquire(), Answer::Granted);
                assert_eq!(node.shut(), Answer::Done);
            }
        }
        assert_eq!(node.state(), state);
        Line { node, first, third }
    }

    /// Makes the call while another thread releases the line, so that a call without a timeout does not wait for ever.
    fn meanwhile<T>(&mut self, call: impl FnOnce(&mut Node) -> T) -> T {
        let Line { node, first, third } = self;
        thread::scope(|scope| {
            scope.spawn(move || {
                thread::sleep(Duration::from_millis(2));
                let _ = third.link();
                third.deqolb();
                first.deqolb();
            });
            call(node)
        })
    }
}

/// Returns as text what a call that makes a guard returned: whether there was a guard, or the error.
fn of_guard(told: Result<Option<Guard<'_>>, Stopped>) -> String {
    match told {
        Ok(Some(turn)) => format!("{turn:?}").contains("Holding").to_string(),
        Ok(None) => "None".to_string(),
        Err(stopped) => format!("{stopped:?}"),
    }
}

/// Polls a future once and drops it. Returns its outcome as text.
fn polled<T>(future: impl Future<Output = Result<T, Stopped>>) -> String {
    match pin!(future).poll(&mut Context::from_waker(Waker::noop())) {
        Poll::Ready(Ok(_)) => "Ready".to_string(),
        Poll::Ready(Err(stopped)) => format!("{stopped:?}"),
        Poll::Pending => "Pending".to_string(),
    }
}

/// Requests a notification by `end`, which must exist longer than the notification.
fn wants(node: &mut Node, end: &UnixStream) -> Answer {
    // SAFETY: each test takes the notification back, or frees the node, before it drops the end.
    unsafe { node.notify_fd(end.as_fd()) }
}

/// Requests a notification, and takes it back twice.
fn wants_and_wants_no_more(node: &mut Node) -> String {
    let (end, _other) = UnixStream::pair().unwrap();
    format!("{:?} {:?} {:?}", wants(node, &end), node.notify_off(), node.notify_off())
}

/// A call, its result in each state as `Debug` writes it, and the state after it.
type Row = (&'static str, fn(&mut Line) -> String, [&'static str; 7], [State; 7]);

fn told(answer: Answer) -> String {
    format!("{answer:?}")
}

use State::{Holding, Idle, Left, Linking, Queued, Rolled, Shut};

const STAYS: [State; 7] = STATES;
const NO: &str = "Misuse";
const NO_WISH: &str = "Misuse Done Done";

#[rustfmt::skip]
const ROWS: [Row; 31] = [
    ("enqolb", |l| told(l.node.enqolb()), ["Granted", NO, NO, NO, "Busy", "Busy", "Closed"], [Holding, Linking, Queued, Holding, Left, Rolled, Shut]),
    ("settle", |l| told(l.node.settle()), ["Done", NO, NO, NO, "Busy", "Busy", "Done"], STAYS),
    ("poll", |l| told(l.node.poll()), [NO, NO, "Waiting", NO, NO, NO, NO], STAYS),
    ("spin", |l| told(l.node.spin(3)), [NO, NO, "Waiting", NO, NO, NO, NO], STAYS),
    ("spin for no poll", |l| told(l.node.spin(0)), [NO; 7], STAYS),
    ("withdraw", |l| told(l.node.withdraw()), [NO, NO, "Withdrawn", NO, NO, NO, NO], [Idle, Linking, Rolled, Holding, Left, Rolled, Shut]),
    ("link", |l| told(l.node.link()), [NO, "Queued", NO, NO, NO, NO, NO], [Idle, Queued, Queued, Holding, Left, Rolled, Shut]),
    ("read", |l| l.node.read().is_some().to_string(), ["false", "false", "false", "true", "false", "false", "false"], STAYS),
    ("write", |l| told(l.node.write(1, &Bytes([1; 64]))), [NO, NO, NO, "Done", NO, NO, NO], STAYS),
    ("read_lane", |l| format!("{:?}", l.node.read_lane(7)), ["None", "None", "None", "Some(0)", "None", "None", "None"], STAYS),
    ("read_lane of none", |l| format!("{:?}", l.node.read_lane(8)), ["None"; 7], STAYS),
    ("write_lane", |l| told(l.node.write_lane(7, 1)), [NO, NO, NO, "Done", NO, NO, NO], STAYS),
    ("write_lane of none", |l| told(l.node.write_lane(8, 1)), [NO; 7], STAYS),
    ("add_lane", |l| format!("{:?}", l.node.add_lane(7, 1)), ["None", "None", "None", "Some(0)", "None", "None", "None"], STAYS),
    ("add_lane of none", |l| format!("{:?}", l.node.add_lane(8, 1)), ["None"; 7], STAYS),
    ("deqolb", |l| told(l.node.deqolb()), [NO, NO, NO, "Done", NO, NO, NO], [Idle, Linking, Queued, Idle, Left, Rolled, Shut]),
    ("shut", |l| told(l.node.shut()), [NO, NO, NO, "Done", NO, NO, NO], [Idle, Linking, Queued, Shut, Left, Rolled, Shut]),
    ("turns_left", |l| l.node.turns_left().to_string(), ["0", "0", "0", "9", "0", "0", "0"], STAYS),
    ("number", |l| l.node.number().to_string(), ["2"; 7], STAYS),
    ("label", |l| l.node.label().to_string(), ["7"; 7], STAYS),
    ("acquire", |l| l.meanwhile(|node| told(node.acquire())), ["Granted", NO, NO, NO, "Granted", "Granted", "Closed"], [Holding, Linking, Queued, Holding, Holding, Holding, Shut]),
    ("try_acquire", |l| told(l.node.try_acquire()), ["Granted", NO, NO, NO, "Busy", "Busy", "Closed"], [Holding, Linking, Queued, Holding, Left, Rolled, Shut]),
    ("acquire_for", |l| told(l.node.acquire_for(SHORT)), ["Granted", NO, NO, NO, "TimedOut", "TimedOut", "Closed"], [Holding, Linking, Queued, Holding, Left, Rolled, Shut]),
    ("lock", |l| l.meanwhile(|node| of_guard(node.lock().map(Some))), ["true", NO, NO, NO, "true", "true", "Closed"], [Idle, Linking, Queued, Holding, Idle, Idle, Shut]),
    ("try_lock", |l| of_guard(l.node.try_lock()), ["true", NO, NO, NO, "None", "None", "Closed"], [Idle, Linking, Queued, Holding, Left, Rolled, Shut]),
    ("try_lock_for", |l| of_guard(l.node.try_lock_for(SHORT)), ["true", NO, NO, NO, "None", "None", "Closed"], [Idle, Linking, Queued, Holding, Left, Rolled, Shut]),
    ("try_lock_until", |l| of_guard(l.node.try_lock_until(Instant::now() + SHORT)), ["true", NO, NO, NO, "None", "None", "Closed"], [Idle, Linking, Queued, Holding, Left, Rolled, Shut]),
    ("notify_off", |l| told(l.node.notify_off()), ["Done"; 7], STAYS),
    ("notify_fd", |l| wants_and_wants_no_more(&mut l.node), [NO_WISH, NO_WISH, "Waiting Withdrawn Done", NO_WISH, NO_WISH, NO_WISH, NO_WISH], STAYS),
    ("turn", |l| polled(l.node.turn()), ["Ready", NO, NO, NO, "Pending", "Pending", "Closed"], STAYS),
    ("a move", |l| { let Line { node, .. } = l; let boxed = Box::new(node); format!("{:?}", boxed.state()) }, ["Idle", "Linking", "Queued", "Holding", "Left", "Rolled", "Shut"], STAYS),
];

fn prepends(line: &mut Line) -> String {
    told(line.node.prepend())
}

/// Ends what makes the node busy, and settles it.
fn is_clear_then(line: &mut Line) -> String {
    let _ = line.third.link();
    line.third.deqolb();
    line.first.deqolb();
    told(line.node.settle())
}

/// Only a link line has the first half of a request, and a node whose state changes once it is not busy any more.
#[rustfmt::skip]
const OF_LINK: [Row; 2] = [
    ("prepend", prepends, ["Granted", NO, NO, NO, "Busy", "Busy", "Closed"], [Holding, Linking, Queued, Holding, Left, Rolled, Shut]),
    ("clear, where the line has gone on", is_clear_then, ["Done", NO, NO, NO, "Done", "Done", "Done"], [Idle, Linking, Queued, Holding, Idle, Idle, Shut]),
];
const OF_OTHERS: [Row; 2] = [("prepend", prepends, [NO; 7], STAYS), ("clear, where the line has gone on", is_clear_then, ["Done", NO, NO, NO, NO, "Done", "Done"], STAYS)];

fn holds(kind: Kind, state: State, row: &Row, column: usize) {
    let (name, call, tells, then) = row;
    let mut line = Line::new(kind, state);
    let got = call(&mut line);
    assert_eq!((got.as_str(), line.node.state()), (tells[column], then[column]), "{name} of a {kind:?} in the state {state:?}");
}

/// A node that neither waits nor holds is freed. Any other node is returned.
fn closes(kind: Kind, state: State) {
    let line = Line::new(kind, state);
    let may = matches!(state, Idle | Left | Rolled | Shut);
    match line.node.free() {
        Ok(()) => assert!(may, "a node was closed in the state {state:?}"),
        Err(mut node) => assert!(!may && node.state() == state, "a node was not closed in the state {state:?}"),
    }
}

fn each_call(kind: Kind) {
    for (column, state) in STATES.into_iter().enumerate() {
        if kind != Kind::Link && matches!(state, Linking | Left) {
            continue;
        }
        let more = if kind == Kind::Link { &OF_LINK } else { &OF_OTHERS };
        for row in ROWS.iter().chain(more) {
            holds(kind, state, row, column);
        }
        closes(kind, state);
    }
}

// ---- Notifications and futures ----

/// Returns whether a notification was written to the descriptor: the 8 bytes that an eventfd takes.
fn is_told(mut end: &UnixStream) -> bool {
    end.set_nonblocking(true).unwrap();
    match end.read(&mut [0; 16]) {
        Ok(got) => got == 8,
        Err(error) => error.kind() != ErrorKind::WouldBlock,
    }
}

/// A second notification replaces the first, and freeing the node takes a notification back.
fn wishes_end(kind: Kind) {
    let [(first, told_first), (second, told_second), (third, told_third)] = [(); 3].map(|()| UnixStream::pair().unwrap());
    let Line { mut node, first: mut holder, third: mut last } = Line::new(kind, Queued);
    assert_eq!((wants(&mut node, &first), wants(&mut node, &second)), (Answer::Waiting, Answer::Waiting));
    assert_eq!((last.enqolb(), wants(&mut last, &third), last.withdraw()), (Answer::Queued, Answer::Waiting, Answer::Withdrawn));
    assert!(last.free().is_ok());
    assert_eq!(holder.deqolb(), Answer::Done);
    assert_eq!((is_told(&told_first), is_told(&told_second)), (false, true));
    assert_eq!((node.poll(), node.notify_off(), node.deqolb()), (Answer::Granted, Answer::Done, Answer::Done));
    assert_eq!((is_told(&told_second), is_told(&told_third)), (false, false));
}

/// A future that is dropped while it waits withdraws its request.
fn a_dropped_future_withdraws(kind: Kind) {
    let Line { mut node, mut first, .. } = Line::new(kind, Idle);
    assert_eq!(first.acquire(), Answer::Granted);
    assert_eq!((polled(node.turn()).as_str(), node.state()), ("Pending", Rolled));
    assert_eq!((first.deqolb(), first.try_acquire()), (Answer::Done, Answer::Granted));
}

/// Polls a future of a strict and of a barging mutex that is free, held by a thread, held by a task, free again after a future gave up, or shut.
fn each_future() {
    let (mutex, lock) = (Mutex::new(0), Mutex::with_barging(0, 64));
    let both = || (polled(mutex.lock_async()), polled(lock.lock_async()));
    let all = |told: &str| (told.to_string(), told.to_string());
    let mut context = Context::from_waker(Waker::noop());
    assert_eq!(both(), all("Ready"));
    let by_thread = (mutex.lock().unwrap(), lock.lock().unwrap());
    assert_eq!(both(), all("Pending"));
    drop(by_thread);
    let (Poll::Ready(Ok(by_task)), Poll::Ready(Ok(by_other))) = (pin!(mutex.lock_async()).poll(&mut context), pin!(lock.lock_async()).poll(&mut context)) else {
        panic!("nobody waits")
    };
    assert_eq!(both(), all("Pending"));
    assert!(mutex.try_lock().unwrap().is_none() && lock.try_lock().unwrap().is_none());
    drop((by_task, by_other));
    assert_eq!(both(), all("Ready"));
    mutex.lock().unwrap().shut();
    lock.lock().unwrap().shut();
    assert_eq!(both(), all("Closed"));
}

/// The text of each result by `Display`.
#[rustfmt::skip]
const TEXTS: [(Answer, &str); 16] = [
    (Answer::Done, "done"),
    (Answer::Granted, "the line or the lock is granted"),
    (Answer::Queued, "the request waits"),
    (Answer::Waiting, "the request waits still"),
    (Answer::Linking, "the request stands behind another, and is not linked yet"),
    (Answer::Withdrawn, "the request is withdrawn"),
    (Answer::Closed, "the line is closed, or the lock shut"),
    (Answer::Busy, "the call would have to wait, or the node's last request is still in the queue"),
    (Answer::Misuse, "the node or lock does not allow the call"),
    (Answer::NoMemory, "out of memory"),
    (Answer::BadNodes, "a line has 1 to 200 nodes"),
    (Answer::BadLease, "a lease has at least one turn"),
    (Answer::BadKind, "no such kind of line"),
    (Answer::TooFew, "fewer handles than nodes"),
    (Answer::Occupied, "one of the handles has a node"),
    (Answer::TimedOut, "the time is over, and the request is withdrawn"),
];

/// `?` passes on the errors of opening and of a lock, in a function with any error type.
fn asks(nodes: u64, shuts: bool) -> Result<u64, Box<dyn Error>> {
    let mut opened = qolb::open(Kind::Ring, LABEL, nodes, None, &Bytes([0; 64]))?;
    if shuts {
        opened[0].lock()?.shut();
    }
    let mut turn = opened[0].lock()?;
    turn.set_lane(0, 5);
    Ok(turn.lane(0))
}

fn says() {
    for (answer, text) in TEXTS {
        assert_eq!(answer.to_string(), text);
    }
    assert_eq!(Stopped::Closed.to_string(), "the line is closed, or the lock shut");
    assert_eq!((Kind::DEFAULT, Kind::default()), (Kind::Ticket, Kind::Ticket));
    assert_eq!(Kind::ALL.map(Kind::name), ["ring", "link", "ticket"]);
    assert_eq!(Kind::Link.to_string(), "link");
    assert_eq!(asks(1, false).unwrap(), 5);
    assert_eq!(asks(201, false).unwrap_err().to_string(), "a line has 1 to 200 nodes");
    assert_eq!(asks(1, true).unwrap_err().to_string(), "the line is closed, or the lock shut");
    assert_eq!(Stopped::Misuse.to_string(), "the node waits or holds already, or the thread holds the lock");
    assert_eq!(qolb::open(Kind::Link, 1, 2, Some(0), &Bytes([0; 64])).unwrap_err().to_string(), "a lease has at least one turn");
    let line = Line::new(Kind::Ring, Queued);
    assert_eq!(format!("{:?}", line.node), "Node { number: 2, label: 7, state: Queued }");
    let mut held = Line::new(Kind::Ticket, Idle);
    assert_eq!(format!("{:?}", held.node.lock().unwrap()), "Guard(Node { number: 2, label: 7, state: Holding })");
    assert_eq!(held.node.lock().unwrap().turns_left(), Some(LEASE - 1));
}

/// Checks what a link line of three nodes keeps: 256 bytes and 128 for each node, the line, three nodes (each a multiple of 128), and 128 more for each of six
/// blocks.
fn tells_memory() {
    assert_eq!(qolb::memory(Kind::Link, 3), Some(4 * 128 + 128 + 256 + 128 + 3 * (256 - 16 + 128) + 40 + 3 * 48 + 4 * 8));
    assert_eq!((qolb::memory(Kind::Link, 0), qolb::memory(Kind::Link, 201)), (None, None));
}

unsafe extern "C" {
    safe fn alarm(seconds: u32) -> u32;
    fn pthread_cancel(thread: std::os::unix::thread::RawPthread) -> i32;
    fn pthread_setcancelstate(state: i32, old: &mut i32) -> i32;
}

/// A thread that is cancelled while it sleeps in a wait goes on waiting, and is granted the line.
fn is_cancelled(kind: Kind) {
    const DISABLE: i32 = 1;
    let Line { mut node, mut first, .. } = Line::new(kind, Idle);
    assert_eq!(first.acquire(), Answer::Granted);
    let (tells, told) = mpsc::channel();
    let waiter = thread::spawn(move || {
        let got = node.acquire_for(Duration::from_secs(60));
        let mut was = 0;
        // SAFETY: it changes only this thread's own state. No cancellation point is between the wait and this call.
        unsafe { pthread_setcancelstate(DISABLE, &mut was) };
        tells.send((got, was, node.deqolb())).unwrap();
    });
    thread::sleep(Duration::from_millis(20));
    // SAFETY: the thread has not been joined yet.
    assert_eq!(unsafe { pthread_cancel(waiter.as_pthread_t()) }, 0);
    thread::sleep(Duration::from_millis(20));
    assert_eq!(first.deqolb(), Answer::Done);
    assert_eq!(told.recv().unwrap(), (Answer::Granted, 0, Answer::Done));
    waiter.join().unwrap();
    assert_eq!(first.acquire(), Answer::Granted);
}

fn main() {
    alarm(300); // if a grant is lost, the thread that waits for it does not end
    says();
    tells_memory();
    each_future();
    for kind in Kind::ALL {
        each_call(kind);
        wishes_end(kind);
        a_dropped_future_withdraws(kind);
        is_cancelled(kind);
    }
}
