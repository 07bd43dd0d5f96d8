//! A server on 127.0.0.1 whose connections share a mutex or a line. The connections are futures, which run on a small executor, first with one thread and
//! then with four. This file is meant as a template.
//!
//! When a client sends 'L', its connection acquires the mutex, and the client receives a number of 8 bytes. When the client sends 'U', the connection adds
//! 1 to the number and releases the mutex. A client may disconnect at any time: the future that waits for it is then dropped, which withdraws its request.
//! No thread of the executor ever blocks on the mutex.
//!
//! The program takes two optional arguments, the number of connections and the number of rounds. In this repository it is built as `build/server_rs`:
//!
//! ```text
//! build/server_rs [CONNECTIONS [ROUNDS]]
//! ```
//!
//! The clients run in the same program, which prints only errors. A program that already has an executor and sockets needs only `by_mutex` or `by_node`.

#[path = "../rust/qolb.rs"]
mod qolb;

#[path = "executor.rs"]
mod executor;

use executor::Pool;
use qolb::{Bytes, Kind, Mutex, Node};
use std::collections::HashMap;
use std::future::{Future, poll_fn};
use std::io::{ErrorKind, Read, Write};
use std::net::{Ipv4Addr, SocketAddr, TcpListener, TcpStream};
use std::os::fd::{AsRawFd, RawFd};
use std::os::unix::net::UnixStream;
use std::pin::pin;
use std::sync::Arc;
use std::sync::atomic::{AtomicU64, Ordering::SeqCst};
use std::task::{Context, Poll, Waker};
use std::thread;

// ---- The server ----

/// Serves a connection with a mutex, for which there may be any number of connections.
async fn by_mutex(client: Client, number: Arc<Mutex<u64>>) {
    while client.byte().await == Some(b'L') {
        let Some(Ok(mut number)) = client.unless_it_goes(number.lock_async()).await else { return };
        client.send(*number);
        if client.byte().await != Some(b'U') {
            return; // the guard releases the mutex
        }
        *number += 1;
    }
}

/// Serves a connection with a line, for which each connection has a node. The number is in the line.
async fn by_node(client: Client, mut node: Node) {
    while client.byte().await == Some(b'L') {
        let Some(Ok(mut turn)) = client.unless_it_goes(node.turn()).await else { return };
        client.send(turn.lane(0));
        if client.byte().await != Some(b'U') {
            return;
        }
        turn.add_to_lane(0, 1);
    }
}

struct Client {
    socket: TcpStream,
    sockets: Arc<Sockets>,
}

impl Client {
    fn poll_byte(&self, context: &mut Context<'_>) -> Poll<Option<u8>> {
        let mut byte = [0];
        match (&self.socket).read(&mut byte) {
            Ok(1) => Poll::Ready(Some(byte[0])),
            Err(error) if error.kind() == ErrorKind::WouldBlock => {
                self.sockets.wake_when_readable(&self.socket, context.waker());
                Poll::Pending
            }
            _ => Poll::Ready(None),
        }
    }

    /// Returns the next byte, or `None` once the client has disconnected.
    async fn byte(&self) -> Option<u8> {
        poll_fn(|context| self.poll_byte(context)).await
    }

    /// Returns the output of the future, or `None` if the client disconnects before that or sends more bytes.
    async fn unless_it_goes<T>(&self, future: impl Future<Output = T>) -> Option<T> {
        let mut future = pin!(future);
        poll_fn(|context| match future.as_mut().poll(context) {
            Poll::Ready(it) => Poll::Ready(Some(it)),
            Poll::Pending => self.poll_byte(context).map(|_| None),
        })
        .await
    }

    /// Sends a number. It need not check for errors: if the client has disconnected, `byte` will say so.
    fn send(&self, number: u64) {
        let _ = (&self.socket).write_all(&number.to_ne_bytes());
    }
}

/// Wakes tasks when their sockets can be read. It has a thread of its own.
struct Sockets {
    wanted: std::sync::Mutex<HashMap<RawFd, Waker>>,
    bell: UnixStream, // a byte tells the thread to look at `wanted` again, and its end tells the thread to end
}

#[repr(C)]
struct Watched {
    fd: RawFd,
    wanted: i16,
    got: i16,
}

const POLLIN: i16 = 1;

unsafe extern "C" {
    fn poll(watched: *mut Watched, many: std::ffi::c_ulong, milliseconds: i32) -> i32;
    safe fn alarm(seconds: u32) -> u32;
}

impl Sockets {
    fn new() -> (Arc<Sockets>, UnixStream) {
        let (bell, hears) = UnixStream::pair().unwrap();
        (Arc::new(Sockets { wanted: Default::default(), bell }), hears)
    }

    fn wake_when_readable(&self, socket: &TcpStream, waker: &Waker) {
        self.wanted.lock().unwrap().insert(socket.as_raw_fd(), waker.clone());
        (&self.bell).write_all(&[0]).unwrap();
    }

    /// Runs the thread. A socket that was closed meanwhile counts as one that can be read. This does no harm: its task has ended, and the waker does nothing.
    fn run(&self, mut hears: UnixStream) {
        let mut heard = [0; 64];
        loop {
            let fds: Vec<RawFd> = self.wanted.lock().unwrap().keys().copied().collect();
            let mut watched: Vec<_> = [hears.as_raw_fd()].into_iter().chain(fds).map(|fd| Watched { fd, wanted: POLLIN, got: 0 }).collect();
            // SAFETY: the array has `watched.len()` entries.
            unsafe { poll(watched.as_mut_ptr(), watched.len() as std::ffi::c_ulong, -1) };
            if watched[0].got != 0 && hears.read(&mut heard).unwrap() == 0 {
                return;
            }
            for it in watched[1..].iter().filter(|it| it.got != 0) {
                let waker = self.wanted.lock().unwrap().remove(&it.fd);
                if let Some(waker) = waker {
                    waker.wake();
                }
            }
        }
    }

    fn end(&self) {
        self.bell.shutdown(std::net::Shutdown::Both).unwrap();
    }
}

// ---- The clients ----

/// Acquires and releases. The last client disconnects while it waits, and the one before it while it holds. Returns the number of its additions.
fn is_client(address: SocketAddr, which: u64, rounds: u64) -> u64 {
    let mut socket = TcpStream::connect(address).unwrap();
    let mut number = [0; 8];
    for round in 0..rounds {
        socket.write_all(b"L").unwrap();
        if which == 0 && round == rounds / 2 {
            return round;
        }
        socket.read_exact(&mut number).unwrap();
        if which == 1 && round == rounds / 2 {
            return round;
        }
        socket.write_all(b"U").unwrap();
    }
    rounds
}

// ---- A run ----

/// Serves each connection by a task that `serves` makes, on `threads` threads. Returns the number of additions.
fn run(threads: usize, connections: u64, rounds: u64, mut serves: impl FnMut(&Arc<Pool>, Client)) -> u64 {
    let listener = TcpListener::bind((Ipv4Addr::LOCALHOST, 0)).unwrap();
    let (address, added) = (listener.local_addr().unwrap(), AtomicU64::new(0));
    let (pool, (sockets, hears)) = (Arc::new(Pool::default()), Sockets::new());
    thread::scope(|scope| {
        let added = &added;
        for which in 0..connections {
            scope.spawn(move || added.fetch_add(is_client(address, which, rounds), SeqCst));
        }
        scope.spawn(|| sockets.run(hears));
        for _ in 0..connections {
            let socket = listener.accept().unwrap().0;
            socket.set_nonblocking(true).unwrap();
            serves(&pool, Client { socket, sockets: sockets.clone() });
        }
        pool.run(threads);
        sockets.end();
    });
    added.into_inner()
}

fn main() {
    let mut words = std::env::args().skip(1).map(|it| it.parse::<u64>().expect("a number"));
    let (connections, rounds) = (words.next().unwrap_or(40), words.next().unwrap_or(20));
    assert!((2..200).contains(&connections), "2 to 199 connections, as a line has at most 200 nodes");
    alarm(120);
    for threads in [1, 4] {
        let number = Arc::new(Mutex::new(0));
        let added = run(threads, connections, rounds, |pool, client| drop(pool.spawn(by_mutex(client, number.clone()))));
        assert_eq!(*number.lock().unwrap(), added);
        let mut nodes = qolb::open(Kind::DEFAULT, 1, connections + 1, None, &Bytes([0; 64])).unwrap();
        let mut last = nodes.pop().unwrap();
        let added = run(threads, connections, rounds, |pool, client| drop(pool.spawn(by_node(client, nodes.pop().unwrap()))));
        assert_eq!(last.lock().unwrap().lane(0), added);
    }
}
