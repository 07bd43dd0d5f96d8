//! Two threads count together, in Rust. The count is stored in a line, and each thread has a node of this line. Prints
//! 2000.
#[path = "../rust/qolb.rs"]
mod qolb;

use qolb::{Bytes, Kind, Node, Stopped};
use std::thread;

fn add(mut node: Node) -> Result<(), Stopped> {
    for _ in 0..1000 {
        let mut turn = node.lock()?; // waits for the thread's turn
        turn.add_to_lane(0, 1);
    } // the guard releases the line at the end of its scope
    Ok(())
}

fn main() -> Result<(), Stopped> {
    let mut nodes = qolb::open(Kind::DEFAULT, 1, 3, None, &Bytes([0; 64])).expect("memory for a line");
    let mut last = nodes.pop().expect("three nodes");
    thread::scope(|threads| {
        for node in nodes {
            threads.spawn(move || add(node));
        }
    });
    let count = last.lock()?.lane(0);
    println!("{count}");
    assert_eq!(count, 2000);
    Ok(())
}
