//! The peer of `turn_bench`: the same machine behind a plain `Mutex`. It takes the same arguments and prints the same.

use std::sync::Mutex;
use std::time::Instant;
use std::{env, thread};

struct Entry {
    desk: u32,
    request: u64,
}

/// Keeps each request, and answers how many it keeps then.
struct Tally {
    entries: Vec<Entry>,
}

impl Tally {
    fn turn(&mut self, desk: u32, request: u64) -> usize {
        self.entries.push(Entry { desk, request });
        self.entries.len()
    }
}

fn is_in_order(entries: &[Entry], desk: u32, calls: u64) -> bool {
    let own = entries.iter().filter(|entry| entry.desk == desk);
    own.map(|entry| entry.request).eq(0..calls)
}

fn main() {
    let sizes: Vec<u64> = env::args().skip(1).filter_map(|size| size.parse().ok()).collect();
    let [desks, calls] = sizes[..] else {
        return println!("usage: mutex DESKS CALLS");
    };
    let start = Instant::now();
    let tally = Mutex::new(Tally { entries: Vec::with_capacity((desks * calls) as usize) });
    thread::scope(|scope| {
        for desk in 1..=desks as u32 {
            let tally = &tally;
            scope.spawn(move || {
                for request in 0..calls {
                    let kept = tally.lock().unwrap().turn(desk, request);
                    assert!(kept > request as usize);
                }
            });
        }
    });
    eprintln!("{}", start.elapsed().as_nanos());
    let entries = tally.into_inner().unwrap().entries;
    let in_order = (1..=desks as u32).all(|desk| is_in_order(&entries, desk, calls));
    let order = if in_order { "in order" } else { "out of order" };
    println!("desks: {desks}, entries: {}, the calls of each desk: {order}", entries.len());
}
