//! Compares the proved library with an independent Rust engine (bench/peer) and measures both in one run.
//!
//!     bench check     compare results only
//!     bench           compare, then print nanoseconds an operation and the ratio of ours to the peer's
//!     bench counts    for bench/count.c: the names, and marks around the work of either side

mod counted;
mod headers;
mod map;
mod messages;
mod payload;
mod rng;
mod stretches;

pub use rng::Rng;
use std::hint::black_box;
use std::time::Instant;

/// Nanoseconds for each of `count` operations.
fn timed(count: usize, work: &mut impl FnMut()) -> f64 {
    let start = Instant::now();
    work();
    start.elapsed().as_nanos() as f64 / count as f64
}

/// One line of the report: the least of many samples, which both sides take in turns, so that a slow moment of the machine is
/// neither's alone.
pub fn compare(name: &str, count: usize, mut peer: impl FnMut(), mut ours: impl FnMut()) {
    if counted::wanted() {
        counted::marked(peer);
        counted::marked(ours);
        println!("{name}");
        return;
    }
    let (mut p, mut o) = (f64::MAX, f64::MAX);
    for _ in 0..300 {
        p = p.min(timed(count, &mut peer));
        o = o.min(timed(count, &mut ours));
    }
    println!("{name:<44} {p:>9.2} {o:>9.2} {:>7.2}", o / p);
}

impl Rng {
    /// Two different numbers below `n`.
    pub fn two(&mut self, n: u64) -> (u64, u64) {
        let a = self.next() % n;
        (a, (a + 1 + self.next() % (n - 1)) % n)
    }
}

fn main() {
    let check = std::env::args().nth(1).as_deref() == Some("check");
    if !check && !counted::wanted() {
        println!("{:<44} {:>9} {:>9} {:>7}", "ns an operation", "peer", "ours", "ratio");
    }
    headers::run(!check);
    messages::run(!check);
    map::run(!check);
    stretches::run(!check);
    payload::run(!check);
    black_box(());
}
