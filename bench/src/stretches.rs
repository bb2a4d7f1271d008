//! The search for stretches, of one delivery and of all, beside the independent engine's stretch.

use crate::payload::{any, full};
use crate::{compare, Rng};
use std::hint::black_box;
use xgpon_peer::{stretch, Activation, OnuId, PortId, Station};

extern "C" {
    fn bench_stretches(frame: *const u8, frame_len: usize, first: usize, places: *mut usize, places_len: usize) -> usize;
}

/// In O5, ONU-ID 5, with sixteen ports that don't wait.
pub fn station() -> Station {
    let mut station = Station::power_on([1; 8], [7; 36]);
    station.activation = Activation::Operation;
    station.onu_id = OnuId(5);
    for i in 0..16 {
        station.add_port(PortId(3000 + 11 * i));
    }
    station.waiting = [false; 17];
    station
}

fn ours(f: &[u8], first: usize, places: &mut [usize]) -> usize {
    unsafe { bench_stretches(f.as_ptr(), f.len(), first, places.as_mut_ptr(), places.len()) }
}

fn theirs(s: &Station, f: &[u8], k: usize) -> [usize; 2] {
    let part = stretch(s, f, k).1;
    [if part.is_empty() { 0 } else { part.as_ptr() as usize - f.as_ptr() as usize }, part.len()]
}

/// One by one, and all at once: how many there are.
fn same(name: &str, s: &Station, f: &[u8], numbers: impl Fn(usize) -> Vec<usize>) -> usize {
    let mut places = vec![7; f.len() / 8];
    let count = ours(f, 0, &mut places);
    for k in numbers(count) {
        let mut place = [0; 2];
        assert_eq!(ours(f, k, &mut place), usize::from(k < count), "{name}");
        assert_eq!(place, theirs(s, f, k), "{name}");
        assert_eq!(place, if k < count { [places[2 * k], places[2 * k + 1]] } else { [0; 2] }, "{name}");
    }
    assert!(places[2 * count..].iter().all(|n| *n == 7), "{name}");
    count
}

pub fn run(measure: bool) {
    let s = station();
    let mut rng = Rng(0x2545_F491_4F6C_DD1D);
    let mut count = 0;
    for _ in 0..2000 {
        count += same("any frames", &s, &any(&mut rng), |n| (0..n + 2).collect());
    }
    assert!(count > 0);
    for (name, size) in [("1,500-byte SDUs", 1500), ("64-byte SDUs", 64), ("9-byte SDUs", 9)] {
        let f = full(size, 1, false);
        let count = same(name, &s, &f, |n| vec![0, n / 2, n - 1, n]);
        if measure {
            let mut places = vec![0; f.len() / 8];
            for (which, k) in [("first stretch", 0), ("last stretch", count - 1), ("no such stretch", count)] {
                compare(
                    &format!("{which} of {name}"),
                    1,
                    || { black_box(stretch(black_box(&s), black_box(&f), k)); },
                    || { black_box(ours(black_box(&f), k, &mut places[..2])); },
                );
            }
            // the independent engine has no call for all: its last stretch
            let mut places = vec![0; f.len() / 8];
            compare(
                &format!("all stretches of {name}, beside one"),
                1,
                || { black_box(stretch(black_box(&s), black_box(&f), count - 1)); },
                || { black_box(ours(black_box(&f), 0, &mut places)); },
            );
        }
    }
}
