//! Protected words, clean, with one and two bits flipped, unreadable, and of all kinds in turn.

use crate::{compare, Rng};
use std::hint::black_box;
use xgpon_peer::hec;

extern "C" {
    fn bench_read32(words: *const u32, len: usize) -> u32;
    fn bench_read64(words: *const u64, len: usize) -> u64;
    fn bench_read64_plain(words: *const u64, len: usize) -> u64;
}

const WORDS: usize = 4096;

fn ours32(words: &[u32]) -> u32 {
    unsafe { bench_read32(words.as_ptr(), words.len()) }
}

fn ours64(words: &[u64]) -> u64 {
    unsafe { bench_read64(words.as_ptr(), words.len()) }
}

/// By the 63 check values, where `ours64` goes by octets.
fn ours64_plain(words: &[u64]) -> u64 {
    unsafe { bench_read64_plain(words.as_ptr(), words.len()) }
}

fn peer32(words: &[u32]) -> u32 {
    words.iter().fold(0, |sum, &w| sum ^ hec::mend32(w).unwrap_or(0))
}

fn peer64(words: &[u64]) -> u64 {
    words.iter().fold(0, |sum, &w| sum ^ hec::mend64(w).unwrap_or(0))
}

/// Words of each kind: clean, one bit, two bits, unreadable, and all of these mixed.
fn kinds(rng: &mut Rng, bits: u64) -> Vec<(&'static str, Vec<u64>)> {
    let mend = |w: u64| match bits {
        32 => hec::mend32(w as u32).map(u64::from),
        _ => hec::mend64(w),
    };
    let clean: Vec<u64> = (0..WORDS)
        .map(|_| match bits {
            32 => hec::protect32(rng.next() as u32) as u64,
            _ => hec::protect64(rng.next()),
        })
        .collect();
    let one: Vec<u64> = clean.iter().map(|w| w ^ 1 << rng.two(bits).0).collect();
    let two: Vec<u64> = clean
        .iter()
        .map(|w| {
            let (a, b) = rng.two(bits);
            w ^ 1 << a ^ 1 << b
        })
        .collect();
    let unreadable: Vec<u64> = two
        .iter()
        .map(|&w| {
            let mut v = w;
            while mend(v).is_some() {
                v = w ^ 1 << rng.two(bits).0;
            }
            v
        })
        .collect();
    let all = [&clean, &one, &two, &unreadable];
    let mixed = (0..WORDS).map(|i| all[(rng.next() % 4) as usize][i]).collect();
    vec![("clean", clean), ("one bit", one), ("two bits", two), ("unreadable", unreadable), ("mixed", mixed)]
}

pub fn run(measure: bool) {
    let mut rng = Rng(0x9E37_79B9_7F4A_7C15);
    for (name, words) in kinds(&mut rng, 64) {
        for w in &words {
            assert_eq!(ours64(&[*w]), peer64(&[*w]), "{w:016x}");
            assert_eq!(ours64_plain(&[*w]), peer64(&[*w]), "{w:016x}");
        }
        assert_eq!(ours64(&words), peer64(&words));
        if measure {
            let name = format!("64-bit read, {name}");
            compare(&name, WORDS, || { black_box(peer64(black_box(&words))); }, || { black_box(ours64(black_box(&words))); });
            if name.ends_with("mixed") {
                let name = "64-bit word by itself, mixed";
                compare(name, WORDS, || { black_box(peer64(black_box(&words))); }, || { black_box(ours64_plain(black_box(&words))); });
            }
        }
    }
    for (name, words) in kinds(&mut rng, 32) {
        let words: Vec<u32> = words.iter().map(|&w| w as u32).collect();
        for w in &words {
            assert_eq!(ours32(&[*w]), peer32(&[*w]), "{w:08x}");
        }
        assert_eq!(ours32(&words), peer32(&words));
        if measure {
            let name = format!("32-bit read, {name}");
            compare(&name, WORDS, || { black_box(peer32(black_box(&words))); }, || { black_box(ours32(black_box(&words))); });
        }
    }
    // Words at random: some one in four is readable.
    for _ in 0..200_000 {
        let w = rng.next();
        assert_eq!(ours64(&[w]), peer64(&[w]), "{w:016x}");
        assert_eq!(ours64_plain(&[w]), peer64(&[w]), "{w:016x}");
        assert_eq!(ours32(&[w as u32]), peer32(&[w as u32]), "{:08x}", w as u32);
    }
}
