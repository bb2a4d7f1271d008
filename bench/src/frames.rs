//! Whole frames through the exported call beside the independent engine's, measured in one run: the least time of many samples, both
//! sides in turns. Buffers are not cleared between calls; the state is the same before each.
//!
//!     frames
//!     frames counts    for bench/count.c: the names, and marks around the calls of either side

mod counted;
mod exported;

use exported::*;
use std::hint::black_box;
use std::time::Instant;
use xgpon_peer::headend::*;
use xgpon_peer::limits::*;
use xgpon_peer::*;

const KEY: [u8; 16] = *b"an installed key";

impl Rng {
    /// The word with two of its bits flipped.
    fn damaged(&mut self, w: u64) -> u64 {
        let a = self.next() % 64;
        w ^ 1 << a ^ 1 << ((a + 1 + self.next() % 63) % 64)
    }
}

struct Buffers {
    memory: Vec<u8>,
    plan: Vec<u16>,
    replies: Vec<u8>,
    deliveries: Vec<u8>,
}

fn buffers() -> Buffers {
    Buffers {
        memory: vec![0; MEMORY_BYTES],
        plan: vec![0; PLAN_NUMBERS],
        replies: vec![0; REPLY_BYTES],
        deliveries: vec![0; FRAME_MAX + MEMORY_BYTES],
    }
}

/// In O5, ONU-ID 5, a key, sixteen Alloc-IDs and sixteen ports that don't wait.
fn operating() -> Station {
    let mut s = Station::power_on(*b"VNDR\x00\x11\x22\x33", [7; 36]);
    s.activation = Activation::Operation;
    s.onu_id = OnuId(5);
    s.key = Some(KEY);
    s.alloc_count = 16;
    for i in 0..16 {
        s.allocs[i] = AllocId(2000 + 37 * i as u16);
        s.ports[i] = Some(PortId(3000 + 11 * i as u16));
    }
    s.waiting = [false; SLOTS];
    assert!(s.in_range());
    s
}

fn theirs(s: &Station, f: &[u8], b: &mut Buffers) -> (Station, Outcome) {
    let mut s = s.clone();
    let o = frame(&mut s, black_box(f), 0, Lent {
        memory: &mut b.memory,
        plan: &mut b.plan,
        replies: &mut b.replies,
        deliveries: &mut b.deliveries,
    });
    (s, o)
}

fn ours(s: &[u8; STATE], f: &[u8], b: &mut Buffers) -> ([u8; STATE], u8, [usize; 3]) {
    let (mut s, mut counts) = (*s, [0; 3]);
    let answer = unsafe {
        lingbarrow_frame(
            s.as_mut_ptr(), STATE, b.memory.as_mut_ptr(), b.memory.len(), black_box(f).as_ptr(), f.len(), 0,
            b.plan.as_mut_ptr(), b.plan.len(), b.replies.as_mut_ptr(), b.replies.len(), b.deliveries.as_mut_ptr(),
            b.deliveries.len(), counts.as_mut_ptr(), 3,
        )
    };
    (s, answer, counts)
}

/// The least nanoseconds of one call over samples of both sides in turns.
fn least(mut peer: impl FnMut(), mut our: impl FnMut()) -> (f64, f64) {
    let mut calls = 1u32;
    loop {
        let t = Instant::now();
        (0..calls).for_each(|_| peer());
        if t.elapsed().as_micros() > 200 {
            break;
        }
        calls *= 2;
    }
    let (mut a, mut b) = (f64::MAX, f64::MAX);
    for _ in 0..300 {
        let t = Instant::now();
        (0..calls).for_each(|_| peer());
        a = a.min(t.elapsed().as_nanos() as f64 / f64::from(calls));
        let t = Instant::now();
        (0..calls).for_each(|_| our());
        b = b.min(t.elapsed().as_nanos() as f64 / f64::from(calls));
    }
    (a, b)
}

fn line(name: &str, peer: impl FnMut(), our: impl FnMut()) {
    if counted::wanted() {
        counted::marked(peer);
        counted::marked(our);
        println!("{name}");
        return;
    }
    let (peer, our) = least(peer, our);
    println!("{name:<64} {:>9.3} {:>9.3} {:>6.2}", peer / 1000.0, our / 1000.0, our / peer);
}

fn measure(name: &str, s: &Station, f: &[u8]) {
    let (mut x, mut y) = (buffers(), buffers());
    let octets = octets(s);
    let (left, o) = theirs(s, f, &mut x);
    let (state, answer, counts) = ours(&octets, f, &mut y);
    assert_eq!(answer, o.answer.number(), "{name}");
    assert_eq!(counts, [o.records, o.replies, o.delivered], "{name}");
    assert_eq!(state, exported::octets(&left), "{name}");
    assert!(x.memory == y.memory && x.plan == y.plan && x.replies == y.replies && x.deliveries == y.deliveries, "{name}");
    line(name, || { black_box(theirs(s, f, &mut x)); }, || { black_box(ours(&octets, f, &mut y)); });
}

fn place(s: &[u8; STATE], f: &[u8], k: usize) -> (u8, [usize; 2]) {
    let (f, mut place) = (black_box(f), [7; 2]);
    let answer = unsafe { lingbarrow_stretch(black_box(s).as_ptr(), STATE, f.as_ptr(), f.len(), k, place.as_mut_ptr(), 2) };
    (answer, place)
}

/// The stretch of one delivery.
fn measure_stretch(name: &str, s: &Station, f: &[u8], k: usize) {
    let octets = octets(s);
    let (answer, part) = stretch(s, f, k);
    let at = if part.is_empty() { 0 } else { part.as_ptr() as usize - f.as_ptr() as usize };
    assert_eq!(place(&octets, f, k), (answer.number(), [at, part.len()]), "{name}");
    line(name, || { black_box(stretch(black_box(s), black_box(f), k)); }, || { black_box(place(&octets, f, k)); });
}

fn places(s: &[u8; STATE], f: &[u8], places: &mut [usize]) -> (u8, usize) {
    let (f, mut count) = (black_box(f), [7]);
    let answer = unsafe {
        lingbarrow_stretches(black_box(s).as_ptr(), STATE, f.as_ptr(), f.len(), places.as_mut_ptr(), places.len(), count.as_mut_ptr(), 1)
    };
    (answer, count[0])
}

/// All stretches of a frame; the independent engine has no such call, and beside it stands its stretch of the last delivery.
fn measure_stretches(name: &str, s: &Station, f: &[u8], count: usize) {
    let octets = octets(s);
    let mut list = vec![7; f.len() / 8 + 1];
    let (answer, found) = places(&octets, f, &mut list);
    assert_eq!((answer, found), (0, count), "{name}");
    for k in [0, 1, count / 2, count - 1] {
        assert_eq!((0, [list[2 * k], list[2 * k + 1]]), place(&octets, f, k), "{name}");
    }
    assert!(list[2 * count..].iter().all(|n| *n == 7), "{name}");
    line(name, || { black_box(stretch(black_box(s), black_box(f), count - 1)); }, || { black_box(places(&octets, f, &mut list)); });
}

fn names(s: &[u8; STATE], f: &[u8], names: &mut [u8]) -> (u8, usize) {
    let (f, mut count) = (black_box(f), [7]);
    let answer = unsafe { lingbarrow_why_dark(black_box(s).as_ptr(), STATE, f.as_ptr(), f.len(), names.as_mut_ptr(), names.len(), count.as_mut_ptr(), 1) };
    (answer, count[0])
}

/// What became of each structure of the frame's map.
fn measure_names(s: &Station, f: &[u8]) {
    let octets = octets(s);
    let (mut x, mut y) = ([77; 2047], [77; 2047]);
    let (answer, count) = why_dark(s, f, &mut x);
    assert_eq!(names(&octets, f, &mut y), (answer.number(), count));
    assert_eq!(x, y);
    line("    why dark", || { black_box(why_dark(black_box(s), black_box(f), &mut x)); }, || { black_box(names(&octets, f, &mut y)); });
}

/// A frame of a map: the frame call, and what became of each structure.
fn measure_map(name: &str, s: &Station, f: &[u8]) {
    measure(name, s, f);
    measure_names(s, f);
}

fn sdus(size: usize) -> Frame {
    let mut f = Frame::new();
    for i in 0..(FRAME_MAX - 4) / (8 + layout::payload_bytes(size as u16)) {
        f = f.xgem(3000 + 11 * (i % 16) as u16, true, &vec![i as u8; size]);
    }
    f
}

/// Two bits flipped in each XGEM header of a payload of frames that take `step` bytes.
fn damage(rng: &mut Rng, payload: &mut [u8], step: usize) {
    for header in payload.chunks_exact_mut(step) {
        let w = rng.damaged(u64::from_be_bytes(header[..8].try_into().unwrap()));
        header[..8].copy_from_slice(&w.to_be_bytes());
    }
}

fn main() {
    let mut rng = Rng(2);
    let s = operating();
    if !counted::wanted() {
        println!("{:<64} {:>9} {:>9} {:>6}", "microseconds", "peer", "ours", "ratio");
    }

    let mut lost = s.clone();
    lost.activation = Activation::Intermittent(800);
    let octets = octets(&lost);
    line(
        "lost call",
        || { let mut s = black_box(&lost).clone(); black_box(s.lost()); black_box(s); },
        || { let mut s = *black_box(&octets); unsafe { black_box(lingbarrow_lost(s.as_mut_ptr(), STATE)); } black_box(s); },
    );
    let mut unfit = s.clone();
    unfit.carried = 9720;
    measure("state out of range: its test alone", &unfit, &[0; 4]);
    measure("idle frame of 4 bytes", &s, &[0; 4]);
    measure("frame of 1,020 zero bytes", &s, &[0; 1020]);
    measure("idle frame of 135,432 bytes", &s, &Frame::new().full());

    let mut map = Frame::new();
    for i in 0..2047u16 {
        map = map.head(8000 + (rng.next() % 8000) as u16, false, 4 * i, 2);
    }
    measure_map("2,047 foreign entries", &s, &map.bytes());
    let mut bent = map.clone();
    bent.map.iter_mut().for_each(|w| *w = rng.damaged(*w));
    measure_map("2,047 foreign entries, two bits flipped in each", &s, &bent.bytes());
    let mut own = Frame::new();
    for i in 0..2047u16 {
        own = own.head(2000 + 37 * (i % 16), false, 0, if i == 0 { 9718 } else { 0 });
    }
    measure_map("2,047 heads of ours, all but one passed over", &s, &own.bytes());
    let mut series = Frame::new();
    for i in 0..2047u16 {
        series = if i % 17 == 0 { series.head(5, false, 80 * (i / 17), 2) } else { series.next(2000 + 37 * (i % 16), false, 1) };
    }
    measure_map("2,047 entries of ours, in series of seventeen", &s, &series.bytes());
    let mut silent = s.clone();
    silent.activation = Activation::Intermittent(800);
    measure_map("2,047 foreign entries, in O6", &silent, &map.bytes());

    for size in [1500, 64, 9] {
        let (f, count) = (sdus(size).full(), (FRAME_MAX - 4) / (8 + layout::payload_bytes(size as u16)));
        measure(&format!("full frame of {size}-byte SDUs"), &s, &f);
        measure_stretch("    its first stretch", &s, &f, 0);
        measure_stretch("    its last stretch", &s, &f, count - 1);
        measure_stretch("    the stretch of no such delivery", &s, &f, count);
        measure_stretches("    all its stretches, beside one", &s, &f, count);
    }
    let mut nine = sdus(9);
    damage(&mut rng, &mut nine.payload, 20);
    measure("full frame of 9-byte SDUs, two bits flipped in each header", &s, &nine.clone().full());
    let mut empty = Frame::new();
    for _ in 0..(FRAME_MAX - 4) / 8 {
        empty = empty.xgem(3000, true, &[]);
    }
    measure("16,928 empty headers", &s, &empty.full());

    let all = |m: ploam::Message| {
        let mut f = Frame::new();
        (0..255).for_each(|_| f.messages.push(m));
        f
    };
    let mut spoilt = ranging_time(OnuId(5), 1, 1, 1, &KEY);
    spoilt[40] ^= 1;
    measure("255 messages that act (broadcast, default key)", &s, &all(ranging_time(OnuId::NONE, 1, 0, 0, &cmac::DEFAULT_KEY)).bytes());
    measure("255 messages that fail (directed, installed key)", &s, &all(spoilt).bytes());
    measure("255 directed messages, of which 8 act and then find 8 owed", &s, &all(ranging_time(OnuId(5), 1, 1, 1, &KEY)).bytes());
    measure("255 messages to others", &s, &all(ranging_time(OnuId(6), 1, 1, 1, &KEY)).bytes());

    // The full house: entries damaged by two bits, messages that are checked under the installed key, damaged 9-byte SDUs.
    for (name, m) in [
        ("full house, messages that act by the default key", ranging_time(OnuId::NONE, 1, 0, 0, &cmac::DEFAULT_KEY)),
        ("full house, messages checked by the installed key that fail", spoilt),
        ("full house, messages by the installed key, 8 of which act", ranging_time(OnuId(5), 1, 1, 1, &KEY)),
    ] {
        let mut house = bent.clone();
        house.messages = vec![m; 255];
        let room = FRAME_MAX - 4 - 8 * 2047 - 48 * 255;
        house.payload = nine.payload[..room / 20 * 20].to_vec();
        let mut f = house.bytes();
        // what is left at the end is an empty header, or four octets
        while FRAME_MAX - f.len() >= 8 {
            f.extend(XgemHeader { port: PortId::IDLE, last: true, ..Default::default() }.word().unwrap().to_be_bytes());
        }
        f.resize(FRAME_MAX, 0);
        measure(name, &s, &f);
    }
}
