//! Whole runs of the exported calls beside the independent engine: after every call the answer, the state, and every element of every
//! lent buffer are the same.
//!
//!     fuzz [CALLS [SEED]]

mod exported;

use exported::*;
use xgpon_peer::headend::{self, Frame};
use xgpon_peer::limits::*;
use xgpon_peer::ploam::Completion;
use xgpon_peer::{frame, stretch, why_dark, Activation, AllocId, Allocation, Lent, OnuId, Owed, PortId, Station};

const COUNTS_BEFORE: [usize; 3] = [7, 7, 7];

impl Rng {
    fn below(&mut self, n: u64) -> u64 {
        self.next() % n
    }

    /// True once in n.
    fn once_in(&mut self, n: u64) -> bool {
        self.below(n) == 0
    }

    fn pick<T: Copy>(&mut self, of: &[T]) -> T {
        of[self.below(of.len() as u64) as usize]
    }
}

/// What a caller lends.
#[derive(Clone, PartialEq, Eq)]
struct Buffers {
    memory: Vec<u8>,
    plan: Vec<u16>,
    replies: Vec<u8>,
    deliveries: Vec<u8>,
}

impl Buffers {
    fn new(rng: &mut Rng) -> Buffers {
        let fill = rng.next();
        Buffers {
            memory: vec![fill as u8; MEMORY_BYTES + 3],
            plan: vec![fill as u16; PLAN_NUMBERS + 5],
            replies: vec![(fill >> 8) as u8; REPLY_BYTES + 1],
            deliveries: vec![(fill >> 16) as u8; FRAME_MAX + MEMORY_BYTES],
        }
    }
}

/// A frame that means something to the station, or nearly so.
fn make_frame(rng: &mut Rng, s: &Station) -> Vec<u8> {
    let mut f = Frame::new();
    let key = s.key.unwrap_or([0x55; 16]);
    let numbers: Vec<u16> = [1023, s.onu_id.0, s.onu_id.0, 1022, 4711]
        .into_iter()
        .chain(s.allocs.iter().take(s.alloc_count.min(16) as usize).map(|a| a.0 & 0x3FFF))
        .collect();
    let mut at = rng.below(200) as u16;
    // in some maps series of ours go on until they are too long
    let long = rng.once_in(6);
    let ours: Vec<u16> = numbers.iter().copied().filter(|n| *n != 1023 && *n != 1022 && *n != 4711).collect();
    for _ in 0..rng.pick(&[0u64, 0, 1, 2, 3, 6, 20, 40, 40, 300]) {
        let continues = if long { !rng.once_in(24) } else { rng.once_in(3) };
        let start = if continues {
            65535
        } else if rng.once_in(12) {
            rng.next() as u16
        } else {
            at
        };
        let discovery = s.onu_id.0 == 1023 && !rng.once_in(4);
        let grant = if discovery { 0 } else { rng.pick(&[0, 0, 1, 5, 40, 200, 3000, 9718, 9719, 65535]) };
        let a = Allocation {
            alloc: AllocId(if discovery { 1023 } else { rng.pick(if long && !ours.is_empty() { &ours } else { &numbers }) & 0x3FFF }),
            dbru: !long && rng.once_in(5),
            ploamu: discovery || rng.once_in(2),
            start,
            grant,
            fwi: rng.once_in(4),
            profile: rng.below(4) as u8,
            ..Default::default()
        };
        f = f.entry(a);
        at = at.wrapping_add(rng.pick(&[0, 2, 14, 60, 400, 4000]));
    }
    for _ in 0..rng.pick(&[0u64, 0, 1, 1, 2, 4, 10, 10, 40, 130, 255]) {
        let to = OnuId(rng.pick(&[s.onu_id.0, s.onu_id.0, s.onu_id.0, 1023, 77]));
        let seq = rng.next() as u8;
        let own = if rng.once_in(5) { [9; 8] } else { s.serial };
        let mut m = match rng.below(9) {
            0 | 1 => headend::assign_onu_id(seq, rng.pick(&[0, 5, 77, 1022, 1023]), &own),
            2 | 3 => headend::ranging_time(to, seq, rng.pick(&[0x80, 0x80, 0, 0x40, 0xC0, 1]), rng.next() as u32, if to.0 == 1023 { &[0x55; 16] } else { &key }),
            4 | 5 => headend::assign_alloc_id(to, seq, rng.pick(&[1023, 1024, 1025, 2000, 16383, 1030, 1031, 1032, 1033, 1034]), rng.pick(&[1, 1, 1, 255, 7]), &key),
            6 => headend::request_registration(to, seq),
            7 => match rng.below(12) {
                0 => headend::deactivate(to, seq),
                1 => headend::disable(seq, rng.pick(&[0xFF, 0x0F, 0x3F]), &own),
                _ => headend::disable(seq, rng.pick(&[0x00, 0xF0]), &own),
            },
            _ => headend::sealed(to, rng.next() as u8, seq, &[], if to.0 == 1023 { &[0x55; 16] } else { &key }),
        };
        // one that is not right among others that are
        if rng.once_in(9) {
            m[40 + rng.below(8) as usize] ^= 1 << rng.below(8);
        }
        f = f.message(m);
    }
    let ports: Vec<u16> = [s.onu_id.0, s.onu_id.0, 65535, 3000, 1023]
        .into_iter()
        .chain(s.ports.iter().flatten().map(|p| p.0))
        .collect();
    for _ in 0..rng.pick(&[0u64, 1, 2, 5, 12]) {
        let n = rng.pick(&[0, 1, 7, 8, 9, 33, 64, 500, 1500, 2047, 2048, 2049]);
        let sdu: Vec<u8> = (0..n).map(|_| rng.next() as u8).collect();
        f = f.xgem(rng.pick(&ports), rng.once_in(2), &sdu);
    }
    if rng.once_in(6) {
        f.payload.extend([0; 4]);
    }
    let mut bytes = f.bytes();
    for _ in 0..rng.pick(&[0u64, 0, 0, 1, 2, 2, 3, 9]) {
        let most = if rng.once_in(2) { 4 + 8 * f.map.len() } else { bytes.len() };
        let at = rng.below(most as u64);
        bytes[at as usize] ^= 1 << rng.below(8);
    }
    if rng.once_in(30) {
        bytes.truncate(rng.below(bytes.len() as u64 + 1) as usize);
    }
    bytes
}

/// All stretches of a frame, before its frame call: each is the independent engine's, from the count on it has none, and past them the
/// list is as it was. A list that is a number too short, or no room for the count, is answered 3 where 1 and 2 is not the answer. What
/// is returned is the count.
fn all_stretches(rng: &mut Rng, state: *const u8, peer: &Station, f: &[u8]) -> usize {
    let call = |places: &mut [usize], count: &mut [usize]| unsafe {
        lingbarrow_stretches(state, STATE, f.as_ptr(), f.len(), places.as_mut_ptr(), places.len(), count.as_mut_ptr(), count.len())
    };
    let need = f.len() / 8;
    let mut places = vec![7; need + rng.below(3) as usize];
    let mut count = [7; 2];
    let said = stretch(peer, f, 0).0.number();
    assert_eq!(call(&mut places, &mut count), said, "all stretches: the answer");
    let [found, rest] = count;
    assert_eq!(rest, 7, "past the count");
    for k in 0..=found {
        let (answer, part) = stretch(peer, f, k);
        let at = if part.is_empty() { 0 } else { part.as_ptr() as usize - f.as_ptr() as usize };
        assert_eq!(answer.number(), said, "all stretches: the answer to one");
        assert_eq!([at, part.len()], if k < found { [places[2 * k], places[2 * k + 1]] } else { [0, 0] }, "all stretches: number {k}");
    }
    assert!(places[2 * found..].iter().all(|n| *n == 7), "past the stretches");
    let short = if said == 1 || said == 2 { said } else { 3 };
    places.fill(7);
    count = [9; 2];
    assert_eq!(call(&mut places, &mut []), short, "no room for the count");
    if need > 0 {
        assert_eq!(call(&mut places[..need - 1], &mut count), short, "no room for the stretches");
        assert_eq!(count, [0, 9], "no room for the stretches: the count");
    }
    assert!(places.iter().all(|n| *n == 7), "no room: the list");
    found
}

/// What became of each structure of the frame's map, before its frame call: as the independent engine names it, and past the names the
/// list is as it was. A list that is too short, or no room for the count, is answered 3 where 1 and 2 is not the answer. What is returned
/// is how many are named planned, where any are named.
fn names(rng: &mut Rng, state: *const u8, peer: &Station, f: &[u8], named: &mut [u64; 11]) -> Option<usize> {
    let call = |names: &mut [u8], count: &mut [usize]| unsafe {
        lingbarrow_why_dark(state, STATE, f.as_ptr(), f.len(), names.as_mut_ptr(), names.len(), count.as_mut_ptr(), count.len())
    };
    let length = rng.pick(&[2047, 2047, 2047, 2048, 2050, 2046, 0]);
    let (mut theirs, mut ours, mut count) = (vec![0xEE; length], vec![0xEE; length], [7; 2]);
    let (said, found) = why_dark(peer, f, &mut theirs);
    assert_eq!(call(&mut ours, &mut count), said.number(), "the names: the answer");
    assert_eq!(count, [found, 7], "the names: the count");
    assert!(ours == theirs, "the names");
    ours[..found].iter().for_each(|name| named[usize::from(*name)] += 1);
    let planned = ours[..found].iter().filter(|name| **name == 0).count();
    let short = if said.number() == 1 || said.number() == 2 { said.number() } else { 3 };
    assert_eq!(call(&mut ours, &mut []), short, "the names: no room for the count");
    assert!(ours == theirs, "the names: no room for the count");
    (said.number() == 0).then_some(planned)
}

/// How many deliveries stand in so many bytes.
fn deliveries(mut of: &[u8]) -> usize {
    let mut count = 0;
    while !of.is_empty() {
        of = &of[4 + usize::from(u16::from_be_bytes([of[2], of[3]]))..];
        count += 1;
    }
    count
}

/// A state that no run need reach, in range or not.
fn unsettle(rng: &mut Rng, s: &mut Station) {
    match rng.below(12) {
        0 => s.activation = rng.pick(&[Activation::Initial, Activation::SerialNumber, Activation::Operation, Activation::EmergencyStop]),
        1 => s.activation = Activation::Ranging(rng.pick(&[0, 1, 2, 80_000, 80_001])),
        2 => s.activation = Activation::Intermittent(rng.pick(&[0, 1, 800, 801])),
        3 => s.onu_id = OnuId(rng.pick(&[0, 5, 1022, 1023, 1024])),
        4 => s.alloc_count = rng.pick(&[0, 1, 15, 16, 17]),
        5 => s.allocs[rng.below(16) as usize] = AllocId(rng.pick(&[0, 1023, 1024, 1025, 16383, 16384])),
        6 => s.owed_count = rng.pick(&[0, 7, 8, 9]),
        7 => s.owed[rng.below(8) as usize] = rng.pick(&[Owed::Registration(3), Owed::Acknowledge(9, Completion::ProcessingError)]),
        8 => s.ports[rng.below(16) as usize] = rng.pick(&[None, Some(PortId(1022)), Some(PortId(1023)), Some(PortId(1024)), Some(PortId(65534)), Some(PortId(65535))]),
        9 => s.partial[rng.below(17) as usize] = rng.pick(&[0, 1, 2047, 2048, 2049]),
        10 => s.waiting[rng.below(17) as usize] ^= true,
        _ => s.carried = rng.pick(&[0, 1, 9719, 9720]),
    }
}

fn main() {
    let mut args = std::env::args().skip(1).map(|a| a.parse::<u64>().expect("a number"));
    let calls = args.next().unwrap_or(200_000);
    let mut rng = Rng(args.next().unwrap_or(0x9E37_79B9_7F4A_7C15) | 1);
    let (mut answers, mut kinds, mut states, mut written, mut named) = ([0u64; 12], [0u64; 6], [0u64; 8], [0usize; 3], [0u64; 11]);
    let mut done = 0;
    while done < calls {
        let (serial, id) = ([rng.next() as u8; 8], [rng.next() as u8; 36]);
        let mut peer = Station::power_on(serial, id);
        let mut ours = [0xEE; STATE + 2];
        let answer = unsafe { lingbarrow_power_on(ours.as_mut_ptr(), STATE + 2, serial.as_ptr(), 8, id.as_ptr(), 36) };
        assert_eq!(answer, 0, "power-on");
        let mut theirs = Buffers::new(&mut rng);
        let mut lent = theirs.clone();
        // in some runs no port is removed, so that the slots fill
        let fills = rng.once_in(3);
        for call in 0..400 {
            assert_eq!(ours[..STATE], octets(&peer), "call {call} of the run that began at {done}: the state");
            assert_eq!(ours[STATE..], [0xEE; 2], "past the state");
            if rng.once_in(40) {
                let mut other = peer.clone();
                for _ in 0..=rng.below(2) {
                    unsettle(&mut rng, &mut other);
                }
                ours[..STATE].copy_from_slice(&octets(&other));
                let another_version = rng.once_in(4);
                if another_version {
                    ours[0] = rng.pick(&[0, 1, 2, 4, 5, 6, 7, STATE_VERSION + 1, 255]);
                }
                if other.in_range() && !another_version {
                    // both go on from it
                    peer = other;
                } else {
                    // every call answers 1 and changes nothing, whatever else is wrong
                    let before = ours;
                    let s = ours.as_mut_ptr();
                    let (f, key, mut counts, mut place) = ([0u8; 6], [0u8; 16], COUNTS_BEFORE, [7usize; 2]);
                    let unfit = unsafe {
                        [
                            lingbarrow_in_range(s, STATE),
                            lingbarrow_give_key(s, STATE, key.as_ptr(), 15),
                            lingbarrow_stretch(s, STATE, f.as_ptr(), 6, 0, place.as_mut_ptr(), 1),
                            lingbarrow_frame(
                                s, STATE, lent.memory.as_mut_ptr(), 0, f.as_ptr(), 6, 0, lent.plan.as_mut_ptr(), 0, lent.replies.as_mut_ptr(), 0,
                                lent.deliveries.as_mut_ptr(), 0, counts.as_mut_ptr(), 2,
                            ),
                        ]
                    };
                    assert_eq!(unfit, [1; 4], "a state out of range, and more that is unfit");
                    assert_eq!((counts, place), (COUNTS_BEFORE, [7; 2]));
                    let said = unsafe {
                        [
                            lingbarrow_lost(s, STATE),
                            lingbarrow_add_port(s, STATE, 2000),
                            lingbarrow_remove_port(s, STATE, 2000),
                            lingbarrow_give_key(s, STATE, key.as_ptr(), 16),
                            lingbarrow_stretch(s, STATE, f.as_ptr(), 4, 0, place.as_mut_ptr(), 2),
                            lingbarrow_frame(
                                s, STATE, lent.memory.as_mut_ptr(), lent.memory.len(), f.as_ptr(), 4, 0, lent.plan.as_mut_ptr(),
                                lent.plan.len(), lent.replies.as_mut_ptr(), lent.replies.len(), lent.deliveries.as_mut_ptr(),
                                lent.deliveries.len(), counts.as_mut_ptr(), 3,
                            ),
                        ]
                    };
                    let (mut places, mut count) = ([7usize; 2], [7usize]);
                    let listed = unsafe { lingbarrow_stretches(s, STATE, f.as_ptr(), 4, places.as_mut_ptr(), 2, count.as_mut_ptr(), 1) };
                    assert_eq!((listed, places, count), (1, [7; 2], [0]), "a state out of range: all stretches");
                    let mut name = [7u8];
                    let listed = unsafe { lingbarrow_why_dark(s, STATE, f.as_ptr(), 6, name.as_mut_ptr(), 1, count.as_mut_ptr(), 1) };
                    assert_eq!((listed, name, count), (1, [7], [0]), "a state out of range: names");
                    let again = |call: fn(&mut Station) -> xgpon_peer::Answer| {
                        let mut s = other.clone();
                        let answer = call(&mut s).number();
                        assert!(s == other);
                        answer
                    };
                    let by = || {
                        [
                            again(|s| s.lost()),
                            again(|s| s.add_port(PortId(2000))),
                            again(|s| s.remove_port(PortId(2000))),
                            again(|s| s.give_key([0; 16])),
                            stretch(&other, &f[..4], 0).0.number(),
                            1,
                        ]
                    };
                    assert_eq!(said, if another_version { [1; 6] } else { by() }, "a state out of range");
                    assert_eq!((counts, place), ([0; 3], [0; 2]));
                    assert_eq!(ours, before, "a state out of range changed");
                    assert!(lent == theirs, "a lent buffer changed");
                    answers[1] += 10;
                    done += 10;
                    ours[..STATE].copy_from_slice(&octets(&peer));
                }
            }
            let state = ours.as_mut_ptr();
            // a lost time ends what O4 has come to, so that it is seldom
            let kind = if rng.once_in(40) { 1 } else { rng.pick(&[0usize, 0, 0, 0, 0, 0, 0, 2, 2, if fills { 2 } else { 3 }, 4, 5]) };
            assert_eq!(unsafe { lingbarrow_in_range(state, STATE) }, 0, "a state in range");
            // what comes back, or the key, has no room
            let roomless = rng.once_in(25);
            let (a, b) = match kind {
                0 | 5 if roomless => {
                    let f = make_frame(&mut rng, &peer);
                    let (mut counts, mut place) = (COUNTS_BEFORE, [7usize; 2]);
                    let answer = if kind == 0 {
                        unsafe {
                            lingbarrow_frame(
                                state, STATE, lent.memory.as_mut_ptr(), lent.memory.len(), f.as_ptr(), f.len(), 0, lent.plan.as_mut_ptr(),
                                lent.plan.len(), lent.replies.as_mut_ptr(), lent.replies.len(), lent.deliveries.as_mut_ptr(),
                                lent.deliveries.len(), counts.as_mut_ptr(), 2,
                            )
                        }
                    } else {
                        unsafe { lingbarrow_stretch(state, STATE, f.as_ptr(), f.len(), 0, place.as_mut_ptr(), 1) }
                    };
                    assert_eq!((counts, place), (COUNTS_BEFORE, [7; 2]), "what has no room");
                    (answer, if (4..=FRAME_MAX).contains(&f.len()) && f.len() % 4 == 0 { 3 } else { 2 })
                }
                4 if roomless => (unsafe { lingbarrow_give_key(state, STATE, [0; 15].as_ptr(), 15) }, 3),
                0 => {
                    let f = make_frame(&mut rng, &peer);
                    let delay = rng.pick(&[0, 1, 119_439, 119_440, u32::MAX]);
                    let need = f.len() + MEMORY_BYTES;
                    let mut lengths = [MEMORY_BYTES + 3, PLAN_NUMBERS + 5, REPLY_BYTES + 1, need.min(lent.deliveries.len())];
                    if rng.once_in(25) {
                        let which = rng.below(4) as usize;
                        lengths[which] -= rng.pick(&[3, 4, 5, 6]).min(lengths[which]);
                    }
                    let [m, p, r, d] = lengths;
                    let mut counts = COUNTS_BEFORE;
                    let found = all_stretches(&mut rng, state, &peer, &f);
                    let planned = names(&mut rng, state, &peer, &f, &mut named);
                    let out = frame(&mut peer, &f, delay, Lent {
                        memory: &mut theirs.memory[..m],
                        plan: &mut theirs.plan[..p],
                        replies: &mut theirs.replies[..r],
                        deliveries: &mut theirs.deliveries[..d],
                    });
                    let answer = unsafe {
                        lingbarrow_frame(
                            state, STATE, lent.memory.as_mut_ptr(), m, f.as_ptr(), f.len(), delay, lent.plan.as_mut_ptr(), p,
                            lent.replies.as_mut_ptr(), r, lent.deliveries.as_mut_ptr(), d, counts.as_mut_ptr(), 3,
                        )
                    };
                    assert_eq!(counts, [out.records, out.replies, out.delivered], "the counts");
                    if answer == 0 || answer == 6 {
                        assert_eq!(deliveries(&lent.deliveries[..out.delivered]), found, "as many stretches as deliveries");
                        assert_eq!(planned.unwrap_or(out.records), out.records, "as many planned names as records");
                    }
                    (0..3).for_each(|i| written[i] += counts[i]);
                    (answer, out.answer.number())
                }
                1 => (unsafe { lingbarrow_lost(state, STATE) }, peer.lost().number()),
                2 => {
                    let port = rng.pick(&[1022, 1023, 1024, 2000, 2001, 2002, 2003, 2004, 65534, 65535]).max(rng.once_in(2) as u16 * (1500 + rng.below(20) as u16));
                    (unsafe { lingbarrow_add_port(state, STATE, port) }, peer.add_port(PortId(port)).number())
                }
                3 => {
                    let held: Vec<u16> = peer.ports.iter().flatten().map(|p| p.0).chain([1022, 1024]).collect();
                    let port = rng.pick(&held);
                    (unsafe { lingbarrow_remove_port(state, STATE, port) }, peer.remove_port(PortId(port)).number())
                }
                4 => {
                    let key = [rng.next() as u8; 16];
                    (unsafe { lingbarrow_give_key(state, STATE, key.as_ptr(), 16) }, peer.give_key(key).number())
                }
                _ => {
                    let f = make_frame(&mut rng, &peer);
                    let k = rng.below(4) as usize;
                    all_stretches(&mut rng, state, &peer, &f);
                    names(&mut rng, state, &peer, &f, &mut named);
                    let mut place = [7usize; 2];
                    let answer = unsafe { lingbarrow_stretch(state, STATE, f.as_ptr(), f.len(), k, place.as_mut_ptr(), 2) };
                    let (said, part) = stretch(&peer, &f, k);
                    let at = if part.is_empty() { 0 } else { part.as_ptr() as usize - f.as_ptr() as usize };
                    assert_eq!(place, [at, part.len()], "the stretch");
                    (answer, said.number())
                }
            };
            assert_eq!(a, b, "call {call} of the run that began at {done}: the answer");
            assert!(lent == theirs, "call {call} of the run that began at {done}: a lent buffer");
            answers[a as usize] += 1;
            kinds[kind] += 1;
            states[peer.activation.number() as usize] += 1;
            done += 1;
        }
    }
    println!("fuzz: {done} calls the same; frames {}, lost {}, ports {} and {}, keys {}, stretches {}", kinds[0], kinds[1], kinds[2], kinds[3], kinds[4], kinds[5]);
    println!("fuzz: answers 0 to 10 {:?}, calls that left O1 to O7 {:?}", &answers[..11], &states[1..]);
    println!("fuzz: structures named 0 to 10 {named:?}");
    println!("fuzz: {} plan records, {} replies, {} bytes delivered", written[0], written[1], written[2]);
}
