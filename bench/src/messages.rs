//! The messages of a frame, 255 of them. The peer's side is a whole frame call with those messages, since its step for a
//! message is not public.

use crate::{compare, Rng};
use std::hint::black_box;
use xgpon_peer::cmac::{Direction, Mic, Portable};
use xgpon_peer::limits::{FRAME_MAX, MEMORY_BYTES, PLAN_NUMBERS, REPLY_BYTES};
use xgpon_peer::ploam::{downstream::RANGING_TIME, seal, Message};
use xgpon_peer::{frame, Activation, Hlend, Lent, OnuId, Station};

extern "C" {
    fn bench_messages(messages: *const u8, len: usize) -> u32;
    fn bench_genuine(messages: *const u8, len: usize) -> usize;
}

const MOST_MESSAGES: usize = 255;
const KEY: [u8; 16] = [9; 16];
const ABSOLUTE: u8 = 1;
const ADD: u8 = 0;

fn ranging_time(to: u16, way: u8, amount: u32, genuine: bool) -> Message {
    let mut m: Message = [0; 48];
    m[..2].copy_from_slice(&to.to_be_bytes());
    m[2] = RANGING_TIME;
    m[4] = way;
    m[5..9].copy_from_slice(&amount.to_be_bytes());
    match to {
        1023 => seal(&mut m, Direction::Downstream, Portable::default_key()),
        _ => seal(&mut m, Direction::Downstream, &Portable::new(&KEY)),
    }
    m[47] ^= u8::from(!genuine);
    m
}

struct Peer {
    memory: Vec<u8>,
    deliveries: Vec<u8>,
    replies: Vec<u8>,
    plan: Vec<u16>,
}

impl Peer {
    fn new() -> Peer {
        Peer {
            memory: vec![0; MEMORY_BYTES],
            deliveries: vec![0; FRAME_MAX + MEMORY_BYTES],
            replies: vec![0; REPLY_BYTES],
            plan: vec![0; PLAN_NUMBERS],
        }
    }

    fn delay(&mut self, f: &[u8]) -> u32 {
        let mut station = Station::power_on([1; 8], [7; 36]);
        station.activation = Activation::Operation;
        station.onu_id = OnuId(5);
        station.key = Some(KEY);
        let lent = Lent {
            memory: &mut self.memory,
            plan: &mut self.plan,
            replies: &mut self.replies,
            deliveries: &mut self.deliveries,
        };
        frame(&mut station, f, 0, lent);
        station.delay
    }
}

fn ours(f: &[u8]) -> u32 {
    unsafe { bench_messages(f[4..].as_ptr(), f.len() - 4) }
}

/// How many messages the integrity check alone finds genuine, by one key of the peer's.
fn peer_genuine(key: &Portable, messages: &[Message]) -> usize {
    let right = |m: &&Message| key.mic(Direction::Downstream, m[..40].try_into().unwrap()) == m[40..];
    messages.iter().filter(right).count()
}

fn ours_genuine(messages: &[Message]) -> usize {
    let octets = messages.as_flattened();
    unsafe { bench_genuine(octets.as_ptr(), octets.len()) }
}

fn framed(messages: &[Message]) -> Vec<u8> {
    let header = Hlend { map_entries: 0, messages: messages.len() as u8, ..Default::default() };
    let mut f = header.word().unwrap().to_be_bytes().to_vec();
    f.extend(messages.iter().flatten());
    f
}

pub fn run(measure: bool) {
    let mut rng = Rng(0x9E37_79B9_7F4A_7C15);
    let all = |of: &mut dyn FnMut(u32) -> Message| -> Vec<Message> { (0..MOST_MESSAGES as u32).map(of).collect() };
    let default_key = all(&mut |i| ranging_time(1023, ADD, i, true));
    let installed = all(&mut |i| ranging_time(5, ABSOLUTE, i, false));
    let foreign = all(&mut |i| ranging_time(6, ABSOLUTE, i, true));
    let any = all(&mut |i| {
        let to = [5, 6, 1023][(rng.next() % 3) as usize];
        ranging_time(to, (rng.next() % 4) as u8, i * 100, rng.next() % 4 != 0)
    });
    let right = all(&mut |i| ranging_time(5, ABSOLUTE, i, true));
    for (name, messages, key) in [
        ("default key", &default_key, Portable::default_key()),
        ("installed key", &right, &Portable::new(&KEY)),
        ("installed key, not right", &installed, &Portable::new(&KEY)),
    ] {
        assert_eq!(peer_genuine(key, messages), ours_genuine(messages), "{name}");
        if measure {
            compare(
                &format!("check alone, {name}"),
                MOST_MESSAGES,
                || { black_box(peer_genuine(black_box(key), black_box(messages))); },
                || { black_box(ours_genuine(black_box(messages))); },
            );
        }
    }
    for (name, messages) in [
        ("checked by the default key", &default_key),
        ("checked by the key, not right", &installed),
        ("to others", &foreign),
        ("of all kinds", &any),
    ] {
        let f = framed(messages);
        let mut peer = Peer::new();
        assert_eq!(peer.delay(&f), ours(&f), "{name}");
        if measure {
            compare(
                &format!("message {name}"),
                MOST_MESSAGES,
                || { black_box(peer.delay(black_box(&f))); },
                || { black_box(ours(black_box(&f))); },
            );
        }
    }
    let sum: u32 = (0..MOST_MESSAGES as u32).sum();
    assert_eq!(ours(&framed(&default_key)), sum);
}
