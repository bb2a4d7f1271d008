//! The payload walk on full frames: what a frame carries is received by both, and the deliveries are the same.

use crate::{compare, Rng};
use std::hint::black_box;
use xgpon_peer::limits::{FRAME_MAX, MEMORY_BYTES, PLAN_NUMBERS, REPLY_BYTES};
use xgpon_peer::{frame, layout, Lent, PortId, Station, XgemHeader};

extern "C" {
    fn bench_receive(
        memory: *mut u8,
        memory_len: usize,
        deliveries: *mut u8,
        deliveries_len: usize,
        payload: *const u8,
        payload_len: usize,
    ) -> usize;
}

/// XGEM frames of one size to our sixteen ports in turn, as many as a full frame holds.
pub fn full(size: usize, fragments: usize, flips: bool) -> Vec<u8> {
    let mut f = vec![0; 4];
    let step = 8 + layout::payload_bytes(size as u16);
    let mut count = 0;
    while f.len() + fragments * step <= FRAME_MAX {
        for k in 0..fragments {
            let header = XgemHeader {
                pli: size as u16,
                port: PortId(3000 + 11 * (count % 16) as u16),
                last: k + 1 == fragments,
                ..Default::default()
            };
            let mut word = header.word().unwrap();
            if flips {
                word ^= 1 << (count % 64) ^ 1 << ((count + 29) % 64);
            }
            f.extend_from_slice(&word.to_be_bytes());
            f.resize(f.len() + step - 8, count as u8);
        }
        count += 1;
    }
    f.resize(f.len() / 4 * 4, 0);
    f
}

/// A payload of any frames: ours, foreign, idle, empty, unfinished, too long, damaged, or cut off.
pub fn any(rng: &mut Rng) -> Vec<u8> {
    let mut f = vec![0; 4];
    for _ in 0..rng.next() % 40 {
        let size = match rng.next() % 8 {
            0 => 0,
            1 => rng.next() % 9,
            2 => 1_000 + rng.next() % 1_200,
            _ => rng.next() % 300,
        };
        let header = XgemHeader {
            pli: size as u16,
            port: PortId(match rng.next() % 8 {
                0 => 5,
                1 => 65_535,
                2 => 3_001,
                3 => 0,
                _ => 3_000 + 11 * (rng.next() % 3) as u16,
            }),
            last: rng.next() % 3 == 0,
            ..Default::default()
        };
        let mut word = header.word().unwrap();
        match rng.next() % 64 {
            0..=15 => word ^= 1 << (rng.next() % 64),
            16 => word ^= rng.next() & rng.next() & rng.next(),
            _ => {}
        }
        f.extend_from_slice(&word.to_be_bytes());
        for _ in 0..layout::payload_bytes(size as u16) {
            f.push(rng.next() as u8);
        }
    }
    let end = if rng.next() % 4 == 0 { f.len() - rng.next() as usize % f.len().min(40) } else { f.len() };
    f.truncate(end.max(4) / 4 * 4);
    f
}

struct Both {
    station: Station,
    memory: [Vec<u8>; 2],
    deliveries: [Vec<u8>; 2],
    plan: Vec<u16>,
    replies: Vec<u8>,
}

impl Both {
    fn new() -> Both {
        Both {
            station: crate::stretches::station(),
            memory: [vec![0; MEMORY_BYTES], vec![0; MEMORY_BYTES]],
            deliveries: [vec![0; FRAME_MAX + MEMORY_BYTES], vec![0; FRAME_MAX + MEMORY_BYTES]],
            plan: vec![0; PLAN_NUMBERS],
            replies: vec![0; REPLY_BYTES],
        }
    }

    fn peer(&mut self, f: &[u8]) -> usize {
        frame(
            &mut self.station,
            f,
            0,
            Lent {
                memory: &mut self.memory[0],
                plan: &mut self.plan,
                replies: &mut self.replies,
                deliveries: &mut self.deliveries[0],
            },
        )
        .delivered
    }

    fn ours(&mut self, f: &[u8]) -> usize {
        let (m, d) = (&mut self.memory[1], &mut self.deliveries[1]);
        unsafe { bench_receive(m.as_mut_ptr(), m.len(), d.as_mut_ptr(), d.len(), f[4..].as_ptr(), f.len() - 4) }
    }
}

/// The deliveries and the port memory that both leave.
fn same(name: &str, f: &[u8]) -> usize {
    let mut b = Both::new();
    let bytes = b.peer(f);
    assert_eq!(bytes, b.ours(f), "{name}");
    assert_eq!(b.deliveries[0], b.deliveries[1], "{name}");
    assert_eq!(b.memory[0], b.memory[1], "{name}");
    bytes
}

pub fn run(measure: bool) {
    let mut rng = Rng(0xD1B5_4A32_D192_ED03);
    let mut bytes = 0;
    for _ in 0..2000 {
        bytes += same("any frames", &any(&mut rng));
    }
    assert!(bytes > 0);
    for (name, size, fragments, flips) in [
        ("1,500-byte SDUs", 1500, 1, false),
        ("64-byte SDUs", 64, 1, false),
        ("9-byte SDUs", 9, 1, false),
        ("9-byte SDUs, two bits flipped", 9, 1, true),
        ("1,500 bytes in two fragments", 750, 2, false),
    ] {
        let f = full(size, fragments, flips);
        assert!(same(name, &f) > 0);
        if measure {
            let (mut p, mut o) = (Both::new(), Both::new());
            compare(
                &format!("full frame of {name}"),
                1,
                || { black_box(p.peer(black_box(&f))); },
                || { black_box(o.ours(black_box(&f))); },
            );
        }
    }
}
