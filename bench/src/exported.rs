//! The exported calls as include/lingbarrow.h has them, and the octets of a state of the independent engine.

#[path = "rng.rs"]
mod rng;

pub use rng::Rng;
use xgpon_peer::{Activation, Owed, Station};

pub const STATE: usize = 208;
pub const STATE_VERSION: u8 = 8;

#[allow(dead_code)]
extern "C" {
    pub fn lingbarrow_power_on(s: *mut u8, sn: usize, serial: *const u8, n: usize, id: *const u8, idn: usize) -> u8;
    pub fn lingbarrow_in_range(s: *const u8, sn: usize) -> u8;
    pub fn lingbarrow_frame(
        s: *mut u8, sn: usize, m: *mut u8, mn: usize, f: *const u8, f_n: usize, delay: u32, p: *mut u16, pn: usize,
        r: *mut u8, rn: usize, d: *mut u8, dn: usize, c: *mut usize, cn: usize,
    ) -> u8;
    pub fn lingbarrow_lost(s: *mut u8, sn: usize) -> u8;
    pub fn lingbarrow_add_port(s: *mut u8, sn: usize, port: u16) -> u8;
    pub fn lingbarrow_remove_port(s: *mut u8, sn: usize, port: u16) -> u8;
    pub fn lingbarrow_give_key(s: *mut u8, sn: usize, k: *const u8, kn: usize) -> u8;
    pub fn lingbarrow_stretch(s: *const u8, sn: usize, f: *const u8, f_n: usize, k: usize, p: *mut usize, pn: usize) -> u8;
    pub fn lingbarrow_stretches(s: *const u8, sn: usize, f: *const u8, f_n: usize, p: *mut usize, pn: usize, c: *mut usize, cn: usize) -> u8;
    pub fn lingbarrow_why_dark(s: *const u8, sn: usize, f: *const u8, f_n: usize, n: *mut u8, nn: usize, c: *mut usize, cn: usize) -> u8;
}

/// The one form of a state, in the order of crates/layout/specs/Offsets.antt.
pub fn octets(s: &Station) -> [u8; STATE] {
    let mut o = Vec::with_capacity(STATE);
    o.push(STATE_VERSION);
    o.push(s.activation.number());
    let left = match s.activation {
        Activation::Ranging(n) | Activation::Intermittent(n) => u32::try_from(n).unwrap(),
        _ => 0,
    };
    o.extend(left.to_be_bytes());
    o.extend(s.serial);
    o.extend(s.registration);
    o.extend(s.onu_id.0.to_be_bytes());
    o.push(s.alloc_count);
    s.allocs.iter().for_each(|a| o.extend(a.0.to_be_bytes()));
    o.extend(s.delay.to_be_bytes());
    o.push(s.key.is_some() as u8);
    o.extend(s.key.unwrap_or([0; 16]));
    o.push(s.owed_count);
    for owed in s.owed {
        o.extend(match owed {
            Owed::Registration(seq) => [0, seq],
            Owed::Acknowledge(seq, code) => [code as u8 + 1, seq],
        });
    }
    s.ports.iter().for_each(|p| o.extend(p.map_or(0, |p| p.0).to_be_bytes()));
    s.partial.iter().for_each(|n| o.extend(n.to_be_bytes()));
    o.extend(s.waiting.iter().map(|w| *w as u8));
    o.extend(s.carried.to_be_bytes());
    o.try_into().expect("208 octets")
}
