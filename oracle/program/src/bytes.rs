//! Byte streams worth framing: whole, broken and nested frames, sentences, and noise of the bytes that
//! matter.

use crate::random::Random;
use crate::words::*;
use ublox_framing::parity::crc24q;

/// The sync bytes and their friends.
pub const FRIENDS: [u8; 12] =
    [B5, 0x62, D3, DOLLAR, 0x0D, 0x0A, 0x00, 0x01, 0x02, 0x03, 0x41, 0xFF];

/// 01's T and U.
pub const T: [u8; 8] = [B5, 0x62, 0x0A, 0x04, 0x00, 0x00, 0x0E, 0x34];
pub const U: [u8; 9] = [B5, 0x62, 0x01, 0x02, 0x01, 0x00, 0xAA, 0xAE, 0xBA];

/// The settings of a framer.
#[derive(Clone, Copy, Debug)]
pub struct Setting {
    pub mode: u64,
    pub max: u16,
    pub c: usize,
}

/// Puts a UBX frame behind `to`; `off_a` and `off_b` are added to the two check bytes.
pub fn put_ubx(to: &mut Vec<u8>, class: u8, id: u8, payload: &[u8], off_a: u8, off_b: u8) {
    put_ubx_head(to, class, id, payload.len() as u16);
    to.extend_from_slice(payload);
    let from = to.len() - payload.len() - 4;
    let (mut a, mut b) = (0u8, 0u8);
    for byte in &to[from..] {
        a = a.wrapping_add(*byte);
        b = b.wrapping_add(a);
    }
    to.push(a.wrapping_add(off_a));
    to.push(b.wrapping_add(off_b));
}

pub fn put_ubx_head(to: &mut Vec<u8>, class: u8, id: u8, n: u16) {
    to.extend_from_slice(&[B5, 0x62, class, id]);
    to.extend_from_slice(&n.to_le_bytes());
}

/// Puts an RTCM head for n bytes, with the six reserved bits as asked.
pub fn put_rtcm_head(to: &mut Vec<u8>, n: usize, reserved: u8) {
    to.extend_from_slice(&[D3, (n >> 8) as u8 & 3 | reserved << 2, n as u8]);
}

/// Puts the parity of the RTCM frame that begins at `from` behind it; `off` is added to the three bytes.
pub fn put_parity(to: &mut Vec<u8>, from: usize, off: [u8; 3]) {
    let [_, parity @ ..] = crc24q(to[from..].iter().copied()).to_be_bytes();
    parity.iter().zip(off).for_each(|(byte, off)| to.push(byte.wrapping_add(off)));
}

/// What is added to the three bytes of a parity: mostly nothing, else one of them is changed, or any.
pub fn parity_off(random: &mut Random) -> [u8; 3] {
    let mut off = [0; 3];
    match random.below(8) {
        0 => off = [random.byte(), random.byte(), random.byte()],
        at @ 1..=3 => off[at - 1] = random.pick(&[1, 0xFF, 0x80, 0x55]),
        _ => {}
    }
    off
}

/// Bytes for a payload: noise, friends, or one value.
pub fn put_payload(random: &mut Random, to: &mut Vec<u8>, n: usize) {
    let from = to.len();
    match random.below(3) {
        0 => {
            to.resize(from + n, 0);
            random.fill(&mut to[from..]);
        }
        1 => (0..n).for_each(|_| to.push(random.pick(&FRIENDS))),
        _ => to.resize(from + n, random.pick(&FRIENDS)),
    }
}

/// A payload length near an edge of the setting, and at most `most`.
fn payload_length(random: &mut Random, setting: &Setting, most: usize) -> usize {
    let max = usize::from(setting.max);
    let n = match random.below(8) {
        0 => 0,
        1 => random.near(max, 1, 65_535),
        2 => random.near(setting.c.saturating_sub(2), 2, 65_535),
        3 => random.near(setting.c.saturating_sub(8), 2, 65_535),
        4 => random.below(4),
        _ => random.below(max.min(40) + 1),
    };
    n.min(most)
}

fn put_any_ubx(random: &mut Random, to: &mut Vec<u8>, setting: &Setting, most: usize) {
    let n = payload_length(random, setting, most);
    let mut payload = Vec::new();
    if random.once_in(4) && n >= 8 {
        let before = random.below(n - 7);
        put_payload(random, &mut payload, before);
        payload.extend_from_slice(&T);
        put_payload(random, &mut payload, n - before - 8);
    } else {
        put_payload(random, &mut payload, n);
    }
    let (off_a, off_b) = match random.below(8) {
        0 => (1, 0),
        1 => (0, 1),
        2 => (random.byte(), random.byte()),
        _ => (0, 0),
    };
    let (class, id) = (random.byte(), random.byte());
    put_ubx(to, class, id, &payload, off_a, off_b);
}

fn put_any_rtcm(random: &mut Random, to: &mut Vec<u8>, setting: &Setting, most: usize) {
    let n = match random.below(4) {
        0 => random.below(4),
        1 => random.near(setting.c.saturating_sub(3), 2, 1023),
        2 => random.below(30),
        _ => random.edge(0, 1023),
    };
    let reserved = if random.once_in(2) { 0 } else { random.byte() & 63 };
    put_rtcm_head(to, n, reserved);
    let whole = random.below(4) != 0;
    put_payload(random, to, if whole { n.min(most) } else { n.min(most) / 2 });
}

/// An RTCM frame with its parity: right or wrong, whole or cut, with a UBX frame or D3 in its payload.
fn put_rtcm_with_parity(random: &mut Random, to: &mut Vec<u8>, setting: &Setting, most: usize) {
    let n = match random.below(8) {
        0 => 0,
        1 => random.near(setting.c.saturating_sub(6), 2, 1023),
        2 => random.near(setting.c.saturating_sub(3), 2, 1023),
        3 => random.edge(0, 1023),
        _ => random.below(30),
    };
    let n = n.min(most);
    let from = to.len();
    put_rtcm_head(to, n, if random.once_in(2) { 0 } else { random.byte() & 63 });
    put_payload(random, to, n);
    if n >= 8 && random.once_in(3) {
        let at = from + 3 + random.below(n - 7);
        to[at..at + 8].copy_from_slice(&T);
    } else if n > 0 && random.once_in(3) {
        to[from + 3 + random.below(n)] = random.pick(&[D3, B5]);
    }
    let off = parity_off(random);
    put_parity(to, from, off);
    if random.once_in(8) {
        to.truncate(to.len() - random.below(6).min(n + 5));
    }
}

fn put_any_sentence(random: &mut Random, to: &mut Vec<u8>, most: usize) {
    let length = match random.below(4) {
        0 => random.between(3, 12),
        1 => random.between(78, 86),
        _ => random.between(8, 30),
    };
    to.push(DOLLAR);
    for _ in 0..length.min(most).saturating_sub(3) {
        to.push(if random.once_in(24) { random.pick(&FRIENDS) } else { b'A' + random.byte() % 26 });
    }
    match random.below(8) {
        0 => to.push(0x0D),
        1 => to.push(0x0A),
        2 => to.extend_from_slice(&[0x0D, 0x0D, 0x0A]),
        3 => {}
        _ => to.extend_from_slice(&[0x0D, 0x0A]),
    }
}

/// Puts one piece of a stream behind `to`; no payload is longer than `most`.
fn put_piece(random: &mut Random, to: &mut Vec<u8>, setting: &Setting, most: usize) {
    match random.below(12) {
        0 => (0..random.between(1, 6)).for_each(|_| to.push(random.byte())),
        1 | 2 => to.push(random.pick(&FRIENDS)),
        3 => {
            let n = payload_length(random, setting, 65_535) as u16;
            put_ubx_head(to, random.byte(), random.byte(), n);
        }
        4 => {
            let n = usize::from(setting.max) + 1 + random.below(3);
            put_ubx_head(to, 1, 2, n.min(65_535) as u16);
        }
        5 | 6 if has_parity(setting.mode) => put_rtcm_with_parity(random, to, setting, most),
        5 | 6 => put_any_rtcm(random, to, setting, most),
        7 | 8 => put_any_sentence(random, to, most),
        _ => put_any_ubx(random, to, setting, most),
    }
}

/// A stream of about `length` bytes; it may begin within a piece.
pub fn stream(random: &mut Random, setting: &Setting, length: usize) -> Vec<u8> {
    let mut bytes = Vec::with_capacity(length + 64);
    match random.below(10) {
        0 => (0..length).for_each(|_| bytes.push(random.pick(&FRIENDS))),
        1 => {
            bytes.resize(length, 0);
            random.fill(&mut bytes);
        }
        _ => {
            while bytes.len() < length {
                if has_parity(setting.mode) && random.once_in(4) {
                    put_rtcm_with_parity(random, &mut bytes, setting, length.max(16));
                }
                put_piece(random, &mut bytes, setting, length.max(16));
            }
        }
    }
    if random.once_in(4) && bytes.len() > 4 {
        bytes.drain(..random.below(4));
    }
    bytes
}
