//! Long runs for the searches and for the sum: bytes that are nearly sync bytes with one among them,
//! sentences with half end marks before the whole one, payloads with one byte or two changed, and with
//! parity RTCM frames so changed. Lengths and splits go over every block size that a fast loop may have.

use super::{any_bytes, state_of, Family, Modes};
use crate::bytes::{self, Setting, T};
use crate::random::Random;
use crate::run::{Run, Stop};
use crate::words::*;
use ublox_framing::numbers::LIMITS;

pub struct Runs {
    modes: Modes,
    done: u64,
}

impl Runs {
    pub(super) fn new(modes: Modes) -> Runs {
        Runs { modes, done: 0 }
    }
}

impl Family for Runs {
    fn progress(&self) -> String {
        let name = match self.modes {
            Modes::Plain => "long runs for the searches and the sum",
            Modes::Parity => "long runs for the parity",
        };
        format!("{} {name}", self.done)
    }

    fn part(&mut self, run: &mut Run, random: &mut Random) -> Result<(), Stop> {
        for _ in 0..128 {
            self.done += 1;
            let most = if random.once_in(256) { 30_000 } else { 420 };
            let length = random.between(0, most);
            let window = match (self.modes, random.below(3)) {
                (Modes::Parity, 0) => stray(random, length),
                (Modes::Parity, _) => rtcm(random, length),
                (Modes::Plain, 0) => search(random, length),
                (Modes::Plain, 1) => sentence(random, length),
                (Modes::Plain, _) => payload(random, length.min(16_384)),
            };
            case(run, random, window, self.modes)?;
        }
        Ok(())
    }
}

/// No byte of these is a sync byte; each is next to one, or to CR or LF.
const NEARLY: [u8; 16] = [
    0xB4, 0xB6, 0x35, 0xA5, 0xD2, 0xD4, 0x53, 0xC3, 0x23, 0x25, 0xA4, 0x34, 0x0C, 0x0E, 0x0B, 0x62,
];

fn nearly(random: &mut Random, to: &mut Vec<u8>, length: usize) {
    if random.once_in(2) {
        let byte = random.pick(&NEARLY);
        to.resize(to.len() + length, byte);
    } else {
        (0..length).for_each(|_| to.push(random.pick(&NEARLY)));
    }
}

/// A run, then a sync byte of some mode or T, then a run.
fn search(random: &mut Random, length: usize) -> Vec<u8> {
    let mut window = Vec::new();
    nearly(random, &mut window, length);
    match random.below(5) {
        0 => window.extend_from_slice(&T),
        1 => {}
        _ => window.push(random.pick(&[B5, D3, DOLLAR])),
    }
    let behind = random.below(40);
    nearly(random, &mut window, behind);
    window
}

/// A sentence with lone CRs and LFs in it, its end mark anywhere or missing.
fn sentence(random: &mut Random, length: usize) -> Vec<u8> {
    let mut window = vec![DOLLAR];
    for _ in 0..length {
        window.push(match random.below(20) {
            0 => 0x0A,
            1 if window.last() != Some(&0x0D) => 0x0D,
            _ => b'A',
        });
    }
    // A LF at once behind a CR would be an end; most of these are taken out.
    for i in 1..window.len() {
        if window[i - 1] == 0x0D && window[i] == 0x0A && !random.once_in(16) {
            window[i] = b'B';
        }
    }
    if !random.once_in(8) {
        window.extend_from_slice(&[0x0D, 0x0A]);
    }
    let behind = random.below(20);
    nearly(random, &mut window, behind);
    window
}

/// A UBX frame, whole, or with one byte changed or two swapped.
fn payload(random: &mut Random, n: usize) -> Vec<u8> {
    let mut window = Vec::new();
    let payload = any_bytes(random, n);
    let (class, id) = (random.byte(), random.byte());
    bytes::put_ubx(&mut window, class, id, &payload, 0, 0);
    change(random, &mut window, 2);
    window.extend_from_slice(&T);
    window
}

/// An RTCM frame with its parity, so changed behind its head; n is often near 1,023.
fn rtcm(random: &mut Random, n: usize) -> Vec<u8> {
    let n = if random.once_in(16) { random.between(900, 1023) } else { n.min(1023) };
    let mut window = Vec::new();
    bytes::put_rtcm_head(&mut window, n, random.byte() & 63);
    window.extend(any_bytes(random, n));
    bytes::put_parity(&mut window, 0, [0; 3]);
    change(random, &mut window, 3);
    window.extend_from_slice(&T);
    window
}

/// D3 by itself, before UBX frames that it reads as its own payload, or before noise.
fn stray(random: &mut Random, length: usize) -> Vec<u8> {
    let mut window = vec![D3];
    if random.once_in(4) {
        nearly(random, &mut window, length);
    }
    for _ in 0..random.below(8) {
        let payload = any_bytes(random, length.min(200));
        bytes::put_ubx(&mut window, 1, 2, &payload, 0, 0);
    }
    window.extend_from_slice(&T);
    window
}

/// Changes one byte, swaps two, or leaves all as they are; those before `from` stay.
fn change(random: &mut Random, window: &mut [u8], from: usize) {
    let last = window.len() - 1;
    match random.below(3) {
        0 => {
            let at = random.between(from, last);
            window[at] = window[at].wrapping_add(random.pick(&[1, 0xFF, 0x80]));
        }
        1 => {
            let (one, other) = (random.between(from, last), random.between(from, last));
            window.swap(one, other);
        }
        _ => {}
    }
}

/// The window on its two sides, with bytes used up before each.
fn case(run: &mut Run, random: &mut Random, window: Vec<u8>, modes: Modes) -> Result<(), Stop> {
    let limit = LIMIT as usize;
    let (off, part_used) = (random.below(20), random.below(20));
    let least = window.len().saturating_sub(limit - part_used);
    let most = window.len().min(limit - off);
    let in_carry = if random.once_in(2) {
        random.edge(least, most)
    } else {
        (random.between(least, most) / 16 * 16).clamp(least, most)
    };
    let live = off + in_carry;
    let c = random.near(live.max(window.len() + 4), 8, limit).max(live);
    let max = LIMITS[LIMITS.partition_point(|max| usize::from(*max) < window.len())];
    let setting = Setting { mode: modes.any(random), max, c };
    let mut carry = any_bytes(random, c);
    carry[off..live].copy_from_slice(&window[..in_carry]);
    let mut chunk = any_bytes(random, part_used);
    chunk.extend_from_slice(&window[in_carry..]);
    let mut state = state_of(random, &setting, live);
    let words = [off, 0, 1, chunk.len(), part_used];
    (OFF..=PART_USED).zip(words).for_each(|(at, word)| state[at] = word as u64);
    run.begin(&state, &carry, &chunk);
    run.step_on(3);
    run.call(Call::Close);
    run.end()
}
