//! The first side: the Rust, behind the refusals that it has none of. In a mode with parity it is the Rust
//! corrected as 02 says; opening and closing are the Rust's own in every mode.

use crate::framer::{Framer, Lent};
use crate::refusals;
use crate::words::*;
use ublox_framing::numbers::{self, Lies, Said, Sides};
use ublox_framing::Numbers;

pub struct RustSide;

impl Framer for RustSide {
    fn start(&mut self, state: &mut State, lent: &mut Lent, mode: u64, max: u16) -> u64 {
        let refusal = refusals::of_start(mode, lent.carry_length);
        if refusal == NO_SUCH_MODE {
            return refusal;
        }
        let c = if refusal == 0 { lent.carry_length } else { 0 };
        state[..STATE_WORDS].copy_from_slice(&[mode, u64::from(max), c, 0, 0, 0, 0, 0, 0]);
        refusal
    }

    fn open(&mut self, state: &mut State, lent: &mut Lent) -> u64 {
        let refusal = refusals::of_open(state, lent.carry_length, lent.chunk_length);
        if refusal != 0 {
            return refusal;
        }
        let live = state[LIVE] as usize;
        let after = numbers::open(without_parity(state[MODE]), lent.carry, live, lent.chunk);
        state[OPEN] = 1;
        state[CHUNK_LENGTH] = lent.chunk_length;
        state[USED] = (live + lent.chunk.len() - after.window) as u64;
        put_numbers(state, &after);
        0
    }

    fn step(&mut self, state: &mut State, lent: &mut Lent, out: &mut [u64]) {
        let refusal = refusals::of_step_or_close(state, lent.carry_length, lent.chunk_length);
        if refusal != 0 {
            out.copy_from_slice(&[REFUSAL, 0, refusal, 0, 0, 0, 0, 0]);
            return;
        }
        step_granted(state, lent, out);
    }

    fn close(&mut self, state: &mut State, lent: &mut Lent, out: &mut [u64]) {
        out.fill(0);
        let refusal = refusals::of_step_or_close(state, lent.carry_length, lent.chunk_length);
        if refusal != 0 {
            out[0] = refusal;
            return;
        }
        let (kept, lost) = numbers::close(sides(state, lent));
        out[..4].copy_from_slice(&[0, state[USED], kept as u64, lost as u64]);
        state[LIVE] = kept as u64;
        for word in [OFF, USED, OPEN, CHUNK_LENGTH, PART_USED] {
            state[word] = 0;
        }
    }

    fn view(&mut self, lent: &Lent, side: u64, start: u64, length: u64) -> u64 {
        refusals::of_view(lent.carry_length, lent.chunk_length, side, start, length)
    }
}

fn sides<'a>(state: &State, lent: &'a mut Lent) -> Sides<'a> {
    Sides {
        carry: lent.carry,
        live: state[LIVE] as usize,
        off: state[OFF] as usize,
        chunk: lent.chunk,
        part_used: state[PART_USED] as usize,
    }
}

fn put_numbers(state: &mut State, numbers: &Numbers) {
    state[LIVE] = numbers.live as u64;
    state[OFF] = numbers.off as u64;
    state[PART_USED] = numbers.part_used as u64;
}

/// The Rust's `next`, with `used` and the position from the bytes that its window lost.
fn step_granted(state: &mut State, lent: &mut Lent, out: &mut [u64]) {
    let before = *state;
    let (mode, parity) = (without_parity(state[MODE]), has_parity(state[MODE]));
    let (said, after) = numbers::step(mode, parity, state[MAX] as u16, sides(state, lent));
    let w = (before[LIVE] - before[OFF]) + (before[CHUNK_LENGTH] - before[PART_USED]);
    let gone = w - after.window as u64;
    state[USED] += gone;
    put_numbers(state, &after);
    let sync_byte = |back: u64| state[USED] - back;
    let words = match said {
        Said::Ubx { class, id, payload } => {
            let n = payload.length as u64;
            let (side, start) = place(lent, payload);
            [UBX_FRAME, sync_byte(n + 8), class.into(), id.into(), side, start, n + 2, 0]
        }
        Said::Rtcm(body) => whole(RTCM_FRAME, sync_byte(body.length as u64), lent, body),
        Said::Sentence(body) => whole(SENTENCE, sync_byte(body.length as u64), lent, body),
        Said::WrongSum { expect, got } => {
            // The Rust has the two sums alone; class, id and length are the window's own bytes at the
            // head, whose first two bytes are the last ones drained.
            let head = |i: u64| u64::from(byte_of_window(&before, lent, gone - 2 + i));
            let n = head(4) + 256 * head(5);
            [WRONG_SUM, sync_byte(2), expect.into(), got.into(), head(2), head(3), n, 0]
        }
        Said::WrongParity { expect, got } => {
            [WRONG_PARITY, sync_byte(1), expect as u64, got as u64, 0, 0, 0, 0]
        }
        Said::NoRoom(size) => {
            // The last byte drained is 62 behind B5, or the one sync byte.
            let drained = if byte_of_window(&before, lent, gone - 1) == 0x62 { 2 } else { 1 };
            [NO_ROOM, sync_byte(drained), size as u64, 0, 0, 0, 0, 0]
        }
        Said::NeedMore => [NEED_MORE, 0, 0, 0, 0, 0, 0, 0],
        Said::Other => panic!("the Rust gave an error that framing does not have"),
    };
    out.copy_from_slice(&words);
}

/// The words of an RTCM frame or a sentence.
fn whole(kind: u64, position: u64, lent: &Lent, body: Lies) -> [u64; 8] {
    let (side, start) = place(lent, body);
    [kind, position, 0, 0, side, start, body.length as u64, 0]
}

/// The side that a slice of the Rust lies in, and its start there.
fn place(lent: &Lent, body: Lies) -> (u64, u64) {
    let carry = lent.carry.as_ptr() as usize;
    let chunk = lent.chunk.as_ptr() as usize;
    if (carry..carry + lent.carry.len()).contains(&body.address) {
        return (CARRY_SIDE, (body.address - carry) as u64);
    }
    assert!((chunk..chunk + lent.chunk.len()).contains(&body.address), "a body on no side");
    (CHUNK_SIDE, (body.address - chunk) as u64)
}

/// A byte of the window as it was before a step that wrote nothing.
fn byte_of_window(before: &State, lent: &Lent, at: u64) -> u8 {
    let rest = before[LIVE] - before[OFF];
    if at < rest {
        lent.carry[(before[OFF] + at) as usize]
    } else {
        lent.chunk[(before[PART_USED] + at - rest) as usize]
    }
}
