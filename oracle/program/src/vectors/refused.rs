//! refusals.bin: 01's table, clause by clause, at each edge and one past it, with the calls beside it
//! that are not refused. Every lent byte is 55, before and after.

use crate::framer::{Framer, Lent};
use crate::run::Record;
use crate::rust_side::RustSide;
use crate::words::*;
use ublox_framing::numbers::LIMITS;

/// Every byte that is lent: no sync byte, so no answer moves or copies anything that could be seen.
const LENT: u8 = 0x55;

/// The records of the list.
pub fn records() -> Vec<Record> {
    let mut list = Refused::default();
    every_word(&mut list);
    every_length(&mut list);
    every_sum(&mut list);
    every_start(&mut list);
    every_view(&mut list);
    every_mode_with_parity(&mut list);
    list.records
}

/// Puts a record as 32 words: operation, two lengths, three arguments, nine state words before and
/// nine after, eight out words.
pub fn put(to: &mut Vec<u8>, record: &Record) {
    let arguments = match record.call {
        Call::Start { mode, max } => [mode, u64::from(max), 0],
        Call::View { side, start, length } => [side, start, length],
        _ => [0; 3],
    };
    let lengths = [record.carry_before.len() as u64, record.chunk.len() as u64];
    let states = record.before[..STATE_WORDS].iter().chain(&record.after[..STATE_WORDS]);
    let operation = [record.call.operation() as u64 + 1];
    let call = operation.iter().chain(&lengths).chain(&arguments);
    let words = call.chain(states).chain(&record.out[..8]);
    words.for_each(|word| to.extend(word.to_le_bytes()));
}

/// A state with words 0 to 8 as given.
fn state(first: [u64; 9]) -> State {
    let mut state = [0; 24];
    state[..STATE_WORDS].copy_from_slice(&first);
    state
}

fn idle() -> State {
    state([1, 16, 23, 7, 0, 0, 0, 0, 0])
}

fn open() -> State {
    state([2, 16, 23, 7, 3, 5, 1, 9, 2])
}

const ON_STATES: [Call; 3] = [Call::Open, Call::Step, Call::Close];

#[derive(Default)]
struct Refused {
    records: Vec<Record>,
}

impl Refused {
    /// Does the call on buffers of such lengths, and keeps it with what came of it. A limit that the
    /// Rust was not built for is left out.
    fn add(&mut self, call: Call, before: &State, carry_length: usize, chunk_length: usize) {
        let max = u16::try_from(before[MAX]);
        if max.is_ok_and(|max| LIMITS.binary_search(&max).is_err()) {
            return;
        }
        let (mut after, mut out) = (*before, [0; 16]);
        let (mut carry, chunk) = (vec![LENT; carry_length], vec![LENT; chunk_length]);
        let mut lent = Lent {
            carry: &mut carry,
            carry_length: carry_length as u64,
            chunk: &chunk,
            chunk_length: chunk_length as u64,
        };
        RustSide.call(call, &mut after, &mut lent, &mut out);
        let carry_before = vec![LENT; carry_length];
        assert!(carry == carry_before, "a lent byte is not what it was");
        let before = *before;
        let carry_after = carry;
        self.records.push(Record { call, before, carry_before, chunk, after, carry_after, out });
    }
}

/// Each of the nine words of an idle and of an open state, at every edge of every clause.
fn every_word(list: &mut Refused) {
    let mut turn = 0;
    for base in [idle(), open()] {
        for at in 0..STATE_WORDS {
            let was = base[at];
            let mut values = vec![0, 1, 2, 3, 4, 6, 7, 8, 9, 10, 22, 23, 24];
            values.extend([was.wrapping_sub(1), was + 1, was + (1 << 16), was + (1 << 32)]);
            values.extend([16_384, 16_385, 65_535, 65_536, was + (1 << 63), u64::MAX]);
            values.sort_unstable();
            values.dedup();
            for value in values {
                let mut forged = base;
                forged[at] = value;
                let chunk_length = if base[OPEN] == 1 { 9 } else { 4 };
                list.add(ON_STATES[turn % 3], &forged, 23, chunk_length);
                turn += 1;
            }
        }
    }
}

/// Each operation with every length beside the right one, and with two things wrong at once.
fn every_length(list: &mut Refused) {
    for base in [idle(), open()] {
        for call in ON_STATES {
            for carry_length in [0, 22, 23, 24, 16_385] {
                list.add(call, &base, carry_length, 9);
            }
            for chunk_length in [0, 8, 9, 10, 16_384, 16_385] {
                list.add(call, &base, 23, chunk_length);
            }
            list.add(call, &base, 22, 16_385);
        }
    }
    let whole = state([3, 65_535, 16_384, 16_384, 0, 0, 0, 0, 0]);
    let longer = state([3, 65_535, 16_385, 16_384, 0, 0, 0, 0, 0]);
    list.add(Call::Open, &whole, 16_384, 16_384);
    list.add(Call::Open, &whole, 16_384, 16_385);
    list.add(Call::Open, &longer, 16_385, 0);
}

/// used + w at 32,768 and past it, with sums that 64 bits do not hold.
fn every_sum(list: &mut Refused) {
    for call in [Call::Step, Call::Close, Call::Open] {
        // w is 11: 4 left of the carry, 7 of the chunk.
        for used in [0, 32_756, 32_757, 32_758, 32_768, 32_769, u64::MAX - 10, u64::MAX - 11] {
            let mut sum = open();
            sum[USED] = used;
            list.add(call, &sum, 23, 9);
        }
        let full = state([1, 0, 16_384, 16_384, 0, 0, 1, 16_384, 0]);
        let mut over = full;
        over[USED] = 1;
        list.add(call, &full, 16_384, 16_384);
        list.add(call, &over, 16_384, 16_384);
        // off past live and part used past the chunk length by as much: w, if it wrapped, would fit.
        list.add(call, &state([1, 0, 23, 7, 8, 0, 1, 9, 8]), 23, 9);
        list.add(call, &state([1, 0, 23, 7, 6, 0, 1, 9, 10]), 23, 9);
        list.add(call, &state([1, 0, 23, 7, 7, 0, 1, 9, 9]), 23, 9);
    }
}

fn every_start(list: &mut Refused) {
    let anything = state([9, 8, 7, 6, 5, 4, 3, 2, 1]);
    // The words before a start may be anything; this limit keeps the record in the list.
    for mode in [0, 1, 2, 3, 4, 255, 257, (1 << 32) + 1, u64::MAX] {
        for carry_length in [0, 23, 16_384, 16_385] {
            list.add(Call::Start { mode, max: 240 }, &anything, carry_length, 0);
        }
    }
    for max in [0, 1, 65_535] {
        list.add(Call::Start { mode: 1, max }, &anything, 23, 0);
    }
}

fn every_view(list: &mut Refused) {
    let untouched = idle();
    for side in [0, 1] {
        let end = if side == 0 { 23 } else { 9 };
        let places = [
            (0, 0),
            (0, end),
            (0, end + 1),
            (end, 0),
            (end, 1),
            (end + 1, 0),
            (1, end - 1),
            (1, end),
            (end - 1, 1),
            (u64::MAX, 1),
            (1, u64::MAX),
            (u64::MAX, u64::MAX),
            (1 << 32, 0),
            (u64::MAX - 1, 3),
        ];
        for (start, length) in places {
            list.add(Call::View { side, start, length }, &untouched, 23, 9);
        }
    }
    for side in [2, 3, 256, 1 << 32, u64::MAX] {
        list.add(Call::View { side, start: 0, length: 1 }, &untouched, 23, 9);
    }
    list.add(Call::View { side: 0, start: 0, length: 0 }, &untouched, 0, 0);
    list.add(Call::View { side: 1, start: 0, length: 1 }, &untouched, 9, 0);
}

/// The modes with parity and the numbers beside them: started, and as the word of a state.
fn every_mode_with_parity(list: &mut Refused) {
    let anything = state([9, 8, 7, 6, 5, 4, 3, 2, 1]);
    for mode in [15, 16, 17, 18, 19, 20, 32, 33, 34, 256 + 17, (1 << 32) + 17, (1 << 63) + 18] {
        for carry_length in [23, 16_384, 16_385] {
            list.add(Call::Start { mode, max: 240 }, &anything, carry_length, 0);
        }
        for base in [idle(), open()] {
            let mut forged = base;
            forged[MODE] = mode;
            let chunk_length = if base[OPEN] == 1 { 9 } else { 4 };
            for call in ON_STATES {
                list.add(call, &forged, 23, chunk_length);
            }
        }
    }
}
