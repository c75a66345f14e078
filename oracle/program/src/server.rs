//! Memory with a framer over it, driven by requests: the side of the comparison that lives in this
//! program. oracle/README.md says how requests and replies are laid out; the library's process
//! answers the same requests with the same bytes.

use crate::framer::{Framer, Lent};
use crate::words::*;

/// The requests' numbers; 1 to 5 are the calls, in the order of `CALLS`.
pub const LOAD: u64 = 6;
pub const CHUNK: u64 = 7;
pub const HUGE: u64 = 8;
pub const SPOIL: u64 = 9;

/// More than any buffer that is lent and held.
const ROOM: usize = 32_768;

pub struct Server<F> {
    framer: F,
    pub state: State,
    carry: Vec<u8>,
    pub carry_length: u64,
    chunk: Vec<u8>,
    pub chunk_length: u64,
    pub out: [u64; 16],
}

impl<F: Framer> Server<F> {
    pub fn new(framer: F) -> Server<F> {
        Server {
            framer,
            state: [0; 24],
            carry: vec![0; ROOM],
            carry_length: 0,
            chunk: vec![0; ROOM],
            chunk_length: 0,
            out: [0; 16],
        }
    }

    pub fn load(&mut self, state: &State, carry: &[u8]) {
        self.state = *state;
        self.carry[..carry.len()].copy_from_slice(carry);
        self.carry_length = carry.len() as u64;
    }

    pub fn load_chunk(&mut self, chunk: &[u8]) {
        self.chunk[..chunk.len()].copy_from_slice(chunk);
        self.chunk_length = chunk.len() as u64;
    }

    /// Lends more than is held; 0 leaves a buffer as it is.
    pub fn lend_huge(&mut self, carry_length: u64, chunk_length: u64) {
        if carry_length != 0 {
            self.carry_length = carry_length;
        }
        if chunk_length != 0 {
            self.chunk_length = chunk_length;
        }
    }

    /// The lent carry, empty where it is huge.
    pub fn carry(&self) -> &[u8] {
        &self.carry[..held(self.carry_length)]
    }

    /// The lent chunk, empty where it is huge.
    pub fn chunk(&self) -> &[u8] {
        &self.chunk[..held(self.chunk_length)]
    }

    /// Does a call on the memory as it stands, and puts the reply behind `replies`.
    pub fn call(&mut self, call: Call, replies: &mut Vec<u8>) {
        let mut lent = Lent {
            carry: &mut self.carry[..held(self.carry_length)],
            carry_length: self.carry_length,
            chunk: &self.chunk[..held(self.chunk_length)],
            chunk_length: self.chunk_length,
        };
        self.framer.call(call, &mut self.state, &mut lent, &mut self.out);
        put_word(replies, 0);
        self.out[..call.outs()].iter().for_each(|word| put_word(replies, *word));
        self.state[..STATE_WORDS].iter().for_each(|word| put_word(replies, *word));
        put_bytes(replies, self.carry());
        if call == Call::Step && (UBX_FRAME..=SENTENCE).contains(&self.out[0]) {
            put_bytes(replies, self.body());
        }
    }

    /// The bytes at the place that a step has just handed out.
    fn body(&self) -> &[u8] {
        let side = if self.out[4] == CARRY_SIDE { self.carry() } else { self.chunk() };
        let start = self.out[5] as usize;
        side.get(start..start + self.out[6] as usize).unwrap_or(&[])
    }

    /// Does one request, from the first word of `words` on; answers how many words it had, and the
    /// call where it was one.
    pub fn request(&mut self, words: &[u8], replies: &mut Vec<u8>) -> (usize, Option<Call>) {
        let word = |i: usize| word_of(words, i);
        match word(0) {
            LOAD => {
                let length = word(1) as usize;
                let state: State = std::array::from_fn(|i| word(3 + i));
                self.load(&state, &words[27 * 8..27 * 8 + length]);
                (27 + length.div_ceil(8), None)
            }
            CHUNK => {
                let length = word(1) as usize;
                self.load_chunk(&words[24..24 + length]);
                (3 + length.div_ceil(8), None)
            }
            HUGE => {
                self.lend_huge(word(1), word(2));
                (3, None)
            }
            SPOIL => (2, None),
            _ => {
                let (count, call) = call_of(words);
                self.call(call, replies);
                (count, Some(call))
            }
        }
    }
}

/// The call that stands at the beginning of `words`, and how many words it has.
pub fn call_of(words: &[u8]) -> (usize, Call) {
    let word = |i: usize| word_of(words, i);
    match word(0) {
        1 => (3, Call::Start { mode: word(1), max: word(2) as u16 }),
        2 => (1, Call::Open),
        3 => (1, Call::Step),
        4 => (1, Call::Close),
        5 => (4, Call::View { side: word(1), start: word(2), length: word(3) }),
        other => panic!("no request has the number {other}"),
    }
}

/// Puts a call's request behind `requests`.
pub fn put_call(requests: &mut Vec<u8>, call: Call) {
    put_word(requests, call.operation() as u64 + 1);
    match call {
        Call::Start { mode, max } => {
            put_word(requests, mode);
            put_word(requests, u64::from(max));
        }
        Call::View { side, start, length } => {
            [side, start, length].iter().for_each(|word| put_word(requests, *word));
        }
        _ => {}
    }
}

/// Puts a load's request behind `requests`; `shift` is where the library's process puts the carry.
pub fn put_load(requests: &mut Vec<u8>, state: &State, carry: &[u8], shift: u64) {
    [LOAD, carry.len() as u64, shift].iter().for_each(|word| put_word(requests, *word));
    state.iter().for_each(|word| put_word(requests, *word));
    put_bytes(requests, carry);
}

pub fn put_load_chunk(requests: &mut Vec<u8>, chunk: &[u8], shift: u64) {
    [CHUNK, chunk.len() as u64, shift].iter().for_each(|word| put_word(requests, *word));
    put_bytes(requests, chunk);
}

pub fn put_word(to: &mut Vec<u8>, word: u64) {
    to.extend_from_slice(&word.to_le_bytes());
}

/// Bytes, filled up with 0 to a whole word.
fn put_bytes(to: &mut Vec<u8>, bytes: &[u8]) {
    to.extend_from_slice(bytes);
    to.resize(to.len().next_multiple_of(8), 0);
}

pub fn word_of(words: &[u8], i: usize) -> u64 {
    u64::from_le_bytes(words[8 * i..8 * i + 8].try_into().expect("eight bytes"))
}

/// How many bytes are held of so many lent: all, or none where they are more than is held.
fn held(length: u64) -> usize {
    if length <= ROOM as u64 {
        length as usize
    } else {
        0
    }
}
