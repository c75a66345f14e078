//! The Rust's opening, step and closing as functions of numbers: each makes the Rust's own object at
//! the state asked for, calls the Rust once, and reads the numbers back. No state is refused here;
//! callers hand in states that 01 does not refuse.

use crate::parser::{Parser, UbxParserIter};
use crate::{corrected, steps};
use crate::{FixedLinearBuffer, Holding, Limit, Numbers, Reach, UnderlyingBuffer};
use std::mem::ManuallyDrop;

/// What a step said. A body is where the Rust's slice lies in memory, check bytes of a UBX frame not
/// included, as in the Rust.
#[derive(Clone, Copy, Debug, PartialEq, Eq)]
pub enum Said {
    Ubx {
        class: u8,
        id: u8,
        payload: Lies,
    },
    Rtcm(Lies),
    Sentence(Lies),
    WrongSum {
        expect: u16,
        got: u16,
    },
    NoRoom(usize),
    /// Of the corrected Rust alone.
    WrongParity {
        expect: usize,
        got: usize,
    },
    NeedMore,
    /// An error that framing does not have.
    Other,
}

/// A slice by its address and length.
#[derive(Clone, Copy, Debug, PartialEq, Eq)]
pub struct Lies {
    pub address: usize,
    pub length: usize,
}

impl Lies {
    pub fn of(bytes: &[u8]) -> Lies {
        Lies { address: bytes.as_ptr() as usize, length: bytes.len() }
    }
}

/// The window by its two sides: the carry with its live and off, the chunk with its part used.
pub struct Sides<'a> {
    pub carry: &'a mut [u8],
    pub live: usize,
    pub off: usize,
    pub chunk: &'a [u8],
    pub part_used: usize,
}

/// The numbers after the Rust opens an idle parser of mode 1, 2 or 3.
pub fn open(mode: u64, carry: &mut [u8], live: usize, chunk: &[u8]) -> Numbers {
    let mut parser: Parser<_, Limit<0>> = Parser::new(FixedLinearBuffer::holding(carry, live));
    match mode {
        1 => undropped(parser.consume_ubx(chunk)).numbers(),
        2 => undropped(parser.consume_ubx_rtcm(chunk)).numbers(),
        _ => undropped(parser.consume_ubx_rtcm_nmea(chunk)).numbers(),
    }
}

/// What the Rust's `next` says, and the numbers after it; with parity, what the corrected Rust's does.
/// The limit is one of `LIMITS`.
pub fn step(mode: u64, parity: bool, max: u16, sides: Sides) -> (Said, Numbers) {
    let at = LIMITS.binary_search(&max).expect("a payload limit that the oracle was built for");
    let which = if mode == 1 {
        0
    } else if mode == 2 {
        1
    } else {
        2
    };
    let steps = if parity { corrected::steps::STEPS } else { steps::STEPS };
    steps[at][which](sides)
}

/// What the Rust keeps when an iterator at this state is dropped, and what it loses.
pub fn close(sides: Sides) -> (usize, usize) {
    let mut carry = FixedLinearBuffer::holding(sides.carry, sides.live);
    let iterator: UbxParserIter<_, Limit<0>> =
        UbxParserIter::at(&mut carry, sides.off, sides.chunk, sides.part_used);
    let lost = iterator.numbers().would_lose;
    drop(iterator);
    (carry.len(), lost)
}

/// A whole life of one parser in the Rust's own hands: opened on each chunk, stepped as often as
/// `steps` says for that chunk, and dropped. Each call's numbers go to `tell`, with what a step said.
pub fn live_through<const MAX: u16>(
    mode: u64,
    carry: &mut [u8],
    chunks: &[(&[u8], usize)],
    tell: &mut dyn FnMut(Option<Said>, Numbers),
) -> usize {
    let mut parser: Parser<_, Limit<MAX>> = Parser::new(FixedLinearBuffer::new(carry));
    for (chunk, steps) in chunks {
        match mode {
            1 => step_on(parser.consume_ubx(chunk), *steps, tell),
            2 => step_on(parser.consume_ubx_rtcm(chunk), *steps, tell),
            _ => step_on(parser.consume_ubx_rtcm_nmea(chunk), *steps, tell),
        }
    }
    parser.buffer_len()
}

fn step_on<'a, 'b, I: Step + Reach<'a, 'b>>(
    mut iterator: I,
    steps: usize,
    tell: &mut dyn FnMut(Option<Said>, Numbers),
) {
    tell(None, iterator.numbers());
    for _ in 0..steps {
        let said = iterator.step();
        tell(Some(said), iterator.numbers());
    }
}

/// The iterator kept from closing.
pub fn undropped<I>(iterator: I) -> ManuallyDrop<I> {
    ManuallyDrop::new(iterator)
}

/// An iterator's `next`, told in numbers.
pub trait Step {
    fn step(&mut self) -> Said;
}

/// A step of one mode and limit.
pub type StepOf = fn(Sides) -> (Said, Numbers);

macro_rules! limits {
    ($($max:literal)*) => {
        /// The payload limits that the Rust is built for, in order.
        pub const LIMITS: &[u16] = &[$($max),*];
    };
}

for_limits!(limits);
