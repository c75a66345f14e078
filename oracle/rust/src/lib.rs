//! The crate root that the framing files of ublox 0.10.0 expect, and nothing of theirs: parser.rs,
//! parser/buffer.rs, parser/checksum.rs, constants.rs and error.rs are put beside this file by
//! oracle/build. `numbers` calls them with 01's numbers; oracle/speed leaves it out and calls them itself.
#![allow(dead_code)]

// The edges of a payload limit: the smallest ones; one and two length bytes (255, 256); C 0 to 130
// less 7; 01's 16 and 240; an RTCM frame's 1,023 and 1,026; C = 16,384 and that less 7; all 16 bits.
#[cfg(feature = "numbers")]
macro_rules! for_limits {
    ($then:ident) => {
        $then! {
            0 1 2 3 4 5 6 7 8 9 10 11 12 13 14 15 16 17 18 19 20 21 22 23 24 25 31 32 33 40 63 64 65
            73 74 75 76 80 81 82 83 84 89 90 100 115 116 117 121 122 123 124 127 128 129 130
            239 240 241 246 247 248 249 250 254 255 256 257 511 512 513
            1015 1016 1017 1018 1019 1020 1021 1022 1023 1024 1025 1026 1027 4095 4096 8192
            16374 16375 16376 16377 16378 16379 16382 16383 16384 16385 32767 32768 65533 65534 65535
        }
    };
}

pub mod constants;
/// The Rust corrected as 02's Ticket 4 says: parser.rs with a changed rule 3, and all else once more.
#[cfg(feature = "numbers")]
mod corrected {
    mod parser;
    pub mod steps;
}
mod error;
#[cfg(feature = "numbers")]
pub mod numbers;
pub mod parity;
mod parser;
#[cfg(feature = "numbers")]
mod steps;

pub use error::ParserError;
pub use parser::{AnyPacketRef, FixedLinearBuffer, Parser, UnderlyingBuffer};

/// What stands in for `match_packet`'s result: class, id and payload.
#[derive(Debug)]
pub struct UbxPacket<'a> {
    pub class: u8,
    pub id: u8,
    pub payload: &'a [u8],
}

/// The one thing that the framing asks of a protocol.
pub trait UbxProtocol: Send + Sized {
    const MAX_PAYLOAD_LEN: u16;
}

/// A protocol for each payload limit.
pub struct Limit<const MAX: u16>;

impl<const MAX: u16> UbxProtocol for Limit<MAX> {
    const MAX_PAYLOAD_LEN: u16 = MAX;
}

/// parser.rs names a default protocol; nothing here uses it.
pub mod proto14 {
    pub type Proto14 = crate::Limit<0>;
}

/// The numbers of a state that the Rust itself holds.
#[derive(Clone, Copy, Debug, PartialEq, Eq)]
pub struct Numbers {
    pub live: usize,
    pub off: usize,
    pub part_used: usize,
    /// The bytes of the window.
    pub window: usize,
    /// The bytes of the window that a drop would lose.
    pub would_lose: usize,
}

/// A `FixedLinearBuffer` whose first `live` bytes hold data.
pub trait Holding<'b> {
    fn holding(carry: &'b mut [u8], live: usize) -> Self;
}

/// An iterator of the Rust at any state, and its numbers.
pub trait Reach<'a, 'b> {
    type Carry;
    fn at(carry: &'a mut Self::Carry, off: usize, chunk: &'a [u8], part_used: usize) -> Self;
    fn numbers(&self) -> Numbers;
}
