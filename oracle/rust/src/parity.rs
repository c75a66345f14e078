//! Parity, for the Rust that is corrected as 02's Ticket 4 says; the Rust itself has none.

use crate::ParserError;
use core::ops::Index;

/// The parity of a frame: so many bytes behind its n + 3.
pub const LENGTH: usize = 3;

/// What the corrected Rust calls its error: expect is the received parity, got the computed one.
pub const WRONG: &str = "RTCM parity";

/// Whether the three bytes behind the first `covered`, big-endian, are the CRC-24Q of these.
pub fn validate_buffer(
    buf: &impl Index<usize, Output = u8>,
    covered: usize,
) -> Result<(), ParserError> {
    let got = crc24q((0..covered).map(|i| buf[i])) as usize;
    let expect = (covered..covered + LENGTH).fold(0, |word, i| word << 8 | usize::from(buf[i]));
    if expect == got {
        return Ok(());
    }
    Err(ParserError::InvalidPacketLen { packet: WRONG, expect, got })
}

/// CRC-24Q: polynomial 1864CFB, start 0, no reflection; 123456789 gives CDE703.
pub fn crc24q(bytes: impl Iterator<Item = u8>) -> u32 {
    bytes.fold(0, |crc, byte| {
        let mut crc = crc ^ u32::from(byte) << 16;
        for _ in 0..8 {
            crc <<= 1;
            if crc & 0x100_0000 != 0 {
                crc ^= 0x186_4CFB;
            }
        }
        crc
    })
}
