//! The rows of the table: what each stream is made of.

use crate::random::Random;
use ublox_framing::parity::crc24q;

/// Every stream has about so many bytes: few enough to stay in a processor's cache.
const STREAM: usize = 262_144;

/// A row: its name, the mode that it is framed in, and one more piece of its stream.
pub struct Row {
    pub name: &'static str,
    pub mode: u64,
    piece: fn(&mut Random, &mut Vec<u8>),
}

pub const ROWS: &[Row] = &[
    Row { name: "payload 8", mode: 1, piece: |random, to| ubx(random, to, 8) },
    Row { name: "payload 92", mode: 1, piece: |random, to| ubx(random, to, 92) },
    Row { name: "payload 240", mode: 1, piece: |random, to| ubx(random, to, 240) },
    Row { name: "payload 557", mode: 1, piece: |random, to| ubx(random, to, 557) },
    Row { name: "half noise", mode: 1, piece: half_noise },
    Row { name: "random noise", mode: 1, piece: |random, to| noise(random, to, 100) },
    Row { name: "noise, no sync byte", mode: 1, piece: no_sync },
    Row { name: "UBX and RTCM", mode: 2, piece: ubx_and_rtcm },
    Row { name: "UBX and NMEA", mode: 3, piece: ubx_and_nmea },
    Row { name: "false heads", mode: 1, piece: false_head },
];

/// The row with parity, which the Rust has not: it stands below the table, beside the same stream framed
/// without.
pub const WITH_PARITY: Row =
    Row { name: "UBX and RTCM with parity", mode: 18, piece: ubx_and_rtcm_with_parity };

impl Row {
    /// The row's stream, the same at every run.
    pub fn stream(&self) -> Vec<u8> {
        let mut random = Random::new(1);
        let mut stream = Vec::new();
        while stream.len() < STREAM {
            (self.piece)(&mut random, &mut stream);
        }
        stream
    }
}

/// The stream in chunks of `size`. Every 16th is a byte shorter, so that frames are cut at every place.
pub fn cut(stream: &[u8], size: usize) -> Vec<&[u8]> {
    let mut chunks = Vec::new();
    let mut rest = stream;
    while !rest.is_empty() {
        let length = if chunks.len() % 16 == 15 { size - 1 } else { size };
        let (chunk, later) = rest.split_at(length.min(rest.len()));
        chunks.push(chunk);
        rest = later;
    }
    chunks
}

fn noise(random: &mut Random, to: &mut Vec<u8>, length: usize) {
    let from = to.len();
    to.resize(from + length, 0);
    random.fill(&mut to[from..]);
}

/// A frame with a random payload of n bytes, and its right sum.
fn ubx(random: &mut Random, to: &mut Vec<u8>, n: u16) {
    let [low, high] = n.to_le_bytes();
    to.extend_from_slice(&[0xB5, 0x62, 0x01, random.byte(), low, high]);
    noise(random, to, n.into());
    let summed = &to[to.len() - usize::from(n) - 4..];
    let (a, b) = summed.iter().fold((0u8, 0u8), |(a, b), byte| {
        let a = a.wrapping_add(*byte);
        (a, b.wrapping_add(a))
    });
    to.extend_from_slice(&[a, b]);
}

/// A frame of 100 bytes, then 100 random bytes.
fn half_noise(random: &mut Random, to: &mut Vec<u8>) {
    ubx(random, to, 92);
    noise(random, to, 100);
}

fn no_sync(random: &mut Random, to: &mut Vec<u8>) {
    let byte = random.byte();
    if ![0xB5, 0xD3, 0x24].contains(&byte) {
        to.push(byte);
    }
}

/// A frame of 100 bytes, then an RTCM frame of 40 to 299 bytes with three bytes of parity.
fn ubx_and_rtcm(random: &mut Random, to: &mut Vec<u8>) {
    ubx(random, to, 92);
    let n = random.between(40, 299);
    to.extend_from_slice(&[0xD3, (n / 256) as u8, (n % 256) as u8]);
    noise(random, to, n + 3);
}

/// The same with right parities. A frame whose parity has a sync byte is left out, so that who passes
/// over these bytes as noise finds the same frames.
fn ubx_and_rtcm_with_parity(random: &mut Random, to: &mut Vec<u8>) {
    ubx(random, to, 92);
    let n = random.between(40, 299);
    let from = to.len();
    to.extend_from_slice(&[0xD3, (n / 256) as u8, (n % 256) as u8]);
    noise(random, to, n);
    let [_, parity @ ..] = crc24q(to[from..].iter().copied()).to_be_bytes();
    if parity.iter().any(|byte| [0xB5, 0xD3].contains(byte)) {
        to.truncate(from);
    } else {
        to.extend_from_slice(&parity);
    }
}

/// A frame of 100 bytes, then a sentence of 73 bytes.
fn ubx_and_nmea(random: &mut Random, to: &mut Vec<u8>) {
    ubx(random, to, 92);
    to.extend_from_slice(b"$GNGGA,");
    for _ in 0..61 {
        to.push(random.pick(b"0123456789.,NEM"));
    }
    to.extend_from_slice(b"*5E\r\n");
}

/// What looks like the beginning of a frame and is none: B5 alone, n over MAX, or a wrong sum.
fn false_head(random: &mut Random, to: &mut Vec<u8>) {
    match random.below(3) {
        0 => to.extend_from_slice(&[0xB5, 0x61]),
        1 => to.extend_from_slice(&[0xB5, 0x62, 0x01, 0x07, 0x00, 0x80]),
        _ => to.extend_from_slice(&[0xB5, 0x62, 0x01, 0x07, random.below(64) as u8, 0x00]),
    }
}
