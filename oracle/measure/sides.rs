//! The two sides, each over a whole stream: opened on each chunk, stepped until need more, closed. What
//! they answer is told to an `Ear` in the same terms, so that it can be compared.

use ublox_framing::{AnyPacketRef, FixedLinearBuffer, Limit, Parser, ParserError, UbxPacket};

/// The payload limit, as in the crate's own protocols, and a carry that loses nothing with it.
const MAX: u16 = 1240;
pub const CARRY: usize = 2048;

const UBX_FRAME: u64 = 1;
pub const RTCM_FRAME: u64 = 2;
const SENTENCE: u64 = 3;
const WRONG_SUM: u64 = 4;
const NO_ROOM: u64 = 5;
const NEED_MORE: u64 = 6;
const WRONG_PARITY: u64 = 8;
/// What a mode with parity has more in its number.
pub const PARITY: u64 = 16;
const UBX_CHECKSUM_LEN: usize = 2;

/// Where answers go: a frame with its body (a UBX frame's is its payload); an answer without one; the
/// end of a chunk, with the number of bytes kept.
pub trait Ear {
    fn frame(&mut self, kind: u64, class: u8, id: u8, body: *const u8, length: usize);
    fn plain(&mut self, kind: u64, x: u64, y: u64);
    fn closed(&mut self, kept: u64);
}

/// A stream in its chunks, the mode that it is framed in, and the carry.
pub struct Stream<'a> {
    pub mode: u64,
    pub carry: &'a mut [u8; CARRY],
    pub chunks: &'a [&'a [u8]],
}

/// The Rust, as its documentation has it used.
pub struct Rust<'a> {
    mode: u64,
    parser: Parser<FixedLinearBuffer<'a>, Limit<MAX>>,
    chunks: &'a [&'a [u8]],
}

macro_rules! each_chunk {
    ($parser:expr, $consume:ident, $chunks:expr, $ear:ident, $hear:ident) => {
        for chunk in $chunks {
            let mut iterator = $parser.$consume(chunk);
            while let Some(said) = iterator.next() {
                match said {
                    Ok(packet) => $hear($ear, packet),
                    Err(error) => failed($ear, error),
                }
            }
            drop(iterator);
            $ear.closed($parser.buffer_len() as u64);
        }
    };
}

impl<'a> Rust<'a> {
    pub fn start(stream: Stream<'a>) -> Rust<'a> {
        let parser = Parser::new(FixedLinearBuffer::new(stream.carry));
        Rust { mode: stream.mode, parser, chunks: stream.chunks }
    }

    #[inline(never)]
    pub fn run<E: Ear>(&mut self, ear: &mut E) {
        match self.mode {
            1 => each_chunk!(self.parser, consume_ubx, self.chunks, ear, ubx),
            2 => each_chunk!(self.parser, consume_ubx_rtcm, self.chunks, ear, any),
            _ => each_chunk!(self.parser, consume_ubx_rtcm_nmea, self.chunks, ear, any),
        }
    }
}

#[inline(always)]
fn ubx<E: Ear>(ear: &mut E, packet: UbxPacket<'_>) {
    ear.frame(UBX_FRAME, packet.class, packet.id, packet.payload.as_ptr(), packet.payload.len());
}

#[inline(always)]
fn any<E: Ear>(ear: &mut E, packet: AnyPacketRef<'_>) {
    match packet {
        AnyPacketRef::Ubx(packet) => ubx(ear, packet),
        AnyPacketRef::Rtcm(packet) => {
            ear.frame(RTCM_FRAME, 0, 0, packet.data.as_ptr(), packet.data.len());
        }
        AnyPacketRef::Nmea(packet) => {
            ear.frame(SENTENCE, 0, 0, packet.data.as_ptr(), packet.data.len());
        }
    }
}

#[inline(always)]
fn failed<E: Ear>(ear: &mut E, error: ParserError) {
    match error {
        ParserError::InvalidChecksum { expect, got } => {
            ear.plain(WRONG_SUM, expect.into(), got.into());
        }
        ParserError::OutOfMemory { required_size } => ear.plain(NO_ROOM, required_size as u64, 0),
        other => panic!("an error that framing does not have: {other}"),
    }
}

// include/orgnevis.h, word for word; c and k are the lengths of carry and chunk.
extern "C" {
    fn orgnevis_start(s: &mut [u64; 24], carry: *const u8, c: usize, mode: u64, max: u16) -> u64;
    fn orgnevis_open(
        s: &mut [u64; 24],
        carry: *const u8,
        c: usize,
        chunk: *const u8,
        k: usize,
    ) -> u64;
    fn orgnevis_step(
        s: &mut [u64; 24],
        carry: *mut u8,
        c: usize,
        chunk: *const u8,
        k: usize,
        out: &mut [u64; 8],
    );
    fn orgnevis_close(
        s: &mut [u64; 24],
        carry: *mut u8,
        c: usize,
        chunk: *const u8,
        k: usize,
        out: &mut [u64; 16],
    );
    fn orgnevis_view(
        carry: *const u8,
        c: usize,
        chunk: *const u8,
        k: usize,
        side: u64,
        start: u64,
        length: u64,
    ) -> u64;
}

/// The library, as its header has it used.
pub struct Library<'a> {
    state: [u64; 24],
    stream: Stream<'a>,
}

impl<'a> Library<'a> {
    pub fn start(stream: Stream<'a>) -> Library<'a> {
        let mut state = [0; 24];
        // SAFETY: the carry has the length that is told.
        unsafe { orgnevis_start(&mut state, stream.carry.as_ptr(), CARRY, stream.mode, MAX) };
        Library { state, stream }
    }

    /// With VIEW each place is tested by a view, which a caller may do and need not.
    #[inline(never)]
    pub fn run<const VIEW: bool, E: Ear>(&mut self, ear: &mut E) {
        let carry = self.stream.carry.as_mut_ptr();
        let mut out = [0; 16];
        for chunk in self.stream.chunks {
            let (bytes, length) = (chunk.as_ptr(), chunk.len());
            // SAFETY: carry and chunk have the lengths that are told.
            unsafe {
                orgnevis_open(&mut self.state, carry, CARRY, bytes, length);
                steps::<VIEW, E>(&mut self.state, carry, chunk, ear);
                orgnevis_close(&mut self.state, carry, CARRY, bytes, length, &mut out);
            }
            ear.closed(out[2]);
        }
    }
}

/// Steps until need more. The carry has CARRY bytes.
#[inline(always)]
unsafe fn steps<const VIEW: bool, E: Ear>(
    state: &mut [u64; 24],
    carry: *mut u8,
    chunk: &[u8],
    ear: &mut E,
) {
    let (bytes, length) = (chunk.as_ptr(), chunk.len());
    let mut out = [0; 8];
    loop {
        orgnevis_step(state, carry, CARRY, bytes, length, &mut out);
        let [kind, _, x, y, side, start, size, _] = out;
        match kind {
            UBX_FRAME | RTCM_FRAME | SENTENCE => {
                if VIEW && orgnevis_view(carry, CARRY, bytes, length, side, start, size) != 0 {
                    panic!("a place outside of its side");
                }
                let from = if side == 0 { carry.cast_const() } else { bytes };
                let check_bytes = if kind == UBX_FRAME { UBX_CHECKSUM_LEN } else { 0 };
                let body = from.wrapping_add(start as usize);
                ear.frame(kind, x as u8, y as u8, body, size as usize - check_bytes);
            }
            WRONG_SUM | NO_ROOM | WRONG_PARITY => ear.plain(kind, x, y),
            NEED_MORE => return,
            _ => panic!("the library answered {out:?}"),
        }
    }
}
