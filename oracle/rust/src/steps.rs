//! A step of the parser that stands beside this file: of the Rust as it is, and once more of the Rust
//! corrected by parity.

use super::parser::{
    AnyPacketRef, FixedLinearBuffer, UbxParserIter, UbxRtcmNmeaParserIter, UbxRtcmParserIter,
};
use crate::numbers::{undropped, Lies, Said, Sides, Step, StepOf};
use crate::{parity, Holding, ParserError, Reach, UbxPacket, UbxProtocol};
use crate::{Limit, Numbers};

impl<P: UbxProtocol> Step for UbxParserIter<'_, FixedLinearBuffer<'_>, P> {
    fn step(&mut self) -> Said {
        match self.next() {
            Some(Ok(packet)) => ubx(packet),
            Some(Err(error)) => failed(error),
            None => Said::NeedMore,
        }
    }
}

impl<P: UbxProtocol> Step for UbxRtcmParserIter<'_, FixedLinearBuffer<'_>, P> {
    fn step(&mut self) -> Said {
        any(self.next())
    }
}

impl<P: UbxProtocol> Step for UbxRtcmNmeaParserIter<'_, FixedLinearBuffer<'_>, P> {
    fn step(&mut self) -> Said {
        any(self.next())
    }
}

fn any(next: Option<Result<AnyPacketRef<'_>, ParserError>>) -> Said {
    match next {
        Some(Ok(AnyPacketRef::Ubx(packet))) => ubx(packet),
        Some(Ok(AnyPacketRef::Rtcm(packet))) => Said::Rtcm(Lies::of(packet.data)),
        Some(Ok(AnyPacketRef::Nmea(packet))) => Said::Sentence(Lies::of(packet.data)),
        Some(Err(error)) => failed(error),
        None => Said::NeedMore,
    }
}

fn ubx(packet: UbxPacket<'_>) -> Said {
    Said::Ubx { class: packet.class, id: packet.id, payload: Lies::of(packet.payload) }
}

fn failed(error: ParserError) -> Said {
    match error {
        ParserError::InvalidChecksum { expect, got } => Said::WrongSum { expect, got },
        ParserError::OutOfMemory { required_size } => Said::NoRoom(required_size),
        ParserError::InvalidPacketLen { packet: parity::WRONG, expect, got } => {
            Said::WrongParity { expect, got }
        }
        _ => Said::Other,
    }
}

macro_rules! step_of {
    ($name:ident, $iterator:ident) => {
        fn $name<const MAX: u16>(sides: Sides) -> (Said, Numbers) {
            let mut carry = FixedLinearBuffer::holding(sides.carry, sides.live);
            let mut iterator = undropped($iterator::<_, Limit<MAX>>::at(
                &mut carry,
                sides.off,
                sides.chunk,
                sides.part_used,
            ));
            let said = iterator.step();
            (said, iterator.numbers())
        }
    };
}

step_of!(step_ubx, UbxParserIter);
step_of!(step_ubx_rtcm, UbxRtcmParserIter);
step_of!(step_ubx_rtcm_nmea, UbxRtcmNmeaParserIter);

macro_rules! steps {
    ($($max:literal)*) => {
        /// For each of `LIMITS` a step of each mode.
        pub const STEPS: &[[StepOf; 3]] = &[$(
            [step_ubx::<$max>, step_ubx_rtcm::<$max>, step_ubx_rtcm_nmea::<$max>]
        ),*];
    };
}

for_limits!(steps);
