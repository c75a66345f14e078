//! What is done with the answers: sums of their words where a pass is measured, all of them and the
//! bodies' bytes where two passes are compared.

use crate::sides::Ear;

/// Cheap, and the same for both sides: what any caller would look at is looked at.
#[derive(Default, Clone, Copy, PartialEq, Eq, Debug)]
pub struct Tally {
    pub frames: u64,
    pub plain: u64,
    words: u64,
    places: usize,
}

impl Ear for Tally {
    #[inline(always)]
    fn frame(&mut self, kind: u64, class: u8, id: u8, body: *const u8, length: usize) {
        self.frames += 1;
        self.words += kind + u64::from(class) + u64::from(id) + length as u64;
        self.places = self.places.wrapping_add(body as usize);
    }

    #[inline(always)]
    fn plain(&mut self, kind: u64, x: u64, y: u64) {
        self.plain += 1;
        self.words += kind + x + y;
    }

    #[inline(always)]
    fn closed(&mut self, kept: u64) {
        self.words += kept;
    }
}

/// One answer, or the end of a chunk.
#[derive(PartialEq, Eq, Debug)]
pub enum Heard {
    Frame { kind: u64, class: u8, id: u8, place: usize, body: Vec<u8> },
    Plain { kind: u64, x: u64, y: u64 },
    Closed { kept: u64 },
}

impl Ear for Vec<Heard> {
    fn frame(&mut self, kind: u64, class: u8, id: u8, body: *const u8, length: usize) {
        let place = body as usize;
        // SAFETY: a body that was handed out just now.
        let body = unsafe { std::slice::from_raw_parts(body, length) }.to_vec();
        self.push(Heard::Frame { kind, class, id, place, body });
    }

    fn plain(&mut self, kind: u64, x: u64, y: u64) {
        self.push(Heard::Plain { kind, x, y });
    }

    fn closed(&mut self, kept: u64) {
        self.push(Heard::Closed { kept });
    }
}
