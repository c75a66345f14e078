//! One stream in chunks of one size: both sides compared on it, and measured.

use crate::ears::{Heard, Tally};
use crate::gauge::Gauge;
use crate::rows::{self, Row};
use crate::sides::{Library, Rust, Stream, CARRY, PARITY, RTCM_FRAME};

/// The carry, which both sides use in turn: their bodies lie at the same places.
#[repr(align(64))]
struct Lent([u8; CARRY]);

pub struct Case<'a> {
    pub name: &'static str,
    pub size: usize,
    /// The library's mode, and what the Rust frames the stream in.
    mode: u64,
    rust_mode: u64,
    pub chunks: Vec<&'a [u8]>,
    /// Whether the library's places are viewed in a measured pass.
    view: bool,
    lent: Box<Lent>,
}

/// What a stream of so many bytes costs, in the gauge's unit.
pub struct Cost {
    pub bytes: usize,
    pub rust: u64,
    pub library: u64,
}

impl Cost {
    /// Over 1 where the library costs less.
    pub fn ratio(&self) -> f64 {
        self.rust as f64 / self.library as f64
    }
}

impl<'a> Case<'a> {
    pub fn new(row: &Row, stream: &'a [u8], size: usize, view: bool) -> Case<'a> {
        let lent = Box::new(Lent([0; CARRY]));
        let (name, mode, chunks) = (row.name, row.mode, rows::cut(stream, size));
        Case { name, size, mode, rust_mode: mode % PARITY, chunks, view, lent }
    }

    fn stream(&mut self, mode: u64) -> Stream<'_> {
        Stream { mode, carry: &mut self.lent.0, chunks: &self.chunks }
    }

    fn has_parity(&self) -> bool {
        self.mode >= PARITY
    }

    /// Whether both sides answer the same, to the bodies' bytes and places. With parity, which the Rust
    /// has not: whether they find the same frames, to the bodies' bytes before the parity.
    pub fn compare(&mut self) -> Result<(), String> {
        let (mut one, mut other) = (Vec::<Heard>::new(), Vec::<Heard>::new());
        Rust::start(self.stream(self.rust_mode)).run(&mut one);
        Library::start(self.stream(self.mode)).run::<true, _>(&mut other);
        if self.has_parity() {
            one = frames_without_parity(one, 0);
            other = frames_without_parity(other, 3);
        }
        if one == other {
            return Ok(());
        }
        let at = one.iter().zip(&other).take_while(|(a, b)| a == b).count();
        let (a, b) = (one.get(at), other.get(at));
        let (name, size) = (self.name, self.size);
        Err(format!("{name}, chunks of {size}, answer {at}: the Rust {a:?}, the library {b:?}"))
    }

    /// A pass of the Rust within `within`, which is to run what it is handed once.
    pub fn rust<R>(&mut self, within: impl FnOnce(&mut dyn FnMut()) -> R) -> (R, Tally) {
        let mut side = Rust::start(self.stream(self.rust_mode));
        let mut tally = Tally::default();
        (within(&mut || side.run(&mut tally)), tally)
    }

    /// The same of the library.
    pub fn library<R>(&mut self, within: impl FnOnce(&mut dyn FnMut()) -> R) -> (R, Tally) {
        self.library_in(self.mode, within)
    }

    /// The same of the library in another mode.
    pub fn library_in<R>(
        &mut self,
        mode: u64,
        within: impl FnOnce(&mut dyn FnMut()) -> R,
    ) -> (R, Tally) {
        let view = self.view;
        let mut side = Library::start(self.stream(mode));
        let mut tally = Tally::default();
        let mut pass = || {
            if view {
                side.run::<true, _>(&mut tally);
            } else {
                side.run::<false, _>(&mut tally);
            }
        };
        (within(&mut pass), tally)
    }

    /// The best of several passes of each side, in turns.
    pub fn measure(&mut self, gauge: &mut Gauge) -> Result<Cost, String> {
        self.compare()?;
        let bytes = self.chunks.iter().map(|chunk| chunk.len()).sum();
        let mut best = Cost { bytes, rust: u64::MAX, library: u64::MAX };
        for _ in 0..gauge.rounds() {
            let (rust, one) = self.rust(|pass| gauge.cost(pass));
            let (library, other) = self.library(|pass| gauge.cost(pass));
            if one != other && !self.has_parity() {
                return Err(format!("{}: the Rust {one:?}, the library {other:?}", self.name));
            }
            best.rust = best.rust.min(rust);
            best.library = best.library.min(library);
        }
        Ok(best)
    }

    /// What parity costs the library: the same stream without it, in the Rust's place, and with it.
    pub fn measure_parity(&mut self, gauge: &mut Gauge) -> Cost {
        let bytes = self.chunks.iter().map(|chunk| chunk.len()).sum();
        let mut best = Cost { bytes, rust: u64::MAX, library: u64::MAX };
        for _ in 0..gauge.rounds() {
            let without = self.library_in(self.rust_mode, |pass| gauge.cost(pass)).0;
            let with = self.library(|pass| gauge.cost(pass)).0;
            best.rust = best.rust.min(without);
            best.library = best.library.min(with);
        }
        best
    }
}

/// The frames alone, without their places, and RTCM frames without so many last bytes.
fn frames_without_parity(heard: Vec<Heard>, parity: usize) -> Vec<Heard> {
    let frames = heard.into_iter().filter(|heard| !matches!(heard, Heard::Closed { .. }));
    let cut = |heard| match heard {
        Heard::Frame { kind, class, id, mut body, .. } => {
            if kind == RTCM_FRAME {
                body.truncate(body.len() - parity);
            }
            Heard::Frame { kind, class, id, place: 0, body }
        }
        other => other,
    };
    frames.map(cut).collect()
}
