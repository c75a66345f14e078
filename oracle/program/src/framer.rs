//! What every side of the comparison is: the five operations on a state of words and lent memory.

use crate::words::*;

/// The memory lent to one call. Lengths are kept beside the slices, since a call may be lent more than
/// this program holds; the slices are then empty, and the call has to refuse or not look.
pub struct Lent<'a> {
    pub carry: &'a mut [u8],
    pub carry_length: u64,
    pub chunk: &'a [u8],
    pub chunk_length: u64,
}

pub trait Framer {
    /// The answer's number; the other calls write theirs to `out`.
    fn start(&mut self, state: &mut State, lent: &mut Lent, mode: u64, max: u16) -> u64;
    fn open(&mut self, state: &mut State, lent: &mut Lent) -> u64;
    fn step(&mut self, state: &mut State, lent: &mut Lent, out: &mut [u64]);
    fn close(&mut self, state: &mut State, lent: &mut Lent, out: &mut [u64]);
    fn view(&mut self, lent: &Lent, side: u64, start: u64, length: u64) -> u64;

    /// Does a call; its answer stands in the first `call.outs()` words of out.
    fn call(&mut self, call: Call, state: &mut State, lent: &mut Lent, out: &mut [u64; 16]) {
        *out = [0; 16];
        match call {
            Call::Start { mode, max } => out[0] = self.start(state, lent, mode, max),
            Call::Open => out[0] = self.open(state, lent),
            Call::Step => self.step(state, lent, &mut out[..8]),
            Call::Close => self.close(state, lent, out),
            Call::View { side, start, length } => out[0] = self.view(lent, side, start, length),
        }
    }
}
