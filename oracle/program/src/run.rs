//! A run: calls go to the Rust at once and to the second side in batches, and every reply is compared
//! byte for byte.

use crate::counts::{grouped, Counts};
use crate::random::Random;
use crate::rust_side::RustSide;
use crate::script::{self, Difference};
use crate::second::Second;
use crate::server::{self, Server};
use crate::words::*;
use std::io::IsTerminal;
use std::time::{Duration, Instant};

/// Why a run stops.
pub enum Stop {
    /// As many calls or seconds as were asked for.
    Enough,
    /// The first difference.
    Difference(Difference),
}

/// When a run has enough.
#[derive(Clone, Copy)]
pub struct Until {
    pub seconds: Option<u64>,
    pub calls: Option<u64>,
}

/// One call with all that went in and all that came out.
pub struct Record {
    pub call: Call,
    pub before: State,
    pub carry_before: Vec<u8>,
    pub chunk: Vec<u8>,
    pub after: State,
    pub carry_after: Vec<u8>,
    pub out: [u64; 16],
}

pub struct Run {
    first: Server<RustSide>,
    second: Box<dyn Second>,
    requests: Vec<u8>,
    expected: Vec<u8>,
    replies: Vec<u8>,
    /// The calls of batches that were compared, and those of the batch that is not yet.
    pub counts: Counts,
    pending: Counts,
    until: Until,
    began: Instant,
    told: Instant,
    /// Whether progress is told.
    pub tells: bool,
    shifts: Random,
    /// Is shown every call, where it is set.
    pub watch: Option<Box<dyn FnMut(Record)>>,
}

/// A batch is sent once it, or its replies, have so many bytes.
const BATCH: usize = 1 << 18;

impl Run {
    pub fn new(second: Box<dyn Second>, until: Until) -> Run {
        Run {
            first: Server::new(RustSide),
            second,
            requests: Vec::new(),
            expected: Vec::new(),
            replies: Vec::new(),
            counts: Counts::default(),
            pending: Counts::default(),
            until,
            began: Instant::now(),
            told: Instant::now(),
            tells: std::io::stderr().is_terminal(),
            shifts: Random::new(0),
            watch: None,
        }
    }

    /// Begins a case: a state, the carry's bytes and the chunk's. Lengths need not fit the state.
    pub fn begin(&mut self, state: &State, carry: &[u8], chunk: &[u8]) {
        let shift = self.shift();
        server::put_load(&mut self.requests, state, carry, shift);
        self.first.load(state, carry);
        self.chunk(chunk);
    }

    /// Lends another chunk.
    pub fn chunk(&mut self, chunk: &[u8]) {
        let shift = self.shift();
        server::put_load_chunk(&mut self.requests, chunk, shift);
        self.first.load_chunk(chunk);
    }

    /// Lends more bytes than the sides hold; 0 leaves a buffer as it is.
    pub fn huge(&mut self, carry_length: u64, chunk_length: u64) {
        for word in [server::HUGE, carry_length, chunk_length] {
            server::put_word(&mut self.requests, word);
        }
        self.first.lend_huge(carry_length, chunk_length);
    }

    /// Has the library's process touch what it may not, from the next step on.
    pub fn spoil(&mut self, how: u64) {
        server::put_word(&mut self.requests, server::SPOIL);
        server::put_word(&mut self.requests, how);
    }

    /// Does a call; answers the Rust's out words.
    pub fn call(&mut self, call: Call) -> &[u64; 16] {
        let before = self.first.state;
        let carry_before = self.watch.as_ref().map(|_| self.first.carry().to_vec());
        server::put_call(&mut self.requests, call);
        self.first.call(call, &mut self.expected);
        self.pending.note(call, &before, &self.first.state, &self.first.out);
        if let (Some(watch), Some(carry_before)) = (&mut self.watch, carry_before) {
            watch(Record {
                call,
                before,
                carry_before,
                chunk: self.first.chunk().to_vec(),
                after: self.first.state,
                carry_after: self.first.carry().to_vec(),
                out: self.first.out,
            });
        }
        &self.first.out
    }

    /// The state as it is now.
    pub fn state(&self) -> &State {
        &self.first.state
    }

    /// Steps until need more, at most so many times; answers whether need more was said.
    pub fn step_on(&mut self, most: usize) -> bool {
        for _ in 0..most {
            let answer = self.call(Call::Step)[0];
            if answer == NEED_MORE || answer == REFUSAL {
                return true;
            }
        }
        false
    }

    /// Ends a case; the batch is compared once it is big enough.
    pub fn end(&mut self) -> Result<(), Stop> {
        if self.requests.len() < BATCH && self.expected.len() < BATCH {
            return Ok(());
        }
        self.compare()
    }

    /// Sends the batch and compares its replies.
    pub fn compare(&mut self) -> Result<(), Stop> {
        let answered = self.second.answer(&self.requests, &mut self.replies);
        if answered.is_err() || self.replies != self.expected {
            return Err(Stop::Difference(self.first_difference(answered)));
        }
        self.requests.clear();
        self.expected.clear();
        self.counts.add(&self.pending);
        self.pending = Counts::default();
        self.tell();
        let calls_done = self.until.calls.is_some_and(|calls| self.counts.total() >= calls);
        let time_done = self.until.seconds.is_some_and(|s| self.seconds() >= s as f64);
        if calls_done || time_done {
            return Err(Stop::Enough);
        }
        Ok(())
    }

    pub fn seconds(&self) -> f64 {
        self.began.elapsed().as_secs_f64()
    }

    /// The batch done again call by call, up to the first one that differs.
    fn first_difference(&mut self, answered: Result<(), String>) -> Difference {
        let mut found = match answered {
            Ok(()) => script::first_difference(&self.requests, &self.replies),
            Err(ending) => script::first_ending(&self.requests, self.second.as_mut(), ending),
        };
        found.calls += self.counts.total();
        found
    }

    /// The call within which the Rust panicked.
    pub fn panicked(&self) -> Difference {
        let mut found = script::last_call(&self.requests);
        found.calls += self.counts.total();
        found
    }

    fn tell(&mut self) {
        if self.tells && self.told.elapsed() > Duration::from_millis(500) {
            self.told = Instant::now();
            let calls = grouped(self.counts.total());
            eprint!("\r{calls} calls, 0 differences, {:.0} s ", self.seconds());
        }
    }

    /// Where in its room a buffer stands: anywhere; 255 lends an empty one as a null pointer.
    fn shift(&mut self) -> u64 {
        let shift = self.shifts.word() & 127;
        if shift > 63 {
            255
        } else {
            shift
        }
    }
}

impl Drop for Run {
    /// Leaves the terminal's line of progress.
    fn drop(&mut self) {
        if self.tells {
            eprintln!();
        }
    }
}
