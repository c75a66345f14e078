//! Whole lives of a framer: started, then opened, stepped and closed chunk after chunk of one stream,
//! with calls out of turn between.

use super::{any_bytes, setting, size, state_of, Family, Modes, Size};
use crate::bytes::{self, Setting};
use crate::random::Random;
use crate::run::{Run, Stop};
use crate::words::*;

pub struct Sessions {
    modes: Modes,
    done: u64,
}

impl Sessions {
    pub(super) fn new(modes: Modes) -> Sessions {
        Sessions { modes, done: 0 }
    }
}

impl Family for Sessions {
    fn progress(&self) -> String {
        format!("{} sessions over random and structured streams{}", self.done, self.modes.name())
    }

    fn part(&mut self, run: &mut Run, random: &mut Random) -> Result<(), Stop> {
        for _ in 0..256 {
            let size = size(random);
            let setting = setting(random, size, self.modes);
            let length = match size {
                Size::Tiny => random.between(0, 120),
                Size::Small => random.between(0, 400),
                Size::Fitting => random.between(0, 3 * setting.c + 40),
                Size::Big => random.between(0, 40_000),
            };
            let stream = bytes::stream(random, &setting, length);
            self.done += 1;
            session(run, random, &setting, &stream)?;
        }
        Ok(())
    }
}

/// A capture in the cuts of a line: each setting is one session over a part of it.
pub fn run_capture(run: &mut Run, random: &mut Random, capture: &[u8]) -> Result<(), Stop> {
    for _ in 0..400 {
        let size = random.pick(&[Size::Small, Size::Fitting, Size::Big]);
        let modes = if random.once_in(3) { Modes::Parity } else { Modes::Plain };
        let setting = setting(random, size, modes);
        let length = random.between(1, 20_000).min(capture.len());
        let from = random.between(0, capture.len() - length);
        session(run, random, &setting, &capture[from..from + length])?;
    }
    Ok(())
}

fn session(
    run: &mut Run,
    random: &mut Random,
    setting: &Setting,
    stream: &[u8],
) -> Result<(), Stop> {
    let anything: State = std::array::from_fn(|_| random.word());
    run.begin(&anything, &any_bytes(random, setting.c), &[]);
    run.call(Call::Start { mode: setting.mode, max: setting.max });
    let style = random.below(5);
    let mut rest = stream;
    let mut calls_left = 600;
    while calls_left > 0 {
        let cut = cut(random, setting, style).min(rest.len());
        let (chunk, later) = rest.split_at(cut);
        calls_left -= one_chunk(run, random, chunk).min(calls_left);
        if later.is_empty() && random.once_in(2) {
            break;
        }
        rest = later;
    }
    run.end()
}

/// How long the next chunk is to be.
fn cut(random: &mut Random, setting: &Setting, style: usize) -> usize {
    match style {
        _ if random.once_in(12) => 0,
        0 => random.between(1, 4),
        1 => random.between(1, 24),
        2 => random.near(setting.c, 4, LIMIT as usize),
        3 => random.between(1, 200),
        _ => random.edge(1, LIMIT as usize),
    }
}

/// Opens on a chunk, steps to need more and sometimes beyond or not so far, and closes; answers about
/// how many calls that took.
fn one_chunk(run: &mut Run, random: &mut Random, chunk: &[u8]) -> usize {
    run.chunk(chunk);
    out_of_turn(run, random, chunk);
    run.call(Call::Open);
    out_of_turn(run, random, chunk);
    let most = if random.once_in(6) { random.below(4) } else { 300 };
    let mut steps = 0;
    while steps < most {
        steps += 1;
        let out = *run.call(Call::Step);
        if out[0] == NEED_MORE {
            break;
        }
        if out[6] != 0 && random.once_in(4) {
            run.call(Call::View { side: out[4], start: out[5], length: out[6] });
        }
    }
    if random.once_in(4) {
        run.step_on(3);
    }
    run.call(Call::Close);
    steps + 4
}

/// Now and then a call that is to be refused: the state goes on as if it had not been.
fn out_of_turn(run: &mut Run, random: &mut Random, chunk: &[u8]) {
    if !random.once_in(16) {
        return;
    }
    let is_open = run.state()[OPEN] == 1;
    match (is_open, random.below(3)) {
        (true, 0) => {
            run.call(Call::Open);
        }
        (true, _) => {
            let other = [chunk, &[0]].concat();
            run.chunk(&other);
            run.call(if random.once_in(2) { Call::Step } else { Call::Close });
            run.chunk(chunk);
        }
        (false, 0) => {
            run.call(Call::Close);
        }
        (false, _) => {
            run.call(Call::Step);
        }
    }
}

/// A session's setting with a state of its own; for other families.
pub fn begin_idle(run: &mut Run, random: &mut Random, setting: &Setting, live: &[u8]) {
    let mut carry = any_bytes(random, setting.c);
    carry[..live.len()].copy_from_slice(live);
    let state = state_of(random, setting, live.len());
    run.begin(&state, &carry, &[]);
}
