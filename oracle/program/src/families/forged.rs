//! Calls to be refused, and their neighbours that are not: states with any word anywhere, wrong
//! lengths, places at and past the end, and lengths beyond any buffer.

use super::{any_bytes, setting, state_of, Family, Modes, Size};
use crate::random::Random;
use crate::run::{Run, Stop};
use crate::words::*;
use ublox_framing::numbers::LIMITS;

pub struct Forged {
    modes: Modes,
    done: u64,
}

impl Forged {
    pub(super) fn new(modes: Modes) -> Forged {
        Forged { modes, done: 0 }
    }
}

impl Family for Forged {
    fn progress(&self) -> String {
        format!("{} forged states, wrong lengths and places{}", self.done, self.modes.name())
    }

    fn part(&mut self, run: &mut Run, random: &mut Random) -> Result<(), Stop> {
        for _ in 0..512 {
            self.done += 1;
            case(run, random, self.modes)?;
        }
        Ok(())
    }
}

fn case(run: &mut Run, random: &mut Random, modes: Modes) -> Result<(), Stop> {
    let size = if random.once_in(64) { Size::Big } else { Size::Tiny };
    let setting = setting(random, size, modes);
    let live = random.edge(0, setting.c);
    let mut state = state_of(random, &setting, live);
    let longest = if size == Size::Big { LIMIT as usize } else { 40 };
    let mut chunk_length = random.edge(0, longest);
    if random.once_in(2) {
        open_at_will(random, &mut state, chunk_length);
    }
    let mut carry_length = setting.c;
    for _ in 0..random.below(3) {
        match random.below(8) {
            0 => carry_length = wrong_length(random, carry_length),
            1 => chunk_length = wrong_length(random, chunk_length),
            2 if modes == Modes::Parity => state[MODE] = near_mode(random),
            _ => forge(random, &mut state),
        }
    }
    if random.once_in(32) {
        chunk_length = random.near(LIMIT as usize, 1, 20_000);
    }
    if random.once_in(32) {
        carry_length = random.near(LIMIT as usize, 1, 20_000);
    }
    keep_to_limits(random, &mut state);
    let carry = any_bytes(random, carry_length);
    let chunk = any_bytes(random, chunk_length);
    run.begin(&state, &carry, &chunk);
    for _ in 0..random.between(1, 3) {
        let call = any_call(random, modes, carry_length, chunk_length);
        run.call(call);
    }
    run.end()
}

/// Makes an idle state an open one; used is often as large as it may be, or just larger.
fn open_at_will(random: &mut Random, state: &mut State, chunk_length: usize) {
    let live = state[LIVE] as usize;
    let off = random.edge(0, live);
    let part_used = random.edge(0, chunk_length);
    let w = live - off + chunk_length - part_used;
    let used = match random.below(4) {
        0 => 32_769 - w,
        1 => 32_768 - w,
        _ => random.edge(0, 32_768 - w),
    };
    let words = [off, used, 1, chunk_length, part_used];
    (OFF..=PART_USED).zip(words).for_each(|(at, word)| state[at] = word as u64);
}

/// Sets one of the nine words: next to what it was, at a limit, with high bits, or to anything.
fn forge(random: &mut Random, state: &mut State) {
    let at = random.below(STATE_WORDS);
    let was = state[at];
    state[at] = match random.below(12) {
        0 => was.wrapping_add(1),
        1 => was.wrapping_sub(1),
        2 => was.wrapping_add(1 << 16),
        3 => was.wrapping_add(1 << 32),
        4 => was.wrapping_add(1 << 63),
        5 => 0,
        6 => u64::MAX - random.below(3) as u64,
        7 => random.near(16_384, 1, usize::MAX) as u64,
        8 => random.near(32_768, 1, usize::MAX) as u64,
        9 => random.near(65_535, 1, usize::MAX) as u64,
        10 => random.below(8) as u64,
        _ => random.word(),
    };
}

/// A payload limit that is one, but not one that the Rust was built for, becomes one that it was.
fn keep_to_limits(random: &mut Random, state: &mut State) {
    if let Ok(max) = u16::try_from(state[MAX]) {
        if LIMITS.binary_search(&max).is_err() {
            state[MAX] = u64::from(random.pick(LIMITS));
        }
    }
}

fn wrong_length(random: &mut Random, length: usize) -> usize {
    match random.below(5) {
        0 => length + 1,
        1 => length.saturating_sub(1),
        2 => 0,
        3 => random.near(LIMIT as usize, 1, 20_000),
        _ => random.edge(0, 100),
    }
}

/// A mode's number, or one beside it.
fn near_mode(random: &mut Random) -> u64 {
    const BESIDE: [u64; 15] = [0, 4, 5, 15, 16, 20, 21, 32, 33, 34, 35, 48, 49, 50, 51];
    let number = if random.once_in(2) { random.pick(&BESIDE) } else { random.pick(&MODES) };
    match random.below(6) {
        0 => number.wrapping_add(random.pick(&[1 << 8, 1 << 16, 1 << 32, 1 << 63])),
        _ => number,
    }
}

fn any_call(random: &mut Random, modes: Modes, carry_length: usize, chunk_length: usize) -> Call {
    match random.below(5) {
        0 if modes == Modes::Parity => {
            Call::Start { mode: near_mode(random), max: random.pick(LIMITS) }
        }
        0 => {
            let mode = if random.once_in(2) { random.below(5) as u64 } else { any_word(random, 3) };
            Call::Start { mode, max: random.pick(LIMITS) }
        }
        1 => Call::Open,
        2 => Call::Step,
        3 => Call::Close,
        _ => any_view(random, carry_length as u64, chunk_length as u64),
    }
}

/// A place whose end lies at, before or past the end of its side, in numbers that may not be added in
/// 64 bits.
fn any_view(random: &mut Random, carry_length: u64, chunk_length: u64) -> Call {
    let side = if random.once_in(8) { any_word(random, 1) } else { random.below(2) as u64 };
    let end = if side == CARRY_SIDE { carry_length } else { chunk_length };
    let start = match random.below(4) {
        0 => any_word(random, end),
        _ => random.edge(0, end as usize + 1) as u64,
    };
    let length = match random.below(4) {
        0 => any_word(random, end),
        1 => end.wrapping_sub(start),
        2 => end.wrapping_sub(start).wrapping_add(1),
        _ => random.edge(0, end as usize + 1) as u64,
    };
    Call::View { side, start, length }
}

/// Any word, often one whose low bits are a number that fits.
fn any_word(random: &mut Random, fits: u64) -> u64 {
    match random.below(5) {
        0 => fits.wrapping_add(1 << 32),
        1 => fits.wrapping_add(1 << 63),
        2 => u64::MAX - random.below(4) as u64,
        3 => fits.wrapping_add(1),
        _ => random.word(),
    }
}

/// Lengths that no buffer of this machine's limits has, lent from memory that can't be written: every
/// call but a view is refused. Done once.
#[derive(Default)]
pub struct Huge {
    done: bool,
}

impl Family for Huge {
    fn progress(&self) -> String {
        "carries and chunks of up to 2^34 bytes".to_string()
    }

    fn part(&mut self, run: &mut Run, random: &mut Random) -> Result<(), Stop> {
        if self.done {
            return Ok(());
        }
        self.done = true;
        for _ in 0..400 {
            huge_case(run, random)?;
        }
        Ok(())
    }
}

fn huge_case(run: &mut Run, random: &mut Random) -> Result<(), Stop> {
    let setting = setting(random, Size::Tiny, Modes::Plain);
    let live = random.edge(0, setting.c);
    let mut state = state_of(random, &setting, live);
    let chunk_length = random.below(40);
    if random.once_in(2) {
        open_at_will(random, &mut state, chunk_length);
    }
    let carry = any_bytes(random, setting.c);
    let chunk = any_bytes(random, chunk_length);
    run.begin(&state, &carry, &chunk);
    let beyond = [1 << 32, (1 << 32) + 16_384, (1 << 33) + 7, 1 << 34, 1 << 16, 1 << 31];
    let high = random.pick(&beyond[..4]);
    let (carry_length, chunk_length) = match random.below(4) {
        0 => (setting.c as u64 + (1 << 32), 0),
        1 => (0, chunk_length as u64 + (1 << 32)),
        2 => (random.pick(&beyond), random.pick(&beyond)),
        _ => (high, 0),
    };
    run.huge(carry_length, chunk_length);
    for call in [Call::Open, Call::Step, Call::Close] {
        run.call(call);
    }
    let start = random.word() >> random.between(28, 40);
    run.call(Call::View { side: random.below(2) as u64, start, length: high - start.min(high) });
    run.call(Call::Start { mode: setting.mode, max: setting.max });
    run.end()
}
