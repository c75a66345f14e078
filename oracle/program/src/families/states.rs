//! Any legal state, reached or not: live, off, part used and used are set at will, with a window worth
//! framing on its two sides.

use super::{any_bytes, setting, size, state_of, Family, Modes, Size};
use crate::bytes;
use crate::random::Random;
use crate::run::{Run, Stop};
use crate::words::*;

pub struct States {
    modes: Modes,
    done: u64,
}

impl States {
    pub(super) fn new(modes: Modes) -> States {
        States { modes, done: 0 }
    }
}

impl Family for States {
    fn progress(&self) -> String {
        format!("{} legal states, reached or not{}", self.done, self.modes.name())
    }

    fn part(&mut self, run: &mut Run, random: &mut Random) -> Result<(), Stop> {
        for _ in 0..1024 {
            self.done += 1;
            case(run, random, self.modes)?;
        }
        Ok(())
    }
}

fn case(run: &mut Run, random: &mut Random, modes: Modes) -> Result<(), Stop> {
    let size = size(random);
    let setting = setting(random, size, modes);
    let longest = match size {
        Size::Tiny => 40,
        Size::Small => 130,
        Size::Fitting => 1100,
        Size::Big => LIMIT as usize,
    };
    let live = random.edge(0, setting.c);
    let idle = random.once_in(4);
    let off = if idle { 0 } else { random.edge(0, live) };
    let chunk_length = random.edge(0, longest);
    let part_used = if idle { 0 } else { random.edge(0, chunk_length) };
    let in_carry = live - off;
    let w = in_carry + (chunk_length - part_used);
    let mut window = bytes::stream(random, &setting, w);
    window.resize(w, random.byte());
    let mut carry = any_bytes(random, setting.c);
    carry[off..live].copy_from_slice(&window[..in_carry]);
    let mut chunk = any_bytes(random, chunk_length);
    chunk[part_used..].copy_from_slice(&window[in_carry..]);
    let mut state = state_of(random, &setting, live);
    if !idle {
        let used = random.edge(0, 32_768 - w);
        let words = [off, used, 1, chunk_length, part_used];
        (OFF..=PART_USED).zip(words).for_each(|(at, word)| state[at] = word as u64);
    }
    run.begin(&state, &carry, &chunk);
    if idle {
        run.call(Call::Open);
    }
    if !random.once_in(4) {
        run.step_on(random.between(1, 4));
    }
    run.call(Call::Close);
    run.end()
}
