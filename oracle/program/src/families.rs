//! The inputs of a run, in families. A run goes round them, a part of each at a time, until it has
//! enough; the seed alone determines every call.

mod edges;
mod forged;
mod grids;
mod runs;
mod sessions;
mod states;
mod strings;

use crate::bytes::Setting;
use crate::random::Random;
use crate::run::{Run, Stop};
use crate::words::*;
use ublox_framing::numbers::LIMITS;

pub use sessions::run_capture;

pub trait Family {
    /// What the family's inputs are, and how far it has come.
    fn progress(&self) -> String;

    /// Does the next part of the family.
    fn part(&mut self, run: &mut Run, random: &mut Random) -> Result<(), Stop>;
}

/// Every family, in the order of a round.
pub fn all() -> Vec<Box<dyn Family>> {
    let mut families = without_parity();
    families.extend(with_parity());
    families
}

/// The families of modes 1 to 3.
pub fn without_parity() -> Vec<Box<dyn Family>> {
    vec![
        Box::new(forged::Huge::default()),
        Box::new(strings::Strings::of_bytes()),
        Box::new(grids::takes()),
        Box::new(forged::Forged::new(Modes::Plain)),
        Box::new(states::States::new(Modes::Plain)),
        Box::new(sessions::Sessions::new(Modes::Plain)),
        Box::new(grids::sentences()),
        Box::new(strings::Strings::of_tokens()),
        Box::new(edges::Edges::new(Modes::Plain)),
        Box::new(runs::Runs::new(Modes::Plain)),
    ]
}

/// The families of modes 17 to 19.
pub fn with_parity() -> Vec<Box<dyn Family>> {
    vec![
        Box::new(grids::parities()),
        Box::new(strings::Strings::of_tokens_with_parity()),
        Box::new(forged::Forged::new(Modes::Parity)),
        Box::new(states::States::new(Modes::Parity)),
        Box::new(sessions::Sessions::new(Modes::Parity)),
        Box::new(edges::Edges::new(Modes::Parity)),
        Box::new(runs::Runs::new(Modes::Parity)),
    ]
}

/// Which modes a family draws.
#[derive(Clone, Copy, PartialEq)]
enum Modes {
    Plain,
    Parity,
}

impl Modes {
    fn any(self, random: &mut Random) -> u64 {
        match self {
            Modes::Plain => random.between(1, 3) as u64,
            Modes::Parity => random.pick(&[17, 18, 18, 18, 19, 19]),
        }
    }

    /// How a family says in its progress which modes it draws.
    fn name(self) -> &'static str {
        match self {
            Modes::Plain => "",
            Modes::Parity => ", with parity",
        }
    }
}

/// Goes round the families until the run stops.
pub fn go_round(families: &mut [Box<dyn Family>], run: &mut Run, seed: u64) -> Stop {
    let mut random = Random::new(seed);
    loop {
        for family in families.iter_mut() {
            if let Err(stop) = family.part(run, &mut random) {
                return stop;
            }
        }
    }
}

/// A state of the setting: its first nine words as named, the later ones anything.
fn state_of(random: &mut Random, setting: &Setting, live: usize) -> State {
    let mut state: State = std::array::from_fn(|_| random.word());
    let first = [setting.mode, setting.max.into(), setting.c as u64, live as u64, 0, 0, 0, 0, 0];
    state[..STATE_WORDS].copy_from_slice(&first);
    state
}

/// A carry of c bytes of anything, or of friends.
fn any_bytes(random: &mut Random, length: usize) -> Vec<u8> {
    let mut bytes = vec![0; length];
    random.fill(&mut bytes);
    bytes
}

/// How big a case is: most are small, so that there are many.
#[derive(Clone, Copy, PartialEq)]
enum Size {
    Tiny,
    Small,
    Fitting,
    Big,
}

fn size(random: &mut Random) -> Size {
    match random.below(256) {
        0 => Size::Big,
        1..=16 => Size::Fitting,
        17..=80 => Size::Small,
        _ => Size::Tiny,
    }
}

/// A mode, a payload limit and a carry length: C 0 to 130, around MAX + 7, around 1,026 (with parity
/// 1,029), to 16,384.
fn setting(random: &mut Random, size: Size, modes: Modes) -> Setting {
    let mode = modes.any(random);
    let rtcm = if modes == Modes::Parity { 1029 } else { 1026 };
    let limit = LIMIT as usize;
    match size {
        Size::Tiny => Setting { mode, max: limit_up_to(random, 32), c: random.edge(0, 40) },
        Size::Small => Setting { mode, max: limit_up_to(random, 130), c: random.edge(0, 130) },
        Size::Fitting => {
            let max = limit_up_to(random, 1027);
            let c = match random.below(3) {
                0 => random.near(rtcm, 2, limit),
                _ => random.near(usize::from(max) + 7, 2, limit),
            };
            Setting { mode, max, c }
        }
        Size::Big => {
            let max = random.pick(LIMITS);
            let c = match random.below(3) {
                0 => random.near(limit, 2, limit),
                1 => random.near((usize::from(max) + 7).min(limit), 3, limit),
                _ => random.edge(0, limit),
            };
            Setting { mode, max, c }
        }
    }
}

/// A payload limit of at most so much.
fn limit_up_to(random: &mut Random, most: u16) -> u16 {
    let count = LIMITS.partition_point(|max| *max <= most);
    random.pick(&LIMITS[..count])
}
