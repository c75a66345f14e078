//! One frame at the edges of its payload limit and of the carry, cut near every field: UBX with n
//! around MAX and C around n + 2, n + 8 and MAX + 7, RTCM with C around n + 3 and 1,026, with parity
//! around n + 6 and 1,029.

use super::{limit_up_to, Family, Modes};
use crate::bytes::{self, Setting, T};
use crate::random::Random;
use crate::run::{Run, Stop};
use crate::words::*;

pub struct Edges {
    modes: Modes,
    done: u64,
}

impl Edges {
    pub(super) fn new(modes: Modes) -> Edges {
        Edges { modes, done: 0 }
    }
}

impl Family for Edges {
    fn progress(&self) -> String {
        format!("{} frames at the edges of MAX and C{}", self.done, self.modes.name())
    }

    fn part(&mut self, run: &mut Run, random: &mut Random) -> Result<(), Stop> {
        for _ in 0..64 {
            self.done += 1;
            match self.modes {
                Modes::Parity => rtcm(run, random, self.modes)?,
                Modes::Plain if random.once_in(3) => rtcm(run, random, self.modes)?,
                Modes::Plain => ubx(run, random)?,
            }
        }
        Ok(())
    }
}

/// A longer payload than this is given by its head alone: no window holds it.
const HELD: usize = 20_000;

fn ubx(run: &mut Run, random: &mut Random) -> Result<(), Stop> {
    let highest = if random.once_in(8) { u16::MAX } else { 600 };
    let max = limit_up_to(random, highest);
    let most = usize::from(max);
    let n = match random.below(6) {
        0 => random.edge(0, most),
        1 => random.near(255, 2, 65_535),
        _ => random.near(most, 1, 65_535),
    };
    let mut stream = noise_before(random);
    let frame = stream.len();
    if n <= HELD {
        let mut payload = Vec::new();
        bytes::put_payload(random, &mut payload, n);
        let off_b = u8::from(random.once_in(6));
        bytes::put_ubx(&mut stream, 1, 2, &payload, 0, off_b);
    } else {
        bytes::put_ubx_head(&mut stream, 1, 2, n as u16);
        let held = random.below(40);
        bytes::put_payload(random, &mut stream, held);
    }
    let edges = [n + 2, n + 8, most + 7, n, 40];
    let cuts = [1, 2, 5, 6, 7, n + 6, n + 7, n + 8, n / 2];
    let setting = Setting { mode: random.between(1, 3) as u64, max, c: 0 };
    in_two(run, random, setting, stream, frame, &edges, &cuts)
}

/// None, or up to three bytes.
fn noise_before(random: &mut Random) -> Vec<u8> {
    let mut noise = Vec::new();
    let length = random.below(7).saturating_sub(3);
    bytes::put_payload(random, &mut noise, length);
    noise
}

fn rtcm(run: &mut Run, random: &mut Random, modes: Modes) -> Result<(), Stop> {
    let n = match random.below(4) {
        0 => random.pick(&[1021, 1022, 1023]),
        1 => random.pick(&[255, 256, 257, 511, 512]),
        _ => random.below(20),
    };
    let mut stream = noise_before(random);
    let frame = stream.len();
    bytes::put_rtcm_head(&mut stream, n, random.byte() & 63);
    bytes::put_payload(random, &mut stream, n);
    let mut setting =
        Setting { mode: random.between(2, 3) as u64, max: random.pick(&[0, 16, 240]), c: 0 };
    if modes == Modes::Plain {
        let edges = [n + 3, n + 3, n, 1026];
        let cuts = [1, 2, 3, 4, n + 1, n + 2, n + 3, n / 2];
        return in_two(run, random, setting, stream, frame, &edges, &cuts);
    }
    setting.mode += PARITY;
    let off = bytes::parity_off(random);
    bytes::put_parity(&mut stream, frame, off);
    let edges = [n + 6, n + 6, n + 3, n, 1026, 1029];
    let cuts = [1, 2, 3, 4, n + 1, n + 2, n + 3, n + 4, n + 5, n + 6, n / 2];
    in_two(run, random, setting, stream, frame, &edges, &cuts)
}

/// The stream with T behind it, as two chunks cut near one of `cuts` of the frame, over a carry near
/// one of `edges`.
fn in_two(
    run: &mut Run,
    random: &mut Random,
    mut setting: Setting,
    mut stream: Vec<u8>,
    frame: usize,
    edges: &[usize],
    cuts: &[usize],
) -> Result<(), Stop> {
    let edge = random.pick(edges);
    setting.c = random.near(edge, 2, LIMIT as usize);
    let field = random.pick(cuts);
    let cut = random.near(frame + field, 1, stream.len());
    stream.extend_from_slice(&T);
    let (first, second) = stream.split_at(cut);
    super::sessions::begin_idle(run, random, &setting, &[]);
    for chunk in [first, second] {
        run.chunk(&chunk[..chunk.len().min(LIMIT as usize)]);
        run.call(Call::Open);
        run.step_on(12);
        if random.once_in(8) {
            run.call(Call::Step);
        }
        run.call(Call::Close);
    }
    run.end()
}
