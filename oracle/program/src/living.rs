//! Whether the Rust made anew at each state is the Rust that lives on: parsers that are opened, stepped
//! and dropped in the Rust's own hands, against the functions of numbers.

use crate::bytes::{self, Setting};
use crate::random::Random;
use ublox_framing::numbers::{self, Said, Sides};
use ublox_framing::parity::crc24q;
use ublox_framing::Numbers;

type Trace = Vec<(Option<Said>, Numbers)>;

/// How many calls were the same; an error names the setting of one that was not. Before that, the
/// parity of the corrected Rust on its known answer.
pub fn check(seed: u64, sessions: usize) -> Result<u64, String> {
    let known = crc24q(b"123456789".iter().copied());
    if known != 0xCD_E703 {
        return Err(format!("the CRC-24Q of 123456789 is CDE703, and not {known:06X}"));
    }
    let mut random = Random::new(seed);
    let mut calls = 0;
    for _ in 0..sessions {
        calls += match random.below(4) {
            0 => session::<0>(&mut random)?,
            1 => session::<16>(&mut random)?,
            2 => session::<240>(&mut random)?,
            _ => session::<65535>(&mut random)?,
        };
    }
    Ok(calls)
}

fn session<const MAX: u16>(random: &mut Random) -> Result<u64, String> {
    let setting = Setting { mode: random.between(1, 3) as u64, max: MAX, c: random.edge(0, 60) };
    let stream = bytes::stream(random, &setting, 150);
    let mut chunks: Vec<(&[u8], usize)> = Vec::new();
    let mut rest = &stream[..];
    while !rest.is_empty() {
        let (chunk, later) = rest.split_at(random.between(0, 40).min(rest.len()));
        chunks.push((chunk, random.below(8)));
        rest = later;
    }
    let mut before = vec![0; setting.c];
    random.fill(&mut before);
    let mut carry = before.clone();
    let mut lived = Trace::new();
    let mut tell = |said, numbers| lived.push((said, numbers));
    let kept = numbers::live_through::<MAX>(setting.mode, &mut carry, &chunks, &mut tell);
    let carry_lived = carry.clone();
    // The same memory again, so that bodies lie at the same addresses.
    carry.copy_from_slice(&before);
    let (rebuilt, kept_rebuilt) = rebuild(&setting, &mut carry, &chunks);
    if lived != rebuilt || kept != kept_rebuilt || carry != carry_lived {
        return Err(format!("a parser that lives on differs from one made anew: {setting:?}"));
    }
    Ok(lived.len() as u64)
}

/// The same calls, each on an object made for it.
fn rebuild(setting: &Setting, carry: &mut [u8], chunks: &[(&[u8], usize)]) -> (Trace, usize) {
    let (mut trace, mut live) = (Trace::new(), 0);
    for (chunk, steps) in chunks {
        let mut at = numbers::open(setting.mode, carry, live, chunk);
        trace.push((None, at));
        for _ in 0..*steps {
            let (said, after) =
                numbers::step(setting.mode, false, setting.max, sides(carry, chunk, &at));
            trace.push((Some(said), after));
            at = after;
        }
        live = numbers::close(sides(carry, chunk, &at)).0;
    }
    (trace, live)
}

fn sides<'a>(carry: &'a mut [u8], chunk: &'a [u8], at: &Numbers) -> Sides<'a> {
    Sides { carry, live: at.live, off: at.off, chunk, part_used: at.part_used }
}
