//! Grids that are gone through whole, again and again: frames of every small size on both sides of
//! carries of every size near theirs, the same of RTCM frames with parity, and sentences of every length
//! around 8 and 82.

use super::{any_bytes, state_of, Family};
use crate::bytes::{self, Setting, T};
use crate::random::Random;
use crate::run::{Run, Stop};
use crate::words::*;

/// A grid: how many values each of its measures has, and the case at a point.
pub struct Grid {
    name: &'static str,
    measures: &'static [usize],
    next: usize,
    rounds: usize,
    case: fn(&mut Run, &mut Random, &[usize]) -> Result<(), Stop>,
}

impl Family for Grid {
    fn progress(&self) -> String {
        let cases: usize = self.measures.iter().product();
        let part = 100 * self.next / cases;
        format!("{}: {cases} cases, {} rounds and {part} %", self.name, self.rounds)
    }

    fn part(&mut self, run: &mut Run, random: &mut Random) -> Result<(), Stop> {
        for _ in 0..512 {
            let mut rest = self.next;
            let point: Vec<usize> = self
                .measures
                .iter()
                .map(|measure| {
                    let value = rest % measure;
                    rest /= measure;
                    value
                })
                .collect();
            self.next += 1;
            if rest > 0 || self.next == self.measures.iter().product() {
                self.next = 0;
                self.rounds += 1;
            }
            (self.case)(run, random, &point)?;
        }
        Ok(())
    }
}

/// Kind of frame; how much of it is in the carry; its payload; bytes used up before it; C less what
/// the frame needs; bytes behind it; the chunk part used.
pub fn takes() -> Grid {
    Grid {
        name: "frames on both sides",
        measures: &[3, 14, 6, 4, 9, 4, 3],
        next: 0,
        rounds: 0,
        case: take,
    }
}

fn take(run: &mut Run, random: &mut Random, point: &[usize]) -> Result<(), Stop> {
    let &[kind, in_carry, n, off, spare, behind, part_used] = point else { unreachable!() };
    let mut window = Vec::new();
    match kind {
        0 => {
            let payload = any_bytes(random, n);
            bytes::put_ubx(&mut window, 1, 2, &payload, 0, 0);
        }
        1 => {
            bytes::put_rtcm_head(&mut window, n, random.byte() & 63);
            bytes::put_payload(random, &mut window, n);
        }
        _ => {
            window.push(DOLLAR);
            window.resize(7 + n, b'G');
            window.extend_from_slice(&[0x0D, 0x0A]);
        }
    }
    let frame = window.len();
    let in_carry = in_carry.min(frame);
    bytes::put_payload(random, &mut window, behind);
    let c = (off + frame + spare).saturating_sub(6).max(off + in_carry);
    let setting = Setting { mode: 3 - u64::from(kind < 2 && random.once_in(2)), max: 16, c };
    on_both_sides(run, random, &setting, &window, in_carry, [off, part_used])
}

/// The window's first bytes in the carry behind `before[0]` bytes used up, its others in the chunk behind
/// `before[1]`: stepped and closed.
fn on_both_sides(
    run: &mut Run,
    random: &mut Random,
    setting: &Setting,
    window: &[u8],
    in_carry: usize,
    before: [usize; 2],
) -> Result<(), Stop> {
    let [off, part_used] = before;
    let live = off + in_carry;
    let mut carry = any_bytes(random, setting.c);
    carry[off..live].copy_from_slice(&window[..in_carry]);
    let mut chunk = any_bytes(random, part_used);
    chunk.extend_from_slice(&window[in_carry..]);
    let mut state = state_of(random, setting, live);
    let words = [off, random.below(9), 1, chunk.len(), part_used];
    (OFF..=PART_USED).zip(words).for_each(|(at, word)| state[at] = word as u64);
    run.begin(&state, &carry, &chunk);
    run.step_on(4);
    run.call(Call::Close);
    run.end()
}

/// Which byte of the parity is wrong, if one is; how much of the frame is in the carry; its payload;
/// bytes used up before it; C less what the frame needs; what comes behind; the chunk part used.
pub fn parities() -> Grid {
    Grid {
        name: "RTCM frames with parity on both sides",
        measures: &[4, 13, 6, 4, 9, 5, 3],
        next: 0,
        rounds: 0,
        case: parity,
    }
}

fn parity(run: &mut Run, random: &mut Random, point: &[usize]) -> Result<(), Stop> {
    let &[wrong, in_carry, n, off, spare, behind, part_used] = point else { unreachable!() };
    let mut window = Vec::new();
    bytes::put_rtcm_head(&mut window, n, random.byte() & 63);
    bytes::put_payload(random, &mut window, n);
    let mut added = [0; 3];
    if wrong > 0 {
        added[wrong - 1] = random.between(1, 255) as u8;
    }
    bytes::put_parity(&mut window, 0, added);
    let frame = window.len();
    let in_carry = in_carry.min(frame);
    match behind {
        // Cut within its parity.
        4 => window.truncate(in_carry.max(frame - random.between(1, 3))),
        3 => window.extend_from_slice(&T),
        _ => bytes::put_payload(random, &mut window, behind),
    }
    let c = (off + frame + spare).saturating_sub(6).max(off + in_carry);
    let setting = Setting { mode: random.pick(&[18, 19]), max: 16, c };
    on_both_sides(run, random, &setting, &window, in_carry, [off, part_used])
}

/// Length; end; a sync byte within; where it is cut; C; what comes behind.
pub fn sentences() -> Grid {
    Grid {
        name: "sentences around 8 and 82",
        measures: &[29, 5, 4, 10, 7, 3],
        next: 0,
        rounds: 0,
        case: sentence,
    }
}

fn sentence(run: &mut Run, random: &mut Random, point: &[usize]) -> Result<(), Stop> {
    let &[length, end, within, cut, c, behind] = point else { unreachable!() };
    let length = if length < 12 { 3 + length } else { 64 + length };
    let end: &[u8] = [&[0x0D, 0x0A][..], &[0x0D], &[0x0A], &[], &[0x0D, 0x0D, 0x0A]][end];
    let mut stream = vec![DOLLAR];
    stream.resize(length.saturating_sub(end.len()).max(1), b'A');
    if within > 0 && stream.len() > 1 {
        let at = random.between(1, stream.len() - 1);
        stream[at] = [0, B5, D3, DOLLAR][within];
    }
    stream.extend_from_slice(end);
    let length = stream.len();
    let cut = [0, 1, 2, 7, 8, 9, length / 2, length - 2, length - 1, length][cut].min(length);
    let c = [cut, length - 1, length, length + 1, 82, 83, 128][c].max(cut);
    stream.extend_from_slice([&[][..], b"AAA", &T][behind]);
    let setting = Setting { mode: 3, max: 16, c };
    super::sessions::begin_idle(run, random, &setting, &stream[..cut]);
    run.chunk(&stream[cut..]);
    run.call(Call::Open);
    run.step_on(12);
    run.call(Call::Step);
    run.call(Call::Close);
    run.end()
}
