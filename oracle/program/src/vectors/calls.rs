//! calls.bin: openings, steps and closings that are not refused. 01's bench set and the edges of RTCM
//! frames, sentences and payloads come first, then what the families of the comparison meet, one of
//! each situation; then the same with parity: its edges, and what the families with parity meet.

use crate::bytes::{put_parity, put_rtcm_head, put_ubx, put_ubx_head, Setting, T, U};
use crate::counts::place_kind;
use crate::families::{self, Family};
use crate::random::Random;
use crate::run::{Record, Run, Stop, Until};
use crate::rust_side::RustSide;
use crate::server::Server;
use crate::words::*;
use std::cell::RefCell;
use std::collections::HashMap;
use std::rc::Rc;

/// The families are watched for so many calls.
const WATCHED: u64 = 3_000_000;

/// The records so far, and how many of each situation and of each size.
#[derive(Default)]
struct Chosen {
    records: Vec<Record>,
    met: HashMap<Vec<i64>, usize>,
    of_size: [usize; 4],
}

/// Carry and chunk of at most so many bytes: how many records of a situation, and how many in all.
const SIZES: [(usize, usize, usize); 4] =
    [(20, 1, usize::MAX), (130, 1, 80), (270, 1, 8), (1100, 1, 0)];

/// The records of the list.
pub fn records() -> Result<Vec<Record>, String> {
    let chosen = Rc::new(RefCell::new(Chosen::default()));
    let mut run = watched(&chosen, None, Chosen::take);
    bench_set(&mut run);
    rtcm_edge(&mut run);
    sentence_edges(&mut run);
    ubx_edges(&mut run);
    watch_families(&chosen, &mut families::without_parity(), Chosen::consider)?;
    let mut run = watched(&chosen, None, Chosen::take);
    parity_set(&mut run);
    parity_edge(&mut run);
    watch_families(&chosen, &mut families::with_parity(), Chosen::consider_parity)?;
    Ok(chosen.take().records)
}

fn watch_families(
    chosen: &Rc<RefCell<Chosen>>,
    families: &mut [Box<dyn Family>],
    look: fn(&mut Chosen, Record),
) -> Result<(), String> {
    let mut run = watched(chosen, Some(WATCHED), look);
    match families::go_round(families, &mut run, 1) {
        Stop::Difference(_) => Err("the Rust differs from itself".to_string()),
        Stop::Enough => Ok(()),
    }
}

/// A run of the Rust against itself, each call of which is shown to `look`.
fn watched(chosen: &Rc<RefCell<Chosen>>, calls: Option<u64>, look: fn(&mut Chosen, Record)) -> Run {
    let until = Until { seconds: None, calls };
    let mut run = Run::new(Box::new(Server::new(RustSide)), until);
    let chosen = Rc::clone(chosen);
    run.tells = false;
    run.watch = Some(Box::new(move |record| look(&mut chosen.borrow_mut(), record)));
    run
}

impl Chosen {
    /// Takes a record whose situation was met seldom.
    fn consider(&mut self, record: Record) {
        let longest = record.carry_before.len().max(record.chunk.len());
        let Some(size) = SIZES.iter().position(|(most, ..)| longest <= *most) else { return };
        let (_, of_each, in_all) = SIZES[size];
        if is_for_the_other_list(&record) || self.of_size[size] >= in_all {
            return;
        }
        let mut key = situation(&record);
        key.push(size as i64);
        let met = self.met.entry(key).or_default();
        if *met < of_each {
            *met += 1;
            self.of_size[size] += 1;
            self.records.push(record);
        }
    }

    /// The same of records that parity has a part in: steps at D3.
    fn consider_parity(&mut self, record: Record) {
        let is_parity = matches!(record.out[0], RTCM_FRAME | WRONG_PARITY | NO_ROOM);
        if record.call == Call::Step && is_parity {
            self.consider(record);
        }
    }

    /// Takes every record of this list.
    fn take(&mut self, record: Record) {
        if !is_for_the_other_list(&record) {
            self.records.push(record);
        }
    }
}

/// Refused calls, starts and views are in the other list.
fn is_for_the_other_list(record: &Record) -> bool {
    matches!(record.call, Call::Start { .. } | Call::View { .. })
        || record.call.refusal(&record.out) != 0
}

/// Puts a record behind its length: operation, whether the carry changes, nine state words before, six
/// after, seven out words, two lengths; then the carry, the chunk, and the carry after if it changes.
pub fn put(to: &mut Vec<u8>, record: &Record) {
    let changes = record.carry_before != record.carry_after;
    let after = if changes { &record.carry_after[..] } else { &[] };
    let length = 64 + record.carry_before.len() + record.chunk.len() + after.len();
    put16(to, length as u64);
    to.push(record.call.operation() as u8 + 1);
    to.push(u8::from(changes));
    record.before[..STATE_WORDS].iter().for_each(|word| put16(to, *word));
    record.after[LIVE..STATE_WORDS].iter().for_each(|word| put16(to, *word));
    record.out[..7].iter().for_each(|word| to.extend_from_slice(&(*word as u32).to_le_bytes()));
    put16(to, record.carry_before.len() as u64);
    put16(to, record.chunk.len() as u64);
    to.extend_from_slice(&record.carry_before);
    to.extend_from_slice(&record.chunk);
    to.extend_from_slice(after);
}

fn put16(to: &mut Vec<u8>, word: u64) {
    to.extend_from_slice(&u16::try_from(word).expect("a word of 16 bits").to_le_bytes());
}

/// What is special about a call: its operation, mode and answer, and on which side of which edge it is.
fn situation(record: &Record) -> Vec<i64> {
    let (before, after, out) = (&record.before, &record.after, &record.out);
    let word = |at: usize| before[at] as i64;
    let w = word(LIVE) - word(OFF) + word(CHUNK_LENGTH) - word(PART_USED);
    let mut key = vec![record.call.operation() as i64, word(MODE)];
    match record.call {
        Call::Open => {
            let in_carry = after[OFF] as i64;
            let in_chunk = after[PART_USED] as i64;
            key.extend([word(LIVE).min(1), after[CHUNK_LENGTH].min(1) as i64]);
            key.extend([in_carry.min(2), in_chunk.min(2), word(C).min(1)]);
        }
        Call::Close => {
            key.extend([
                word(OFF).min(1),
                i64::from(before[OFF] == before[LIVE]),
                word(LIVE).min(1),
            ]);
            key.extend([(w - word(C)).clamp(-1, 2), word(PART_USED).min(1), w.min(1)]);
        }
        _ => {
            key.push(out[0] as i64);
            key.extend(step_situation(record, w));
        }
    }
    key
}

/// The same for a step's answer.
fn step_situation(record: &Record, w: i64) -> Vec<i64> {
    let (before, after, out) = (&record.before, &record.after, &record.out);
    let c = before[C] as i64;
    let gone = (after[USED] - before[USED]) as i64;
    let skipped = (out[1] as i64 - before[USED] as i64).clamp(0, 1);
    match out[0] {
        UBX_FRAME | RTCM_FRAME | SENTENCE => {
            let (taken, place) = (out[6] as i64, place_kind(before, after, out) as i64);
            let spare = (c - before[LIVE] as i64) - (after[PART_USED] - before[PART_USED]) as i64;
            let at_max = i64::from(out[0] == UBX_FRAME && taken - 2 == before[MAX] as i64);
            let copied = if place >= 2 { spare.clamp(-2, 2) } else { 0 };
            vec![skipped, place, copied, (taken - c).clamp(-1, 1), at_max, near_edge(taken)]
        }
        WRONG_SUM | WRONG_PARITY => {
            vec![skipped, (w - c).clamp(-1, 1), (before[LIVE] - before[OFF]).min(2) as i64]
        }
        NO_ROOM => {
            vec![skipped, (out[2] as i64 - c).clamp(-2, 2), (w - c).clamp(1, 2), near_edge(w)]
        }
        _ => vec![gone.min(3), i64::from(gone == w), (w - c).clamp(-1, 2), near_edge(w)],
    }
}

/// A length by its place among the lengths that decide something.
fn near_edge(length: i64) -> i64 {
    match length {
        0..=10 => length,
        80..=84 | 255..=257 | 1025..=1030 => length,
        _ => -1,
    }
}

/// One session of 01's bench set: the chunks one after the other, each stepped to need more.
fn session(run: &mut Run, setting: Setting, chunks: &[&[u8]]) {
    run.begin(&[0; 24], &vec![0xEE; setting.c], &[]);
    run.call(Call::Start { mode: setting.mode, max: setting.max });
    for chunk in chunks {
        run.chunk(chunk);
        run.call(Call::Open);
        run.step_on(9);
        run.call(Call::Close);
    }
}

/// B1 to B12, and the sentences that are run only.
fn bench_set(run: &mut Run) {
    let with = |mode, max, c| Setting { mode, max, c };
    let usual = with(1, 16, 23);
    let mut wrong = T;
    wrong[7] = 0x35;
    let over = [&[B5, 0x62, 1, 2, 0x11, 0], &T[..]].concat();
    let text = [b"$GPTXT", &T[..]].concat();
    session(run, usual, &[&[]]);
    session(run, usual, &[&T]);
    session(run, usual, &[&T[..7], &T[7..]]);
    session(run, usual, &[&wrong]);
    session(run, usual, &[&[&[B5], &T[..]].concat()]);
    session(run, usual, &[&over]);
    session(run, usual, &[&[B5, 0x62, 1, 2, 0x10, 0]]);
    session(run, with(1, 0, 6), &[&T[..7]]);
    session(run, with(1, 0, 7), &[&T[..7]]);
    session(run, with(2, 16, 23), &[&[D3, 0xFC, 1, 0xAA]]);
    session(run, with(2, 16, 3), &[&[D3, 0, 1], &[0xAA]]);
    session(run, with(3, 16, 23), &[&text]);
    session(run, usual, &[&U]);
    for letters in [81, 82] {
        let sentence = [&[DOLLAR][..], &vec![b'A'; letters]].concat();
        session(run, with(3, 16, 128), &[&sentence]);
    }
}

/// An RTCM frame with n = 1,023 cut after 3: C 1,025 has no room, C 1,026 has.
fn rtcm_edge(run: &mut Run) {
    let mut frame = Vec::new();
    put_rtcm_head(&mut frame, 1023, 0);
    let mut body = vec![0; 1023];
    Random::new(1026).fill(&mut body);
    for c in [1025, 1026] {
        let mut state = [0; 24];
        state[..4].copy_from_slice(&[2, 16, c as u64, 3]);
        let mut carry = vec![0xEE; c];
        carry[..3].copy_from_slice(&frame);
        run.begin(&state, &carry, &body);
        run.call(Call::Open);
        run.call(Call::Step);
        run.call(Call::Close);
    }
}

/// Sentences around 8 and 82 bytes, whole in the chunk, on both sides, and without an end.
fn sentence_edges(run: &mut Run) {
    for length in [3, 7, 8, 9, 81, 82, 83, 84, 100] {
        let mut sentence = vec![DOLLAR];
        sentence.resize(length, b'A');
        session(run, Setting { mode: 3, max: 16, c: 4 }, &[&sentence]);
        sentence[length - 2..].copy_from_slice(&[0x0D, 0x0A]);
        session(run, Setting { mode: 3, max: 16, c: 4 }, &[&sentence]);
        let (first, second) = sentence.split_at(length - 1);
        session(run, Setting { mode: 3, max: 16, c: length }, &[first, second]);
        session(run, Setting { mode: 3, max: 16, c: length - 1 }, &[first, second]);
    }
}

/// Payloads of one and of two length bytes, at MAX and past it, and the largest size that has no room.
fn ubx_edges(run: &mut Run) {
    for n in [255, 256, 257] {
        let mut payload = vec![0; n];
        Random::new(n as u64).fill(&mut payload);
        let mut frame = Vec::new();
        put_ubx(&mut frame, 1, 2, &payload, 0, 0);
        for max in [255, 256] {
            session(run, Setting { mode: 1, max, c: 4 }, &[&frame]);
        }
    }
    let mut head = Vec::new();
    put_ubx_head(&mut head, 1, 2, 65_535);
    session(run, Setting { mode: 1, max: 65_534, c: 4 }, &[&head]);
    session(run, Setting { mode: 1, max: 65_535, c: 5 }, &[&head]);
    session(run, Setting { mode: 1, max: 65_535, c: 6 }, &[&head]);
}

/// An RTCM frame with its parity, of which one byte may be changed; n is the payload's length.
fn frame_with_parity(payload: &[u8], off: [u8; 3]) -> Vec<u8> {
    let mut frame = Vec::new();
    put_rtcm_head(&mut frame, payload.len(), 0);
    frame.extend_from_slice(payload);
    put_parity(&mut frame, 0, off);
    frame
}

/// Frames with right and wrong parity in each mode: in the chunk, on both sides at every cut, with too
/// small a carry, before and around other frames.
fn parity_set(run: &mut Run) {
    let with = |mode, c| Setting { mode, max: 16, c };
    let right = frame_with_parity(&[0xAA, B5], [0; 3]);
    let around = frame_with_parity(&T, [0; 3]);
    let wrong_around = frame_with_parity(&T, [0, 0, 1]);
    let stray = [&[D3], &T[..], &[0; 360]].concat();
    for mode in [17, 18, 19] {
        session(run, with(mode, 23), &[&frame_with_parity(&[], [0; 3])]);
        session(run, with(mode, 23), &[&right]);
        session(run, with(mode, 23), &[&[&right[..], &T, &right].concat()]);
        for at in 0..3 {
            let mut off = [0; 3];
            off[at] = 0x80;
            session(run, with(mode, 23), &[&frame_with_parity(&[0xAA, B5], off)]);
        }
        session(run, with(mode, 23), &[&around]);
        session(run, with(mode, 23), &[&wrong_around]);
        session(run, with(mode, 23), &[&stray]);
        session(run, with(mode, 4), &[&[D3], &T]);
    }
    for cut in 1..right.len() {
        let (first, second) = right.split_at(cut);
        for c in [right.len() - 1, right.len(), right.len() + 1] {
            session(run, with(18, c), &[first, second]);
        }
    }
    let wrong = frame_with_parity(&[0xAA, B5], [1, 0, 0]);
    for c in [7, 8] {
        session(run, with(18, c), &[&wrong[..5], &wrong[5..]]);
        session(run, with(19, c), &[&wrong[..5], &wrong[5..]]);
    }
    // The same frame without parity: its three bytes are noise, or a sync byte.
    for mode in [2, 3] {
        session(run, with(mode, 23), &[&[&right[..], &T].concat()]);
    }
}

/// An RTCM frame with n = 1,023 and its parity cut after 3: C 1,028 has no room, C 1,029 has.
fn parity_edge(run: &mut Run) {
    let mut body = vec![0; 1023];
    Random::new(1029).fill(&mut body);
    let frame = frame_with_parity(&body, [0; 3]);
    for c in [1028, 1029] {
        let mut state = [0; 24];
        state[..4].copy_from_slice(&[18, 16, c as u64, 3]);
        let mut carry = vec![0xEE; c];
        carry[..3].copy_from_slice(&frame[..3]);
        run.begin(&state, &carry, &frame[3..]);
        run.call(Call::Open);
        run.call(Call::Step);
        run.call(Call::Close);
    }
}
