//! A third reading of 01 and of 02's parity, written from their text and not from the Rust. Each rule
//! that a porter may get wrong is a method of `Rules`; what is written is the method's default, and a
//! wrong version is a set of rules with one method of its own.

use crate::framer::{Framer, Lent};
use crate::refusals;
use crate::words::*;
use std::ops::Range;

pub trait Rules {
    /// "n is bytes 4 and 5, little-endian."
    fn ubx_length(&self, byte_4: u8, byte_5: u8) -> usize {
        usize::from(byte_4) + 256 * usize::from(byte_5)
    }
    /// "n > MAX: drain 2, repeat, no answer."
    fn is_over(&self, n: usize, max: usize) -> bool {
        n > max
    }
    fn drained_over_max(&self, _n: usize) -> usize {
        2
    }
    /// "Second byte not 62: drain 1, repeat."
    fn drained_at_no_pair(&self) -> usize {
        1
    }
    /// "It runs over class, id, the two length bytes and the payload, n + 4 bytes."
    fn summed(&self, n: usize) -> Range<usize> {
        2..n + 6
    }
    /// "wrong sum gives that answer and drains 2"
    fn drained_at_wrong_sum(&self, _n: usize) -> usize {
        2
    }
    /// Which message had the wrong sum: class, id and length.
    fn head_named(&self, class: u64, id: u64, n: u64) -> [u64; 3] {
        [class, id, n]
    }
    /// "expect = received a + 256 × received b, and got = the same of the computed pair"
    fn expect_and_got(&self, received: u64, computed: u64) -> (u64, u64) {
        (received, computed)
    }
    /// "no room with size n + 2 (not n + 8, as in the Rust)"
    fn no_room_size(&self, n: usize) -> usize {
        n + 2
    }
    /// "if w > C .. no room .. else need more"
    fn is_short_of_room(&self, w: usize, c: usize) -> bool {
        w > c
    }
    /// "if after draining the t bytes lie on both sides, t ≤ C"
    fn fits_on_both_sides(&self, _drained: usize, taken: usize, c: usize) -> bool {
        taken <= c
    }
    /// "n = low 10 bits of bytes 1 and 2, big-endian."
    fn rtcm_length(&self, high: u8, low: u8) -> usize {
        usize::from(high & 3) * 256 + usize::from(low)
    }
    /// "The crate's reading stays as a setting chosen at start"
    fn has_parity(&self, mode: u64) -> bool {
        has_parity(mode)
    }
    /// "a frame is n + 6 bytes"; the hand-out test is made with so many.
    fn rtcm_tested(&self, n: usize, parity: bool) -> usize {
        n + if parity { 6 } else { 3 }
    }
    fn rtcm_taken(&self, n: usize, parity: bool) -> usize {
        n + if parity { 6 } else { 3 }
    }
    /// "No room reports n + 6."
    fn rtcm_no_room_size(&self, n: usize, parity: bool) -> usize {
        n + if parity { 6 } else { 3 }
    }
    /// "CRC-24Q .. over the first n + 3"
    fn parity_covers(&self, n: usize) -> Range<usize> {
        0..n + 3
    }
    /// "(polynomial 0x1864CFB, start 0, no reflection)"
    fn parity_divisor(&self) -> u64 {
        0x186_4CFB
    }
    fn parity_start(&self) -> u64 {
        0
    }
    fn parity_bits(&self, byte: u8) -> u8 {
        byte
    }
    /// "the last three, big-endian"
    fn received_parity(&self, bytes: [u8; 3]) -> u64 {
        bytes.iter().fold(0, |word, byte| 256 * word + u64::from(*byte))
    }
    /// "Wrong parity is a new answer with both values": expect is the received, got the computed one.
    fn parities_named(&self, received: u64, computed: u64) -> (u64, u64) {
        (received, computed)
    }
    /// "and drains 1"
    fn drained_at_wrong_parity(&self, _n: usize) -> usize {
        1
    }
    /// The hand-out test comes before parity.
    fn judges_parity_first(&self) -> bool {
        false
    }
    /// "w < 8, need more."
    fn least_sentence(&self) -> usize {
        8
    }
    /// "the first CR that is followed at once by LF, through the whole window, other sync bytes and
    /// length 82 notwithstanding"
    fn searched(&self, window: &Window) -> usize {
        window.len()
    }
    /// "if a sync byte stands at 1 or later, drain 1 .. need more"
    fn looks_on_after_sentence(&self) -> bool {
        false
    }
    /// "else if w > 82, drain all"
    fn is_too_long(&self, w: usize) -> bool {
        w > 82
    }
    /// "if m < C − live, copy .. behind the live bytes; else drain the carry"
    fn copies_behind(&self, m: usize, room: usize) -> bool {
        m < room
    }
    /// "copy as much of the chunk's rest as fits"
    fn copied_behind(&self, _m: usize, room: usize, rest: usize) -> usize {
        room.min(rest)
    }
    /// "An answer's position is `used` at its sync byte."
    fn position(&self, used_at_sync: u64, _gone: usize) -> u64 {
        used_at_sync
    }
    /// "drains up to the first byte that is a sync byte of the mode" (opening)
    fn opened_at(&self, first: usize) -> usize {
        first
    }
    /// "If the window has none, nothing is drained." (opening)
    fn opened_without_sync(&self, _w: usize) -> usize {
        0
    }
    /// "None: drain all, need more." (a step)
    fn stepped_without_sync(&self, w: usize) -> usize {
        w
    }
    /// "Lost is w − C where w > C, else 0."
    fn lost(&self, w: usize, c: usize) -> usize {
        w.saturating_sub(c)
    }
    /// "and all other bytes stay"
    fn left_behind_close(&self, _carry: &mut [u8], _kept: usize) {}
    /// "the mode and MAX asked for", also where a start is refused.
    fn mode_word(&self, mode: u64, _refusal: u64) -> u64 {
        mode
    }
    /// The refusals.
    fn refusal_of_start(&self, mode: u64, carry: u64) -> u64 {
        refusals::of_start(mode, carry)
    }
    fn refusal_of_open(&self, state: &State, carry: u64, chunk: u64) -> u64 {
        refusals::of_open(state, carry, chunk)
    }
    fn refusal_of_step(&self, state: &State, carry: u64, chunk: u64) -> u64 {
        refusals::of_step_or_close(state, carry, chunk)
    }
    /// "A refused call hands the state back unchanged"
    fn refused(&self, _state: &mut State) {}
}

/// 01's rules.
pub struct AsWritten;

impl Rules for AsWritten {}

/// What is left of the carry's live bytes, then what is left of the chunk.
pub struct Window<'a> {
    carry: &'a [u8],
    chunk: &'a [u8],
}

impl Window<'_> {
    pub fn len(&self) -> usize {
        self.carry.len() + self.chunk.len()
    }

    pub fn at(&self, i: usize) -> u8 {
        if i < self.carry.len() {
            self.carry[i]
        } else {
            self.chunk[i - self.carry.len()]
        }
    }

    /// The first sync byte at `from` or later.
    pub fn sync(&self, mode: u64, from: usize) -> Option<usize> {
        (from..self.len()).find(|&i| is_sync(mode, self.at(i)))
    }

    fn little_endian(&self, i: usize) -> u64 {
        u64::from(self.at(i)) + 256 * u64::from(self.at(i + 1))
    }
}

fn is_sync(mode: u64, byte: u8) -> bool {
    let mode = without_parity(mode);
    byte == B5 || (mode >= 2 && byte == D3) || (mode == 3 && byte == DOLLAR)
}

/// What stands at a sync byte.
enum Sight {
    Pass { drained: usize },
    Wait { drained: usize },
    Frame { kind: u64, class: u64, id: u64, drained: usize, taken: usize },
    WrongSum { head: [u64; 3], expect: u64, got: u64, drained: usize },
    WrongParity { expect: u64, got: u64, drained: usize },
    NoRoom { size: usize, drained: usize },
}

const NOTHING_YET: Sight = Sight::Wait { drained: 0 };

pub struct Model {
    pub rules: Box<dyn Rules>,
}

impl Framer for Model {
    fn start(&mut self, state: &mut State, lent: &mut Lent, mode: u64, max: u16) -> u64 {
        let refusal = self.rules.refusal_of_start(mode, lent.carry_length);
        if refusal != NO_SUCH_MODE {
            state[..STATE_WORDS].fill(0);
            state[MODE] = self.rules.mode_word(mode, refusal);
            state[MAX] = u64::from(max);
            state[C] = if refusal == 0 { lent.carry_length } else { 0 };
        }
        refusal
    }

    fn open(&mut self, state: &mut State, lent: &mut Lent) -> u64 {
        let refusal = self.rules.refusal_of_open(state, lent.carry_length, lent.chunk_length);
        if refusal != 0 {
            self.rules.refused(state);
            return refusal;
        }
        state[OPEN] = 1;
        state[CHUNK_LENGTH] = lent.chunk_length;
        let window = window(state, lent);
        let drained = match window.sync(state[MODE], 0) {
            Some(first) => self.rules.opened_at(first),
            None => self.rules.opened_without_sync(window.len()),
        };
        drain(state, drained);
        0
    }

    fn step(&mut self, state: &mut State, lent: &mut Lent, out: &mut [u64]) {
        out.fill(0);
        let refusal = self.rules.refusal_of_step(state, lent.carry_length, lent.chunk_length);
        if refusal != 0 {
            self.rules.refused(state);
            out[0] = REFUSAL;
            out[2] = refusal;
            return;
        }
        loop {
            let sight = self.look_for(state, lent);
            if let Sight::Pass { drained } = sight {
                drain(state, drained);
                continue;
            }
            return self.say(sight, state, lent, out);
        }
    }

    fn close(&mut self, state: &mut State, lent: &mut Lent, out: &mut [u64]) {
        out.fill(0);
        let refusal = self.rules.refusal_of_step(state, lent.carry_length, lent.chunk_length);
        if refusal != 0 {
            self.rules.refused(state);
            out[0] = refusal;
            return;
        }
        let bytes: Vec<u8> = {
            let window = window(state, lent);
            window.carry.iter().chain(window.chunk).copied().collect()
        };
        let kept = bytes.len().min(lent.carry.len());
        lent.carry[..kept].copy_from_slice(&bytes[..kept]);
        self.rules.left_behind_close(lent.carry, kept);
        out[1] = state[USED];
        out[2] = kept as u64;
        out[3] = self.rules.lost(bytes.len(), lent.carry.len()) as u64;
        state[LIVE] = kept as u64;
        for word in [OFF, USED, OPEN, CHUNK_LENGTH, PART_USED] {
            state[word] = 0;
        }
    }

    fn view(&mut self, lent: &Lent, side: u64, start: u64, length: u64) -> u64 {
        refusals::of_view(lent.carry_length, lent.chunk_length, side, start, length)
    }
}

impl Model {
    /// Rule 1, and what stands at the sync byte.
    fn look_for(&self, state: &mut State, lent: &Lent) -> Sight {
        let w = window(state, lent).len();
        if w == 0 {
            return NOTHING_YET;
        }
        let Some(first) = window(state, lent).sync(state[MODE], 0) else {
            return Sight::Wait { drained: self.rules.stepped_without_sync(w) };
        };
        drain(state, first);
        let window = window(state, lent);
        match window.at(0) {
            B5 => self.look_at_ubx(state, &window),
            D3 => self.look_at_rtcm(state, &window),
            _ => self.look_at_sentence(state, &window),
        }
    }

    /// Rule 2.
    fn look_at_ubx(&self, state: &State, window: &Window) -> Sight {
        let w = window.len();
        if w < 2 {
            return NOTHING_YET;
        }
        if window.at(1) != 0x62 {
            return Sight::Pass { drained: self.rules.drained_at_no_pair() };
        }
        if w < 6 {
            return NOTHING_YET;
        }
        let n = self.rules.ubx_length(window.at(4), window.at(5));
        if self.rules.is_over(n, state[MAX] as usize) {
            return Sight::Pass { drained: self.rules.drained_over_max(n).min(w) };
        }
        if !self.hands_out(state, window, 6, n + 2) {
            return self.no_room(state, w, self.rules.no_room_size(n), 2);
        }
        let (class, id) = (u64::from(window.at(2)), u64::from(window.at(3)));
        let received = window.little_endian(n + 6);
        let computed = fletcher(self.rules.summed(n).map(|i| window.at(i)));
        if received != computed {
            let (expect, got) = self.rules.expect_and_got(received, computed);
            let head = self.rules.head_named(class, id, n as u64);
            let drained = self.rules.drained_at_wrong_sum(n);
            return Sight::WrongSum { head, expect, got, drained };
        }
        Sight::Frame { kind: UBX_FRAME, class, id, drained: 6, taken: n + 2 }
    }

    /// Rule 3.
    fn look_at_rtcm(&self, state: &State, window: &Window) -> Sight {
        let w = window.len();
        if w < 3 {
            return NOTHING_YET;
        }
        let n = self.rules.rtcm_length(window.at(1), window.at(2));
        let parity = self.rules.has_parity(state[MODE]);
        let wrong = if parity { self.look_at_parity(window, n) } else { None };
        if self.rules.judges_parity_first() && wrong.is_some() {
            return wrong.unwrap_or(NOTHING_YET);
        }
        if !self.hands_out(state, window, 0, self.rules.rtcm_tested(n, parity)) {
            return self.no_room(state, w, self.rules.rtcm_no_room_size(n, parity), 1);
        }
        let taken = self.rules.rtcm_taken(n, parity);
        wrong.unwrap_or(Sight::Frame { kind: RTCM_FRAME, class: 0, id: 0, drained: 0, taken })
    }

    /// The wrong parity of a frame whose n + 6 bytes are there.
    fn look_at_parity(&self, window: &Window, n: usize) -> Option<Sight> {
        if window.len() < n + 6 {
            return None;
        }
        let received = self.rules.received_parity([3, 4, 5].map(|i| window.at(n + i)));
        let computed = self.remainder(window, self.rules.parity_covers(n));
        if received == computed {
            return None;
        }
        let (expect, got) = self.rules.parities_named(received, computed);
        Some(Sight::WrongParity { expect, got, drained: self.rules.drained_at_wrong_parity(n) })
    }

    /// CRC-24Q as the division that it is: the bits of the bytes and 24 zeros behind them, by the
    /// polynomial; the remainder is what is left of 24 bits.
    fn remainder(&self, window: &Window, covered: Range<usize>) -> u64 {
        let divisor = self.rules.parity_divisor();
        let divided = covered.map(|i| self.rules.parity_bits(window.at(i)));
        let mut left = self.rules.parity_start();
        for byte in divided.chain([0; 3]) {
            for turn in (0..8).rev() {
                left = 2 * left + u64::from(byte >> turn & 1);
                if left >= 1 << 24 {
                    left ^= divisor;
                }
            }
        }
        left
    }

    /// Rule 4.
    fn look_at_sentence(&self, state: &State, window: &Window) -> Sight {
        let w = window.len();
        if w < self.rules.least_sentence() {
            return NOTHING_YET;
        }
        let searched = self.rules.searched(window);
        let end = (1..searched).find(|&i| window.at(i - 1) == 0x0D && window.at(i) == 0x0A);
        if let Some(last) = end {
            let taken = last + 1;
            if !self.hands_out(state, window, 0, taken) {
                return Sight::NoRoom { size: taken, drained: 1 };
            }
            return Sight::Frame { kind: SENTENCE, class: 0, id: 0, drained: 0, taken };
        }
        if window.sync(state[MODE], 1).is_some() {
            if self.rules.looks_on_after_sentence() {
                return Sight::Pass { drained: 1 };
            }
            return Sight::Wait { drained: 1 };
        }
        Sight::Wait { drained: if self.rules.is_too_long(w) { w } else { 0 } }
    }

    /// The hand-out test.
    fn hands_out(&self, state: &State, window: &Window, drained: usize, taken: usize) -> bool {
        if window.len() < drained + taken {
            return false;
        }
        let in_carry = window.carry.len().saturating_sub(drained);
        let on_both_sides = in_carry > 0 && in_carry < taken;
        !on_both_sides || self.rules.fits_on_both_sides(drained, taken, state[C] as usize)
    }

    /// "Not possible: if w > C .. no room with size ..; else need more."
    fn no_room(&self, state: &State, w: usize, size: usize, drained: usize) -> Sight {
        if self.rules.is_short_of_room(w, state[C] as usize) {
            Sight::NoRoom { size, drained }
        } else {
            NOTHING_YET
        }
    }

    /// Drains, takes and answers.
    fn say(&self, sight: Sight, state: &mut State, lent: &mut Lent, out: &mut [u64]) {
        let used_at_sync = state[USED];
        let drained = match sight {
            Sight::Pass { drained } | Sight::Wait { drained } => drained,
            Sight::WrongSum { drained, .. } | Sight::NoRoom { drained, .. } => drained,
            Sight::WrongParity { drained, .. } | Sight::Frame { drained, .. } => drained,
        };
        drain(state, drained);
        out[1] = self.rules.position(used_at_sync, drained);
        match sight {
            Sight::Pass { .. } | Sight::Wait { .. } => {
                out[0] = NEED_MORE;
                out[1] = 0;
            }
            Sight::WrongSum { head, expect, got, .. } => {
                (out[0], out[2], out[3]) = (WRONG_SUM, expect, got);
                out[4..7].copy_from_slice(&head);
            }
            Sight::WrongParity { expect, got, .. } => {
                (out[0], out[2], out[3]) = (WRONG_PARITY, expect, got);
            }
            Sight::NoRoom { size, .. } => (out[0], out[2]) = (NO_ROOM, size as u64),
            Sight::Frame { kind, class, id, taken, .. } => {
                (out[0], out[2], out[3]) = (kind, class, id);
                (out[4], out[5]) = self.take(state, lent, taken);
                out[6] = taken as u64;
            }
        }
    }

    /// "Taking t": the side and the start of the place.
    fn take(&self, state: &mut State, lent: &mut Lent, taken: usize) -> (u64, u64) {
        let (live, off) = (state[LIVE] as usize, state[OFF] as usize);
        let (part_used, rest) = (state[PART_USED] as usize, live - off);
        if taken <= rest || rest == 0 {
            let side = if rest == 0 { CHUNK_SIDE } else { CARRY_SIDE };
            let start = if rest == 0 { part_used } else { off };
            drain(state, taken);
            return (side, start as u64);
        }
        let (m, room) = (taken - rest, lent.carry.len() - live);
        state[USED] += taken as u64;
        if self.rules.copies_behind(m, room) {
            let copied = self.rules.copied_behind(m, room, lent.chunk.len() - part_used);
            lent.carry[live..live + copied]
                .copy_from_slice(&lent.chunk[part_used..part_used + copied]);
            state[LIVE] += copied as u64;
            state[PART_USED] += copied as u64;
            state[OFF] += taken as u64;
            return (CARRY_SIDE, off as u64);
        }
        lent.carry.copy_within(off..live, 0);
        lent.carry[rest..taken].copy_from_slice(&lent.chunk[part_used..part_used + m]);
        state[LIVE] = taken as u64;
        state[OFF] = taken as u64;
        state[PART_USED] += m as u64;
        (CARRY_SIDE, 0)
    }
}

fn window<'a>(state: &State, lent: &'a Lent) -> Window<'a> {
    Window {
        carry: &lent.carry[state[OFF] as usize..state[LIVE] as usize],
        chunk: &lent.chunk[state[PART_USED] as usize..],
    }
}

/// Uses up the first k bytes of the window.
fn drain(state: &mut State, k: usize) {
    let from_carry = (k as u64).min(state[LIVE] - state[OFF]);
    state[OFF] += from_carry;
    state[PART_USED] += k as u64 - from_carry;
    state[USED] += k as u64;
}

/// The sum: a + 256 × b.
fn fletcher(bytes: impl Iterator<Item = u8>) -> u64 {
    let (mut a, mut b) = (0u64, 0u64);
    for byte in bytes {
        a = (a + u64::from(byte)) % 256;
        b = (b + a) % 256;
    }
    a + 256 * b
}
