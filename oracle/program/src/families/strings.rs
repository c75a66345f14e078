//! Every short string over the sync bytes and their friends, and every short string of whole and
//! broken frames: at every split between carry and chunk, in each mode, with the carries near it.

use super::{any_bytes, state_of, Family};
use crate::bytes::{put_parity, Setting, T, U};
use crate::random::Random;
use crate::run::{Run, Stop};
use crate::words::*;

pub struct Strings {
    name: &'static str,
    tokens: Vec<Vec<u8>>,
    /// How many tokens the strings have now, and which string is next.
    length: u32,
    next: u64,
    /// How many strings a part does.
    at_once: usize,
    /// Whether every carry length from the split on is tried, or the edges only.
    every_c: bool,
    modes: &'static [u64],
    limits: &'static [u16],
}

impl Strings {
    pub fn of_bytes() -> Strings {
        let bytes = [B5, 0x62, D3, DOLLAR, 0x0D, 0x0A, 0x00, 0x01, 0x41];
        Strings {
            name: "bytes B5 62 D3 24 0D 0A 00 01 41",
            tokens: bytes.iter().map(|byte| vec![*byte]).collect(),
            length: 0,
            next: 0,
            at_once: 40,
            every_c: true,
            modes: &[1, 2, 3],
            limits: &[0, 1],
        }
    }

    pub fn of_tokens() -> Strings {
        let wrong_sum = [B5, 0x62, 0x0A, 0x04, 0x00, 0x00, 0x0E, 0x35];
        let tokens: [&[u8]; 15] = [
            &T,
            &wrong_sum,
            &U,
            &[B5, 0x62, 0x01, 0x02],
            &[0x00, 0x00],
            &[0x01, 0x00],
            &[B5],
            &[D3],
            &[D3, 0xFC, 0x01],
            &[DOLLAR],
            b"$GPTXT",
            &[0x0D, 0x0A],
            &[0x0D],
            &[0x41],
            &[0x03, 0xBE, 0xEF],
        ];
        Strings {
            name: "15 whole and broken frames",
            tokens: tokens.iter().map(|token| token.to_vec()).collect(),
            length: 0,
            next: 0,
            at_once: 2,
            every_c: false,
            modes: &[1, 2, 3],
            limits: &[0, 1, 16],
        }
    }

    /// 47 EA 4B is the parity of D3 00 00.
    pub fn of_tokens_with_parity() -> Strings {
        let mut frame = vec![D3, 0xFC, 0x01, B5];
        put_parity(&mut frame, 0, [0; 3]);
        let tokens: [&[u8]; 12] = [
            &[D3],
            &[0x00, 0x00],
            &[0x47, 0xEA, 0x4B],
            &[0x47, 0xEA],
            &[0x4B],
            &[D3, 0x00, 0x00, 0x47, 0xEA, 0x4B],
            &[D3, 0x00, 0x00, 0x4B, 0xEA, 0x47],
            &frame,
            &frame[..4],
            &T,
            b"$GPTXT",
            &[0x0D, 0x0A],
        ];
        Strings {
            name: "12 whole and broken frames with parity",
            tokens: tokens.iter().map(|token| token.to_vec()).collect(),
            length: 0,
            next: 0,
            at_once: 4,
            every_c: false,
            modes: &[17, 18, 19],
            limits: &[16],
        }
    }

    /// The next string, and its length in tokens grown by one after the last.
    fn string(&mut self) -> Vec<u8> {
        let base = self.tokens.len() as u64;
        let (mut rest, mut string) = (self.next, Vec::new());
        for _ in 0..self.length {
            string.extend_from_slice(&self.tokens[(rest % base) as usize]);
            rest /= base;
        }
        self.next += 1;
        if self.next == base.pow(self.length) {
            self.next = 0;
            self.length += 1;
        }
        string
    }

    fn carries(&self, split: usize, length: usize) -> Vec<usize> {
        if self.every_c {
            return (split..=length.max(split) + 1).collect();
        }
        let mut edges = vec![split, split + 1, 8, 10, length.saturating_sub(1), length, length + 1];
        edges.retain(|c| *c >= split);
        edges.sort_unstable();
        edges.dedup();
        edges
    }

    /// One string at one split: carry and chunk opened, stepped to need more and once beyond, closed,
    /// and T behind it.
    fn case(
        &self,
        run: &mut Run,
        random: &mut Random,
        setting: &Setting,
        string: &[u8],
        split: usize,
    ) -> Result<(), Stop> {
        let mut carry = any_bytes(random, setting.c);
        carry[..split].copy_from_slice(&string[..split]);
        let state = state_of(random, setting, split);
        run.begin(&state, &carry, &string[split..]);
        run.call(Call::Open);
        run.step_on(string.len() + 2);
        run.call(Call::Step);
        run.call(Call::Close);
        if random.once_in(8) {
            run.chunk(&T);
            run.call(Call::Open);
            run.step_on(string.len() + 10);
            run.call(Call::Close);
        }
        run.end()
    }
}

impl Family for Strings {
    fn progress(&self) -> String {
        let whole = self.length.saturating_sub(1);
        format!("every string of up to {whole} of the {}, at every split", self.name)
    }

    fn part(&mut self, run: &mut Run, random: &mut Random) -> Result<(), Stop> {
        for _ in 0..self.at_once {
            let string = self.string();
            for split in 0..=string.len() {
                for c in self.carries(split, string.len()) {
                    for mode in self.modes {
                        for max in self.limits {
                            let setting = Setting { mode: *mode, max: *max, c };
                            self.case(run, random, &setting, &string, split)?;
                        }
                    }
                }
            }
        }
        Ok(())
    }
}
