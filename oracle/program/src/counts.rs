//! What was compared, counted.

use crate::words::*;
use std::fmt;

#[derive(Clone, Default)]
pub struct Counts {
    pub calls: [u64; 5],
    pub answers: [u64; ANSWERS.len()],
    pub refusals: [u64; 9],
    /// Steps that were not refused, by mode as in `MODES`.
    pub modes: [u64; MODES.len()],
    /// RTCM frames with parity.
    pub with_parity: u64,
    /// Frames in the chunk, in the carry, brought to the carry behind its live bytes, and brought
    /// there after a move.
    pub places: [u64; 4],
}

const PLACES: [&str; 4] = [
    "whole in the chunk",
    "whole in the carry",
    "on both sides, copied behind",
    "on both sides, carry moved first",
];

impl Counts {
    pub fn total(&self) -> u64 {
        self.calls.iter().sum()
    }

    pub fn add(&mut self, more: &Counts) {
        add_each(&mut self.calls, &more.calls);
        add_each(&mut self.answers, &more.answers);
        add_each(&mut self.refusals, &more.refusals);
        add_each(&mut self.modes, &more.modes);
        self.with_parity += more.with_parity;
        add_each(&mut self.places, &more.places);
    }

    /// What was done with parity, in a line.
    pub fn parity(&self) -> String {
        let in_modes = self.modes.iter().zip(MODES).filter(|(_, mode)| has_parity(*mode));
        let steps: u64 = in_modes.map(|(count, _)| count).sum();
        let [steps, right, wrong] =
            [steps, self.with_parity, self.answers[WRONG_PARITY as usize]].map(grouped);
        format!("with parity: {steps} steps, {right} RTCM frames, {wrong} wrong parities")
    }

    /// Counts a call by the state before it, the state after it and its out words.
    pub fn note(&mut self, call: Call, before: &State, after: &State, out: &[u64; 16]) {
        self.calls[call.operation()] += 1;
        self.refusals[call.refusal(out) as usize] += 1;
        if call != Call::Step {
            return;
        }
        self.answers[out[0] as usize] += 1;
        if out[0] != REFUSAL {
            let mode = MODES.iter().position(|mode| *mode == before[MODE]);
            self.modes[mode.expect("a mode")] += 1;
        }
        if out[0] == RTCM_FRAME {
            self.with_parity += u64::from(has_parity(before[MODE]));
        }
        if (UBX_FRAME..=SENTENCE).contains(&out[0]) {
            self.places[place_kind(before, after, out)] += 1;
        }
    }
}

fn add_each(to: &mut [u64], more: &[u64]) {
    to.iter_mut().zip(more).for_each(|(count, n)| *count += n);
}

/// Which of `PLACES` a frame has.
pub fn place_kind(before: &State, after: &State, out: &[u64; 16]) -> usize {
    if out[4] == CHUNK_SIDE {
        return 0;
    }
    if after[PART_USED] == before[PART_USED] {
        return 1;
    }
    let head = if out[0] == UBX_FRAME { 6 } else { 0 };
    let off = before[OFF] + (out[1] - before[USED]) + head;
    let moved = out[5] != off || (off == 0 && out[6] == before[C]);
    if moved {
        3
    } else {
        2
    }
}

impl fmt::Display for Counts {
    fn fmt(&self, to: &mut fmt::Formatter) -> fmt::Result {
        table(to, "calls by operation", CALLS.iter().copied().zip(self.calls))?;
        let numbered = |names: &[&str], counts: &[u64]| -> Vec<(String, u64)> {
            let rows = names.iter().zip(counts).enumerate().skip(1);
            rows.map(|(i, (name, count))| (format!("{i} {name}"), *count)).collect()
        };
        table(to, "answers of step by kind", numbered(&ANSWERS, &self.answers))?;
        table(to, "frames by place", PLACES.iter().copied().zip(self.places))?;
        let name = |mode| match has_parity(mode) {
            true => format!("mode {mode}, {} with parity", without_parity(mode)),
            false => format!("mode {mode}"),
        };
        table(to, "steps by mode", MODES.map(name).into_iter().zip(self.modes))?;
        table(to, "refusals by number", numbered(&REFUSALS, &self.refusals))
    }
}

fn table<N: fmt::Display>(
    to: &mut fmt::Formatter,
    title: &str,
    rows: impl IntoIterator<Item = (N, u64)>,
) -> fmt::Result {
    writeln!(to, "{title}")?;
    for (name, count) in rows {
        writeln!(to, "  {:<34}{:>16}", name.to_string(), grouped(count))?;
    }
    Ok(())
}

/// A number with a comma before each three digits.
pub fn grouped(number: u64) -> String {
    let digits = number.to_string();
    let mut text = String::new();
    for (i, digit) in digits.chars().enumerate() {
        if i > 0 && (digits.len() - i) % 3 == 0 {
            text.push(',');
        }
        text.push(digit);
    }
    text
}
