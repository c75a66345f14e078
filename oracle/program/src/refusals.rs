//! 01's table of refusals read a second time, and the C interface's own words about it. Numbers are
//! added as numbers: nothing wraps.

use crate::words::*;

/// Start: 8 for a mode that is none, else 1 for a carry that is too big, else 0.
pub fn of_start(mode: u64, carry_length: u64) -> u64 {
    if !is_mode(mode) {
        NO_SUCH_MODE
    } else if carry_length > LIMIT {
        CARRY_TOO_BIG
    } else {
        0
    }
}

/// Open: 2, then 3, then 5.
pub fn of_open(state: &State, carry_length: u64, chunk_length: u64) -> u64 {
    if is_bad(state, carry_length) {
        BAD_STATE
    } else if state[OPEN] == 1 {
        ALREADY_OPEN
    } else if chunk_length > LIMIT {
        CHUNK_TOO_LONG
    } else {
        0
    }
}

/// Step and close: 2, then 4, then 6.
pub fn of_step_or_close(state: &State, carry_length: u64, chunk_length: u64) -> u64 {
    if is_bad(state, carry_length) {
        BAD_STATE
    } else if state[OPEN] == 0 {
        NOT_OPEN
    } else if chunk_length != state[CHUNK_LENGTH] {
        OTHER_CHUNK
    } else {
        0
    }
}

/// View: 7 where start + length passes the end of the side, or where there is no such side.
pub fn of_view(carry_length: u64, chunk_length: u64, side: u64, start: u64, length: u64) -> u64 {
    let end = match side {
        CARRY_SIDE => carry_length,
        CHUNK_SIDE => chunk_length,
        _ => return BAD_PLACE,
    };
    if u128::from(start) + u128::from(length) > u128::from(end) {
        BAD_PLACE
    } else {
        0
    }
}

/// Refusal 2, clause by clause; w is asked for only where live and chunk length are not passed.
pub fn is_bad(state: &State, carry_length: u64) -> bool {
    let [mode, max, c, live, off, used, open, chunk_length, part_used] = first_nine(state);
    if !is_mode(mode) || max > 65_535 || open > 1 {
        return true;
    }
    if carry_length != c || c > LIMIT || live > c || off > live {
        return true;
    }
    if part_used > chunk_length || chunk_length > LIMIT {
        return true;
    }
    let w = (live - off) + (chunk_length - part_used);
    if u128::from(used) + u128::from(w) > 32_768 {
        return true;
    }
    open == 0 && (off != 0 || used != 0 || chunk_length != 0)
}

/// One, two or three; 16 more for the same with parity.
fn is_mode(mode: u64) -> bool {
    matches!(mode, 1..=3 | 17..=19)
}

fn first_nine(state: &State) -> [u64; 9] {
    std::array::from_fn(|i| state[i])
}
