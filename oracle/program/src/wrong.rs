//! Wrong versions, each with one rule of 01 or of 02's parity read wrong: the five errors that 01 says a
//! porter is likely to make, and more. The comparison has to catch each.

use crate::model::{Rules, Window};
use crate::refusals;
use crate::words::*;
use std::ops::Range;

macro_rules! wrong_versions {
    ($($name:ident: $what:literal { $($rule:item)* })*) => {
        $(
            struct $name;
            impl Rules for $name { $($rule)* }
        )*

        /// What each does wrong, and its rules.
        pub fn versions() -> Vec<(&'static str, Box<dyn Rules>)> {
            vec![$(($what, Box::new($name))),*]
        }
    };
}

wrong_versions! {
    DrainsFrame: "drains the whole frame after a wrong sum (01, error 1)" {
        fn drained_at_wrong_sum(&self, n: usize) -> usize { n + 8 }
    }
    RefusesMax: "passes over n = MAX (01, error 2)" {
        fn is_over(&self, n: usize, max: usize) -> bool { n >= max }
    }
    TestsEight: "tests n + 8 against C for a frame on both sides (01, error 3)" {
        fn fits_on_both_sides(&self, drained: usize, taken: usize, c: usize) -> bool {
            drained + taken <= c
        }
    }
    SumsSyncBytes: "puts the sync bytes into the sum (01, error 4)" {
        fn summed(&self, n: usize) -> Range<usize> { 0..n + 6 }
    }
    SumsCheckBytes: "puts the check bytes into the sum (01, error 4)" {
        fn summed(&self, n: usize) -> Range<usize> { 2..n + 8 }
    }
    AlwaysMoves: "moves the carry where m < C - live (01, error 5)" {
        fn copies_behind(&self, _m: usize, _room: usize) -> bool { false }
    }
    NeverMovesAtEdge: "does not move the carry where m = C - live" {
        fn copies_behind(&self, m: usize, room: usize) -> bool { m <= room }
    }
    CopiesJustM: "copies just m where more fits behind the live bytes" {
        fn copied_behind(&self, m: usize, _room: usize, _rest: usize) -> usize { m }
    }
    BigEndian: "reads n big-endian" {
        fn ubx_length(&self, byte_4: u8, byte_5: u8) -> usize {
            usize::from(byte_5) + 256 * usize::from(byte_4)
        }
    }
    OneLengthByte: "reads the first length byte only" {
        fn ubx_length(&self, byte_4: u8, _byte_5: u8) -> usize { usize::from(byte_4) }
    }
    PassesWholeOverMax: "passes a frame over MAX as a whole" {
        fn drained_over_max(&self, n: usize) -> usize { n + 8 }
    }
    PassesTwoAtNoPair: "passes two bytes where 62 does not follow B5" {
        fn drained_at_no_pair(&self) -> usize { 2 }
    }
    SwapsSums: "swaps expect and got" {
        fn expect_and_got(&self, received: u64, computed: u64) -> (u64, u64) { (computed, received) }
    }
    NamesIdFirst: "names a wrong sum's id before its class" {
        fn head_named(&self, class: u64, id: u64, n: u64) -> [u64; 3] { [id, class, n] }
    }
    NamesBody: "names a wrong sum's length as n + 2" {
        fn head_named(&self, class: u64, id: u64, n: u64) -> [u64; 3] { [class, id, n + 2] }
    }
    SaysEight: "says no room with size n + 8" {
        fn no_room_size(&self, n: usize) -> usize { n + 8 }
    }
    NoRoomAtC: "says no room where w = C" {
        fn is_short_of_room(&self, w: usize, c: usize) -> bool { w >= c }
    }
    ReservedBits: "reads the reserved bits into an RTCM length" {
        fn rtcm_length(&self, high: u8, low: u8) -> usize {
            usize::from(high) * 256 + usize::from(low)
        }
    }
    LittleEndian: "reads an RTCM length little-endian" {
        fn rtcm_length(&self, high: u8, low: u8) -> usize {
            (usize::from(low) * 256 + usize::from(high)) % 1024
        }
    }
    SevenBytes: "looks for a sentence in seven bytes" {
        fn least_sentence(&self) -> usize { 7 }
    }
    EightyTwo: "drains 82 bytes without an end" {
        fn is_too_long(&self, w: usize) -> bool { w >= 82 }
    }
    StopsAtSync: "looks for a sentence's end up to the next sync byte only" {
        fn searched(&self, window: &Window) -> usize {
            window.sync(3, 1).unwrap_or(window.len())
        }
    }
    StopsAt82: "looks for a sentence's end in 82 bytes only" {
        fn searched(&self, window: &Window) -> usize { window.len().min(82) }
    }
    LooksOn: "looks on where a sentence has no end and a sync byte stands in it" {
        fn looks_on_after_sentence(&self) -> bool { true }
    }
    PositionOfBody: "gives the body's position for the frame's" {
        fn position(&self, used_at_sync: u64, gone: usize) -> u64 { used_at_sync + gone as u64 }
    }
    OpensByDraining: "drains all on opening without a sync byte" {
        fn opened_without_sync(&self, w: usize) -> usize { w }
    }
    LosesFirstByte: "uses up the sync byte on opening" {
        fn opened_at(&self, first: usize) -> usize { first + 1 }
    }
    KeepsNoise: "keeps a window without a sync byte" {
        fn stepped_without_sync(&self, _w: usize) -> usize { 0 }
    }
    LosesSilently: "reports nothing lost, as the Rust does" {
        fn lost(&self, _w: usize, _c: usize) -> usize { 0 }
    }
    ClearsBehind: "clears the carry behind what it keeps" {
        fn left_behind_close(&self, carry: &mut [u8], kept: usize) { carry[kept..].fill(0) }
    }
    OpensOpen: "tests an opening's chunk before whether the state is open" {
        fn refusal_of_open(&self, state: &State, carry: u64, chunk: u64) -> u64 {
            match refusals::of_open(state, carry, chunk) {
                ALREADY_OPEN if chunk > LIMIT => CHUNK_TOO_LONG,
                number => number,
            }
        }
    }
    NotOpenFirst: "says not open before bad state" {
        fn refusal_of_step(&self, state: &State, carry: u64, chunk: u64) -> u64 {
            match refusals::of_step_or_close(state, carry, chunk) {
                BAD_STATE if state[OPEN] == 0 => NOT_OPEN,
                number => number,
            }
        }
    }
    RefusesAtEdge: "refuses used + w = 32,768" {
        fn refusal_of_step(&self, state: &State, carry: u64, chunk: u64) -> u64 {
            let number = refusals::of_step_or_close(state, carry, chunk);
            let mut one_more = *state;
            one_more[USED] = state[USED].saturating_add(1);
            if number != 0 {
                return number;
            }
            refusals::of_step_or_close(&one_more, carry, chunk)
        }
    }
    ParityOfLess: "takes the parity over n + 2 bytes" {
        fn parity_covers(&self, n: usize) -> Range<usize> { 0..n + 2 }
    }
    ParityOfBody: "takes the parity over the n bytes behind the head" {
        fn parity_covers(&self, n: usize) -> Range<usize> { 3..n + 3 }
    }
    ParityOfAll: "takes the parity over its own bytes too" {
        fn parity_covers(&self, n: usize) -> Range<usize> { 0..n + 6 }
    }
    ParityLittleEndian: "reads the parity little-endian" {
        fn received_parity(&self, [low, middle, high]: [u8; 3]) -> u64 {
            u64::from(low) + 256 * u64::from(middle) + 65_536 * u64::from(high)
        }
    }
    ParityStart: "starts the CRC at B704CE" {
        fn parity_start(&self) -> u64 { 0xB7_04CE }
    }
    ParityReflected: "takes the bits of each byte from the lowest on" {
        fn parity_bits(&self, byte: u8) -> u8 { byte.reverse_bits() }
    }
    ParityDivisor: "divides by 1800063, another CRC of 24 bits" {
        fn parity_divisor(&self) -> u64 { 0x180_0063 }
    }
    ParityDrainsHead: "drains 3 at a wrong parity" {
        fn drained_at_wrong_parity(&self, _n: usize) -> usize { 3 }
    }
    ParityDrainsFrame: "drains the whole frame, n + 6, at a wrong parity" {
        fn drained_at_wrong_parity(&self, n: usize) -> usize { n + 6 }
    }
    SwapsParities: "swaps the two parities" {
        fn parities_named(&self, received: u64, computed: u64) -> (u64, u64) { (computed, received) }
    }
    HandsNoParity: "hands out n + 3 bytes with parity" {
        fn rtcm_taken(&self, n: usize, _parity: bool) -> usize { n + 3 }
    }
    SaysThree: "says no room with size n + 3 with parity" {
        fn rtcm_no_room_size(&self, n: usize, _parity: bool) -> usize { n + 3 }
    }
    ParityFirst: "judges the parity before the hand-out test" {
        fn judges_parity_first(&self) -> bool { true }
    }
    ParityAlways: "asks for parity in the setting without it" {
        fn has_parity(&self, _mode: u64) -> bool { true }
    }
    ParityNever: "asks for no parity in mode three with it" {
        fn has_parity(&self, mode: u64) -> bool { mode == 18 }
    }
    ForgetsParity: "says the mode without parity after a refused start" {
        fn mode_word(&self, mode: u64, refusal: u64) -> u64 {
            if refusal == 0 { mode } else { without_parity(mode) }
        }
    }
    TakesAnyMode: "takes the mode 20 for one" {
        fn refusal_of_start(&self, mode: u64, carry: u64) -> u64 {
            refusals::of_start(if mode == 20 { 19 } else { mode }, carry)
        }
    }
    Forgets: "sets used to 0 where it refuses" {
        fn refused(&self, state: &mut State) { state[USED] = 0 }
    }
}

/// What the library's process can be asked to spoil after each step, and that it ends or never does.
pub const SPOILS: [&str; 10] = [
    "touches a byte before the carry",
    "touches a byte behind the carry",
    "touches a byte before the chunk",
    "touches a byte behind the chunk",
    "touches a byte of the chunk",
    "touches word 9 of the state",
    "touches a word behind the state",
    "touches a word behind step's out",
    "ends within a step",
    "never comes back from a step",
];
