//! The words of the C functions, by name: state, answers, refusals, requests.

pub type State = [u64; 24];

/// The state's words.
pub const MODE: usize = 0;
pub const MAX: usize = 1;
pub const C: usize = 2;
pub const LIVE: usize = 3;
pub const OFF: usize = 4;
pub const USED: usize = 5;
pub const OPEN: usize = 6;
pub const CHUNK_LENGTH: usize = 7;
pub const PART_USED: usize = 8;
/// The words of a state that have a meaning; those behind them stay as they are.
pub const STATE_WORDS: usize = 9;

/// The modes' numbers: one, two and three, and the same with parity.
pub const PARITY: u64 = 16;
pub const MODES: [u64; 6] = [1, 2, 3, 17, 18, 19];

/// Whether a mode's number says parity.
pub fn has_parity(mode: u64) -> bool {
    mode >= PARITY
}

/// The mode's number without parity.
pub fn without_parity(mode: u64) -> u64 {
    mode % PARITY
}

/// The answers' numbers.
pub const UBX_FRAME: u64 = 1;
pub const RTCM_FRAME: u64 = 2;
pub const SENTENCE: u64 = 3;
pub const WRONG_SUM: u64 = 4;
pub const NO_ROOM: u64 = 5;
pub const NEED_MORE: u64 = 6;
pub const REFUSAL: u64 = 7;
pub const WRONG_PARITY: u64 = 8;
pub const ANSWERS: [&str; 9] = [
    "",
    "UBX frame",
    "RTCM frame",
    "sentence",
    "wrong sum",
    "no room",
    "need more",
    "refusal",
    "wrong parity",
];

/// The sides' numbers.
pub const CARRY_SIDE: u64 = 0;
pub const CHUNK_SIDE: u64 = 1;

/// The refusals' numbers.
pub const CARRY_TOO_BIG: u64 = 1;
pub const BAD_STATE: u64 = 2;
pub const ALREADY_OPEN: u64 = 3;
pub const NOT_OPEN: u64 = 4;
pub const CHUNK_TOO_LONG: u64 = 5;
pub const OTHER_CHUNK: u64 = 6;
pub const BAD_PLACE: u64 = 7;
pub const NO_SUCH_MODE: u64 = 8;
pub const REFUSALS: [&str; 9] = [
    "",
    "carry too big",
    "bad state",
    "already open",
    "not open",
    "chunk too long",
    "other chunk",
    "bad place",
    "no such mode",
];

/// The longest carry and the longest chunk.
pub const LIMIT: u64 = 16_384;

/// The sync bytes.
pub const B5: u8 = 0xB5;
pub const D3: u8 = 0xD3;
pub const DOLLAR: u8 = 0x24;

/// One call of the C functions, without the memory that it is lent.
#[derive(Clone, Copy, Debug, PartialEq, Eq)]
pub enum Call {
    Start { mode: u64, max: u16 },
    Open,
    Step,
    Close,
    View { side: u64, start: u64, length: u64 },
}

pub const CALLS: [&str; 5] = ["start", "open", "step", "close", "view"];

impl Call {
    /// The place of this call's operation in `CALLS`.
    pub fn operation(self) -> usize {
        match self {
            Call::Start { .. } => 0,
            Call::Open => 1,
            Call::Step => 2,
            Call::Close => 3,
            Call::View { .. } => 4,
        }
    }

    /// How many words it writes to `out`, its answer counted as one.
    pub fn outs(self) -> usize {
        match self {
            Call::Step => 8,
            Call::Close => 16,
            _ => 1,
        }
    }

    /// The refusal's number that its out words say; 0 for none.
    pub fn refusal(self, out: &[u64]) -> u64 {
        match self {
            Call::Step if out[0] == REFUSAL => out[2],
            Call::Step => 0,
            _ => out[0],
        }
    }
}
