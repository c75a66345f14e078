//! One call as a text that replays it: the state's words, the lent bytes, the call.

use crate::framer::Framer;
use crate::rust_side::RustSide;
use crate::second::Second;
use crate::server::{self, Server};
use crate::words::*;
use std::fmt::Write;

/// The memory before a call, and the call.
pub struct Script {
    pub state: State,
    pub carry: Vec<u8>,
    pub chunk: Vec<u8>,
    /// Lengths lent beyond what is held; 0 for none.
    pub huge: [u64; 2],
    pub calls: Vec<Call>,
}

impl Script {
    /// The memory of a server as it stands.
    fn of<F: Framer>(server: &Server<F>, call: Call) -> Script {
        let beyond = |length: u64, held: usize| if length == held as u64 { 0 } else { length };
        Script {
            state: server.state,
            carry: server.carry().to_vec(),
            chunk: server.chunk().to_vec(),
            huge: [
                beyond(server.carry_length, server.carry().len()),
                beyond(server.chunk_length, server.chunk().len()),
            ],
            calls: vec![call],
        }
    }

    /// The requests that do the calls alone.
    pub fn requests(&self) -> Vec<u8> {
        let mut requests = self.memory_requests();
        self.calls.iter().for_each(|call| server::put_call(&mut requests, *call));
        requests
    }

    /// The requests that set up the memory.
    pub fn memory_requests(&self) -> Vec<u8> {
        let mut requests = Vec::new();
        server::put_load(&mut requests, &self.state, &self.carry, 0);
        server::put_load_chunk(&mut requests, &self.chunk, 0);
        if self.huge != [0, 0] {
            [server::HUGE, self.huge[0], self.huge[1]]
                .iter()
                .for_each(|word| server::put_word(&mut requests, *word));
        }
        requests
    }

    pub fn text(&self) -> String {
        let mut text = String::from("# oracle/compare --replay FILE does this on both sides\n");
        let words: Vec<String> = self.state.iter().map(u64::to_string).collect();
        let _ = writeln!(text, "state {}", words.join(" "));
        let _ = writeln!(text, "carry {}", hex(&self.carry));
        let _ = writeln!(text, "chunk {}", hex(&self.chunk));
        if self.huge != [0, 0] {
            let _ = writeln!(text, "huge {} {}", self.huge[0], self.huge[1]);
        }
        for call in &self.calls {
            let _ = writeln!(text, "{}", call_text(*call));
        }
        text
    }

    /// Reads a text of this kind; an error names the line.
    pub fn read(text: &str) -> Result<Script, String> {
        let mut script = Script {
            state: [0; 24],
            carry: Vec::new(),
            chunk: Vec::new(),
            huge: [0; 2],
            calls: Vec::new(),
        };
        for line in text.lines() {
            script.read_line(line).ok_or(format!("not a line of a script: {line}"))?;
        }
        Ok(script)
    }

    fn read_line(&mut self, line: &str) -> Option<()> {
        let words: Vec<&str> = line.split('#').next()?.split_whitespace().collect();
        let Some((first, rest)) = words.split_first() else {
            return Some(());
        };
        let numbers = || -> Option<Vec<u64>> { rest.iter().map(|w| w.parse().ok()).collect() };
        match *first {
            "state" => self.state = numbers()?.try_into().ok()?,
            "carry" => self.carry = unhex(rest)?,
            "chunk" => self.chunk = unhex(rest)?,
            "huge" => self.huge = numbers()?.try_into().ok()?,
            name => self.calls.push(call_named(name, &numbers()?)?),
        }
        Some(())
    }
}

fn call_named(name: &str, numbers: &[u64]) -> Option<Call> {
    match (name, numbers) {
        ("start", [mode, max]) => Some(Call::Start { mode: *mode, max: (*max).try_into().ok()? }),
        ("open", []) => Some(Call::Open),
        ("step", []) => Some(Call::Step),
        ("close", []) => Some(Call::Close),
        ("view", [side, start, length]) => {
            Some(Call::View { side: *side, start: *start, length: *length })
        }
        _ => None,
    }
}

/// A call as its line of a script.
pub fn call_text(call: Call) -> String {
    match call {
        Call::Start { mode, max } => format!("start {mode} {max}"),
        Call::View { side, start, length } => format!("view {side} {start} {length}"),
        _ => CALLS[call.operation()].to_string(),
    }
}

/// A difference: how many calls of the batch were equal before it, in a word what it is, and the call
/// with what each side said, as a script.
pub struct Difference {
    pub calls: u64,
    pub place: String,
    pub script: String,
}

/// The Rust going through a batch again, stopped at each call.
struct Walk<'a> {
    rust: Server<RustSide>,
    requests: &'a [u8],
    at: usize,
    calls: u64,
    /// The request that spoils the second side, where one was met.
    spoil: &'a [u8],
}

impl<'a> Walk<'a> {
    fn new(requests: &'a [u8]) -> Walk<'a> {
        Walk { rust: Server::new(RustSide), requests, at: 0, calls: 0, spoil: &[] }
    }

    /// Goes to the next call, and answers it as a script on the memory before it.
    fn next_call(&mut self) -> Option<Script> {
        while self.at < self.requests.len() {
            let rest = &self.requests[self.at..];
            if server::word_of(rest, 0) < server::LOAD {
                return Some(Script::of(&self.rust, server::call_of(rest).1));
            }
            let words = self.rust.request(rest, &mut Vec::new()).0;
            if server::word_of(rest, 0) == server::SPOIL {
                self.spoil = &rest[..8 * words];
            }
            self.at += 8 * words;
        }
        None
    }

    /// Whether the call that it stands at is the batch's last request.
    fn at_last(&self) -> bool {
        self.at + 8 * server::call_of(&self.requests[self.at..]).0 == self.requests.len()
    }

    /// Does the call that it stands at; answers the Rust's reply.
    fn do_call(&mut self) -> Vec<u8> {
        let mut reply = Vec::new();
        self.at += 8 * self.rust.request(&self.requests[self.at..], &mut reply).0;
        self.calls += 1;
        reply
    }
}

/// The first call of a batch whose reply differs from the Rust's.
pub fn first_difference(requests: &[u8], replies: &[u8]) -> Difference {
    let mut walk = Walk::new(requests);
    let mut rest = replies;
    while let Some(script) = walk.next_call() {
        let calls = walk.calls;
        let expected = walk.do_call();
        let (got, later) = rest.split_at(expected.len().min(rest.len()));
        if got != expected {
            let call = script.calls[0];
            let text = |reply| reply_text(call, reply, script.carry.len());
            let place = first_line(call, &text(&expected), &text(got));
            let script = script.text()
                + &comment("the Rust", &text(&expected))
                + &comment("second", &text(got));
            return Difference { calls, place, script };
        }
        rest = later;
    }
    no_such_call(walk.calls, "more replies than calls")
}

/// What differs first between two replies.
fn first_line(call: Call, expected: &str, got: &str) -> String {
    let name = CALLS[call.operation()];
    let mut lines = expected.lines().map(Some).chain(std::iter::repeat(None)).zip(got.lines());
    match lines.find(|(expected, got)| *expected != Some(*got)) {
        Some((None, line)) => format!("{name} {line}"),
        Some((_, line)) => {
            format!("{name} differs in its {}", line.split(' ').next().unwrap_or(""))
        }
        None => format!("{name} said too little"),
    }
}

/// The last call of a batch, within which the Rust panicked.
pub fn last_call(requests: &[u8]) -> Difference {
    let mut walk = Walk::new(requests);
    while let Some(script) = walk.next_call() {
        if walk.at_last() {
            let place = "the Rust panicked".to_string();
            return Difference { calls: walk.calls, place, script: script.text() };
        }
        walk.do_call();
    }
    no_such_call(walk.calls, "the Rust panicked, but at no call")
}

/// The first call of a batch at which the second side ends, found by doing each call alone.
pub fn first_ending(requests: &[u8], second: &mut dyn Second, ending: String) -> Difference {
    let mut walk = Walk::new(requests);
    while let Some(script) = walk.next_call() {
        let alone = [walk.spoil, &script.requests()].concat();
        if let Err(place) = second.answer(&alone, &mut Vec::new()) {
            return Difference { calls: walk.calls, place, script: script.text() };
        }
        walk.do_call();
    }
    no_such_call(walk.calls, &format!("{ending}, but at no call done alone"))
}

fn no_such_call(calls: u64, place: &str) -> Difference {
    Difference { calls, place: place.to_string(), script: String::new() }
}

/// A reply in lines: damage, out words, the state's nine words, the carry and the body.
pub fn reply_text(call: Call, reply: &[u8], carry: usize) -> String {
    let words = |from: usize, count: usize| -> String {
        let held = (from..from + count).filter(|i| 8 * i + 8 <= reply.len());
        held.map(|i| server::word_of(reply, i).to_string()).collect::<Vec<_>>().join(" ")
    };
    let outs = call.outs();
    let bytes = reply.get(8 * (1 + outs + STATE_WORDS)..).unwrap_or(&[]);
    let padded = carry.next_multiple_of(8).min(bytes.len());
    let mut text = format!("out {}\nstate {}\n", words(1, outs), words(1 + outs, STATE_WORDS));
    let _ = writeln!(text, "carry {}", hex(&bytes[..carry.min(padded)]));
    let is_frame = reply.len() >= 64 && (UBX_FRAME..=SENTENCE).contains(&server::word_of(reply, 1));
    if call == Call::Step && is_frame && bytes.len() > padded {
        let body = server::word_of(reply, 7) as usize;
        let _ = writeln!(text, "body {}", hex(&bytes[padded..(padded + body).min(bytes.len())]));
    }
    let damage = reply.first().copied().unwrap_or(0);
    if damage != 0 {
        let _ = writeln!(text, "changed {}", damage_text(damage));
    }
    text
}

fn damage_text(damage: u8) -> String {
    const NAMES: [&str; 8] = [
        "a byte before the carry",
        "a byte behind the carry",
        "a byte before the chunk",
        "a byte behind the chunk",
        "a byte of the chunk",
        "a state word from 9 on",
        "a word around the state",
        "a word around out",
    ];
    let named = NAMES.iter().enumerate().filter(|(i, _)| damage >> i & 1 == 1);
    named.map(|(_, name)| *name).collect::<Vec<_>>().join(", ")
}

/// Lines as comments of a script, each with a side's name.
pub fn comment(name: &str, text: &str) -> String {
    text.lines().map(|line| format!("# {name:<8} {line}\n")).collect()
}

fn hex(bytes: &[u8]) -> String {
    if bytes.is_empty() {
        return "-".to_string();
    }
    bytes.iter().map(|byte| format!("{byte:02X}")).collect()
}

fn unhex(words: &[&str]) -> Option<Vec<u8>> {
    let digits: String = words.iter().filter(|word| **word != "-").copied().collect();
    if digits.len() % 2 != 0 || !digits.is_ascii() {
        return None;
    }
    let pairs = (0..digits.len()).step_by(2);
    pairs.map(|i| u8::from_str_radix(&digits[i..i + 2], 16).ok()).collect()
}
