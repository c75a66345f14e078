//! The comparison: a run over all families, a capture, or one script.

use crate::command::Options;
use crate::counts::grouped;
use crate::families::{self, Family};
use crate::living;
use crate::random::Random;
use crate::run::{Run, Stop, Until};
use crate::rust_side::RustSide;
use crate::script::{self, Script};
use crate::second::Second;
use crate::server::Server;
use std::panic::{catch_unwind, AssertUnwindSafe};

/// How long a run is where nothing else is asked for.
const SECONDS: u64 = 60;
/// Lives of the Rust's own parsers, to see that the Rust made anew at each state is the same.
const LIVES: usize = 20_000;

pub fn command(options: &Options) -> Result<i32, String> {
    if !options.rest.is_empty() {
        return Err(format!("compare knows no word {}", options.rest[0]));
    }
    if options.replay.is_some() {
        return replay(options);
    }
    let lived = living::check(options.seed, LIVES)?;
    let seconds = options.seconds.or(options.calls.is_none().then_some(SECONDS));
    let mut run = Run::new(options.second(), Until { seconds, calls: options.calls });
    let mut families = families::all();
    let stop = match &options.capture {
        Some(file) => over_capture(&mut run, options.seed, file)?,
        None => guarded(&mut families, &mut run, options.seed),
    };
    if let Stop::Difference(found) = stop {
        say!("# {}, after {} calls, seed {}\n", found.place, found.calls, options.seed);
        say!("{}", found.script);
        return Ok(1);
    }
    if options.capture.is_some() {
        families.clear();
    }
    report(&run, &families, options, lived);
    Ok(0)
}

/// Goes round the families; where the Rust panics, the call at which it does is the difference.
pub fn guarded(families: &mut [Box<dyn Family>], run: &mut Run, seed: u64) -> Stop {
    let gone = catch_unwind(AssertUnwindSafe(|| families::go_round(families, run, seed)));
    gone.unwrap_or_else(|_| Stop::Difference(run.panicked()))
}

fn over_capture(run: &mut Run, seed: u64, file: &str) -> Result<Stop, String> {
    let capture = std::fs::read(file).map_err(|error| format!("{file}: {error}"))?;
    if capture.is_empty() {
        return Err(format!("{file} is empty"));
    }
    let mut random = Random::new(seed);
    loop {
        if let Err(stop) = families::run_capture(run, &mut random, &capture) {
            return Ok(stop);
        }
    }
}

fn report(run: &Run, families: &[Box<dyn Family>], options: &Options, lived: u64) {
    let (calls, seconds) = (run.counts.total(), run.seconds());
    say!("{}", options.about);
    if options.model {
        say!("the third reading stands in for the library\n");
    }
    say!("{}", run.counts);
    say!("inputs\n");
    match &options.capture {
        Some(file) => say!("  {file}\n"),
        None => families.iter().for_each(|family| say!("  {}\n", family.progress())),
    }
    say!("{}\n", run.counts.parity());
    say!("the Rust kept alive and made anew: {} calls, no difference\n", grouped(lived));
    let a_second = (calls as f64 / seconds) as u64;
    say!("seed {}, {seconds:.0} s, {} calls a second\n", options.seed, grouped(a_second));
    say!("{} calls, 0 differences\n", grouped(calls));
}

/// Does the calls of a script on both sides, and prints what each said.
fn replay(options: &Options) -> Result<i32, String> {
    let file = options.replay.as_ref().expect("a file to replay");
    let text = std::fs::read_to_string(file).map_err(|error| format!("{file}: {error}"))?;
    let script = Script::read(&text)?;
    let mut replies = Vec::new();
    let ended = options.second().answer(&script.requests(), &mut replies).err();
    let mut rust = Server::new(RustSide);
    rust.answer(&script.memory_requests(), &mut Vec::new())?;
    let mut rest = &replies[..];
    for call in &script.calls {
        let mut expected = Vec::new();
        rust.call(*call, &mut expected);
        let (got, later) = rest.split_at(expected.len().min(rest.len()));
        let text = |reply| script::reply_text(*call, reply, script.carry.len());
        say!("{}\n{}", script::call_text(*call), script::comment("the Rust", &text(&expected)));
        if let Some(how) = &ended {
            say!("{how}\n");
            return Ok(1);
        }
        say!("{}", script::comment("second", &text(got)));
        if got != expected {
            say!("this differs\n");
            return Ok(1);
        }
        rest = later;
    }
    say!("{} calls, 0 differences\n", script.calls.len());
    Ok(0)
}
