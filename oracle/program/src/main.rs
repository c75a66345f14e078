//! The comparing program: the Rust against the library, its wrong versions, and the vectors.

/// Writes to standard output; nobody reading it is no reason to stop.
macro_rules! say {
    ($($text:tt)*) => {{
        use std::io::Write;
        let _ = write!(std::io::stdout(), $($text)*);
    }};
}

mod bytes;
mod command;
mod compare;
mod counts;
mod families;
mod framer;
mod living;
mod model;
mod mutants;
mod random;
mod refusals;
mod run;
mod rust_side;
mod script;
mod second;
mod server;
mod vectors;
mod words;
mod wrong;

fn main() {
    std::process::exit(command::run(std::env::args().skip(1).collect()));
}
