//! What a pass costs: nanoseconds by the clock, or instructions by the plugin counter.c.

use std::io::{self, BufRead, BufReader, Read};
use std::os::fd::AsRawFd;
use std::os::unix::net::UnixStream;
use std::time::Instant;

/// The system calls that the plugin answers; counter.c has them too.
const ASK_COUNT: i64 = 0x6F72_676E;
const ASK_FUNCTIONS: i64 = 0x6F72_676F;

extern "C" {
    fn syscall(number: i64, descriptor: i64) -> i64;
}

pub enum Gauge {
    Time,
    Count(Counter),
}

/// The plugin, by the two ends of what it writes to; `empty` is what a pass of nothing counts.
pub struct Counter {
    written: UnixStream,
    read: UnixStream,
    empty: u64,
}

impl Gauge {
    /// An error where the program does not run under the plugin.
    pub fn counting() -> Result<Gauge, String> {
        let failed = |error: io::Error| error.to_string();
        let (written, read) = UnixStream::pair().map_err(failed)?;
        let mut counter = Counter { written, read, empty: 0 };
        counter.read.set_nonblocking(true).map_err(failed)?;
        counter.ask(ASK_COUNT);
        counter.answer().map_err(|_| "no counter answers: run it by oracle/speed --count")?;
        counter.empty = counter.count(|| ());
        Ok(Gauge::Count(counter))
    }

    /// What a cost is counted in.
    pub fn unit(&self) -> &'static str {
        match self {
            Gauge::Time => "nanoseconds",
            Gauge::Count(_) => "instructions",
        }
    }

    /// How often a pass is repeated before its best is known: a count is the same each time.
    pub fn rounds(&self) -> usize {
        match self {
            Gauge::Time => 41,
            Gauge::Count(_) => 1,
        }
    }

    pub fn cost(&mut self, pass: impl FnOnce()) -> u64 {
        match self {
            Gauge::Time => {
                let begin = Instant::now();
                pass();
                begin.elapsed().as_nanos() as u64
            }
            Gauge::Count(counter) => counter.count(pass),
        }
    }

    /// The instructions of a pass by function, most first; none where time is measured.
    pub fn functions(&mut self, pass: impl FnOnce()) -> Vec<(u64, String)> {
        match self {
            Gauge::Time => Vec::new(),
            Gauge::Count(counter) => counter.functions(pass),
        }
    }
}

impl Counter {
    fn ask(&self, what: i64) {
        // SAFETY: a system call with a number that no kernel has, which touches no memory.
        unsafe { syscall(what, i64::from(self.written.as_raw_fd())) };
    }

    fn answer(&mut self) -> io::Result<u64> {
        let mut word = [0; 8];
        self.read.read_exact(&mut word)?;
        Ok(u64::from_ne_bytes(word))
    }

    /// Both answers are read behind the pass, so that reading is not in the count.
    fn count(&mut self, pass: impl FnOnce()) -> u64 {
        self.ask(ASK_COUNT);
        pass();
        self.ask(ASK_COUNT);
        let mut next = || self.answer().expect("the counter's answer");
        let begin = next();
        next() - begin - self.empty
    }

    fn functions(&mut self, pass: impl FnOnce()) -> Vec<(u64, String)> {
        self.ask(ASK_FUNCTIONS);
        pass();
        self.ask(ASK_FUNCTIONS);
        let mut lines = BufReader::new(&self.read).lines().map(|line| line.expect("a line"));
        lines.by_ref().take_while(|line| !line.is_empty()).for_each(drop);
        let told = lines.take_while(|line| !line.is_empty());
        let mut counts: Vec<(u64, String)> = told
            .filter_map(|line| {
                let (count, name) = line.split_once(' ')?;
                Some((count.parse().ok()?, name.to_string()))
            })
            .collect();
        counts.sort_by(|a, b| b.cmp(a));
        counts
    }
}
