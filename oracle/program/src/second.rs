//! The second side: the library in its own process, or a framer of this program.

use crate::framer::Framer;
use crate::server::Server;
use std::io::{Read, Write};
use std::os::unix::process::ExitStatusExt;
use std::process::{Child, Command, Stdio};

pub trait Second {
    /// Answers a batch of requests; an error says how the side ended instead.
    fn answer(&mut self, requests: &[u8], replies: &mut Vec<u8>) -> Result<(), String>;
}

/// A framer of this program answers as the library's process does.
impl<F: Framer> Second for Server<F> {
    fn answer(&mut self, requests: &[u8], replies: &mut Vec<u8>) -> Result<(), String> {
        replies.clear();
        let mut at = 0;
        while at < requests.len() {
            at += 8 * self.request(&requests[at..], replies).0;
        }
        Ok(())
    }
}

/// The library's process, started anew where it has ended.
pub struct Library {
    command: Vec<String>,
    process: Option<Child>,
    /// Whether what it says on standard error is shown.
    heard: bool,
}

impl Library {
    /// The program, and before it the emulator where one is needed.
    pub fn new(emulator: &str, program: &str, heard: bool) -> Library {
        let mut command = vec![program.to_string()];
        if !emulator.is_empty() {
            command.insert(0, emulator.to_string());
        }
        Library { command, process: None, heard }
    }

    fn process(&mut self) -> Result<&mut Child, String> {
        if self.process.is_none() {
            let started = Command::new(&self.command[0])
                .args(&self.command[1..])
                .stdin(Stdio::piped())
                .stdout(Stdio::piped())
                .stderr(if self.heard { Stdio::inherit() } else { Stdio::null() })
                .spawn();
            self.process = Some(started.map_err(|e| format!("{}: {e}", self.command.join(" ")))?);
        }
        Ok(self.process.as_mut().expect("a process"))
    }

    /// How the process ended, once it no longer answers.
    fn ending(&mut self) -> String {
        let Some(mut process) = self.process.take() else {
            return "the library's process did not start".to_string();
        };
        drop(process.stdin.take());
        match process.wait() {
            Ok(status) if status.signal() == Some(14) => "the call did not come back".to_string(),
            Ok(status) => format!("the library's process ended: {status}"),
            Err(error) => format!("the library's process: {error}"),
        }
    }
}

impl Second for Library {
    fn answer(&mut self, requests: &[u8], replies: &mut Vec<u8>) -> Result<(), String> {
        let process = self.process()?;
        match converse(process, requests, replies) {
            Ok(()) => Ok(()),
            Err(_) => Err(self.ending()),
        }
    }
}

impl Drop for Library {
    fn drop(&mut self) {
        if self.process.is_some() {
            self.ending();
        }
    }
}

/// Sends a batch, and reads blocks until the empty one.
fn converse(process: &mut Child, requests: &[u8], replies: &mut Vec<u8>) -> std::io::Result<()> {
    let to = process.stdin.as_mut().expect("a pipe to the process");
    to.write_all(&(requests.len() as u64).to_le_bytes())?;
    to.write_all(requests)?;
    to.flush()?;
    let from = process.stdout.as_mut().expect("a pipe from the process");
    replies.clear();
    loop {
        let mut length = [0; 8];
        from.read_exact(&mut length)?;
        let length = u64::from_le_bytes(length) as usize;
        if length == 0 {
            return Ok(());
        }
        let had = replies.len();
        replies.resize(had + length, 0);
        from.read_exact(&mut replies[had..])?;
    }
}
